"""What tools/to_coq.py reads: a script with the texts of its assertions and definitions, or a problem of tools/to_problem.py."""

import check_derivation as checker


class Script(checker.Script):
    """A script that remembers the text of each assertion in force, and the command of each definition."""

    def __init__(self):
        self.texts = []
        super().__init__()

    def answer(self, command, wanted):
        count = len(self.assertions)
        ended = super().answer(command, wanted)
        word = command[0] if command else None
        if word == b"assert" and len(self.assertions) > count:
            text, label = checker.labelled(command[1])
            self.texts.append((text, label))
            self.remember(label, [], b"Bool", text)
        elif word == b"define-fun" and len(command) == 5:
            self.remember(checker.name_of(command[1]), *command[2:])
        elif word == b"define-const" and len(command) == 4:
            self.remember(checker.name_of(command[1]), [], *command[2:])
        del self.texts[len(self.assertions):]
        return ended

    def remember(self, name, parameters, result, body):
        symbol = self.symbols.get(name)
        if type(symbol) is checker.Definition and not hasattr(symbol, "text"):
            symbol.text = parameters, result, body


def read(proof, script):
    """The derivation over the script at its check; `checker.ItemError` where it cannot be read."""
    kept, checker.Script = checker.Script, Script
    try:
        return checker.read_derivation(proof, script)
    finally:
        checker.Script = kept


class Declared:
    """What a problem declares and asserts, with the attributes of a script that are used here."""

    def __init__(self):
        self.sorts = {}
        self.instances = {}
        self.symbols = {}
        self.texts = None
        self.order = []
        self.assertions = []

    def all_sorts(self):
        return self.order


class Problem:
    """Reads the items of a problem."""

    def __init__(self):
        self.declared = Declared()
        self.derivation = checker.Derivation(self.declared)
        self.constructors = []
        self.functions = []

    def read(self, items):
        for place, item in enumerate(items):
            try:
                getattr(self, "item_" + item[0].decode().replace("-", "_"))(*item[1:])
            except checker.WrongItem as wrong:
                raise checker.ItemError(place, wrong.error) from None
            except (AttributeError, IndexError, KeyError, TypeError, ValueError):
                raise checker.ItemError(place, 41) from None
        self.declared.terms = checker.Terms([])
        self.declared.terms.numbers = self.derivation.numbers
        return self.derivation

    def item_cosmt_problem(self, version):
        checker.form(version == 1)

    def item_sort(self, number, kind, name):
        checker.form(number == len(self.declared.order))
        sort = checker.Sort(checker.name_of(name), {b"bool": "Bool"}.get(kind, kind.decode()))
        self.declared.order.append(sort)
        if number == 0:
            self.declared.bool = sort

    def item_constructor(self, number, sort, name, *fields):
        checker.form(number == len(self.constructors))
        constructor = checker.Constructor(checker.name_of(name), self.declared.order[sort])
        constructor.arguments = [self.declared.order[field[1]] for field in fields]
        constructor.selectors = [checker.Selector(checker.name_of(field[0]), constructor, place, result)
                                 for place, (field, result) in enumerate(zip(fields, constructor.arguments))]
        constructor.result.constructors.append(constructor)
        self.constructors.append(constructor)

    def item_function(self, number, name, arguments, result):
        checker.form(number == len(self.functions))
        sorts = self.declared.order
        self.functions.append(checker.Function(checker.name_of(name), [sorts[sort] for sort in arguments], sorts[result]))

    def item_t(self, number, sort, word, *parts):
        derivation = self.derivation
        checker.form(number == len(derivation.heads))
        head, under = self.head(word, list(parts))
        checker.form(all(part < number for part in under) and (head, *under) not in derivation.numbers)
        result = self.declared.order[sort]
        derivation.numbers[(head, *under)] = number
        derivation.heads.append(head)
        derivation.under.append(under)
        derivation.sorts.append(result)
        derivation.literals.append(derivation.literal_of(number, head, under, result))
        derivation.count = number + 1

    def head(self, word, parts):
        if word == b"con":
            return self.constructors[parts[0]], parts[1:]
        if word == b"is":
            return self.constructors[parts[0]].tester, parts[1:]
        if word == b"app":
            return self.functions[parts[0]], parts[1:]
        if word == b"sel":
            return self.constructors[parts[0]].selectors[parts[1]], parts[2:]
        return checker.PLAIN_HEADS[word], parts

    def item_assert(self, number):
        checker.form(number < len(self.derivation.heads))
        self.declared.assertions.append(number)

    def item_s(self, *parts):
        self.derivation.item(self.derivation.line, [b"s", *parts])

    def item_end(self, count):
        checker.form(count == len(self.derivation.lines))


def read_problem(text):
    """The derivation of a problem, over what it declares."""
    try:
        items = list(checker.expressions(text))
    except checker.TextError:
        items = []
    if len(items) != 1:
        raise checker.ItemError(0, 41)
    return Problem().read(items[0])
