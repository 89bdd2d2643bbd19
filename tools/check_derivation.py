#!/usr/bin/env python3
"""Checks a derivation of `unsat` against the script that it is of, apart from the solver.

usage: tools/check_derivation.py PROOF SCRIPT

PROOF holds the text that `get-proof` wrote (docs/DERIVATIONS.md), SCRIPT the script (docs/LANGUAGE.md). A first line `unsat` in PROOF, as
it stands before that text where the output of the solver was saved, is passed over. One line is written, and the status is that of
`cosmt --audit PROOF SCRIPT` (LANGUAGE, Audits), which takes no such line:

    verified                         0  no interpretation makes the assertions of that check all true
    rejected N                       6  line N of the derivation is the first that is not accepted
    (error "item N: [Ek] text")      6  item N of its text is the first that cannot be read

2: not two arguments. 3: a file cannot be read. 4: the line cannot be written. 5: memory ran out. 7: a file has more than 67,108,864
bytes.

What it is for: whoever does not want to believe the solver, nor its proofs and the tools that checked them, believes these pages
of Python. They were written from the two pages alone, share nothing with the solver, and use the standard library alone.

What is trusted: this file, Python and the machine; that the rules of DERIVATIONS are sound; and that the script says what is
meant by it. The file has four parts: the texts, the script up to the check with the terms of its assertions, the reading of a
derivation, and its rules, one function each. Nothing recurses over the depth of a text or of a term.
"""

import bisect
import gc
import re
import sys
from collections import Counter, defaultdict
from itertools import accumulate, combinations, islice, product
from operator import itemgetter

MOST_BYTES = 67108864
MOST_DEPTH = 1000
MOST_TERMS = 400000
MOST_LEVELS = 10000
MOST_SORTS = 4096
MOST_CONSTRUCTORS = 16384
MOST_SELECTORS = 65536
MOST_FUNCTIONS = 65536
MOST_DEFINITIONS = 65536
MOST_ARGUMENTS = 255
MOST_REACHED = 4096
MOST_TEXT = 65536
MOST_VALUES = 4096
WORD_BOUND = 2**64
NUMERAL_BOUND = 2**128
VERDICT = re.compile(rb"\Aunsat\r?\n")


# ---------------------------------------------------------------------------------------------------------------------
# Texts. An expression is a list of expressions, or an atom: an int for a numeral, else the bytes as they stand, of which the first
# tells the kind.

class TextError(Exception):
    """The text ends here: an error E1 to E6."""


WORD_BYTE = rb"[A-Za-z0-9~!@$%^&*_\-+=<>.?/]"
SYMBOL = rb"[A-Za-z~!@$%^&*_\-+=<>.?/]" + WORD_BYTE + rb"*"
TOKEN = re.compile(
    WORD_BYTE + rb"+|[()]|[:#]" + WORD_BYTE + rb'+|\|[^|\\]*\||"[^"]*(?:""[^"]*)*"|;[^\n\r]*|[^ \t\n\r]')
ATOM = re.compile(
    rb":?" + SYMBOL + rb'|\|.*\||".*"|#b[01]+|#x[0-9A-Fa-f]+|[0-9]+(?:\.[0-9]+)?', re.DOTALL)


def atom_of(token):
    """The atom that a token is."""
    if not ATOM.fullmatch(token):
        raise TextError
    if not token.isdigit():
        return token
    digits = token.lstrip(b"0") or b"0"
    if len(digits) > 39 or int(digits) >= NUMERAL_BOUND:
        raise TextError
    return int(digits)


def expressions(text):
    """The lists of a text, one by one. What is no list, and what no list begins or ends with, is an error."""
    atoms = {}
    opened = []
    inner = None
    for token in map(itemgetter(0), TOKEN.finditer(text)):
        atom = atoms.get(token)
        if atom is None:
            if token == b"(":
                if len(opened) == MOST_DEPTH:
                    raise TextError
                opened.append(inner)
                inner = []
                continue
            if token == b")":
                if not opened:
                    raise TextError
                ended, inner = inner, opened.pop()
                if opened:
                    inner.append(ended)
                else:
                    yield ended
                continue
            if token[0] == ord(";"):
                continue
            atom = atoms[token] = atom_of(token)
        if inner is None:
            raise TextError
        inner.append(atom)
    if opened:
        raise TextError


RESERVED = frozenset(
    b"! _ as BINARY DECIMAL exists forall HEXADECIMAL lambda let match NUMERAL par STRING".split())
NO_SYMBOL = frozenset(b':"#0123456789')


def name_of(atom):
    """The name that an expression is as a symbol, simple or quoted, or None. A reserved word is none."""
    if type(atom) is not bytes or atom in RESERVED or atom[0] in NO_SYMBOL:
        return None
    return atom[1:-1] if atom[0] == ord("|") else atom


def is_keyword(atom):
    return type(atom) is bytes and atom[0] == ord(":")


def labelled(text):
    """The term that an assertion says and its label, None where it has none. Where attributes have another form, the whole is left."""
    if type(text) is not list or len(text) < 3 or text[0] != b"!" or b":named" not in text[2:]:
        return text, None
    attributes = text[2:]
    place = attributes.index(b":named") + 1
    require(attributes.count(b":named") == 1 and place < len(attributes) and name_of(attributes[place]) is not None)
    for before, part in zip([text[1], *attributes], attributes):
        if not is_keyword(part) and (before is text[1] or not is_keyword(before)):
            return text, None
    return text[1], name_of(attributes[place])


# ---------------------------------------------------------------------------------------------------------------------
# What a script declares. A constructor, selector, tester and function is itself the head of its terms.

class Sort:
    """A sort: one that was declared, or a generic at sorts."""

    generic = None

    def __init__(self, name, kind):
        self.name = name
        self.kind = kind  # "Bool", "uninterpreted", "datatype" or "codatatype"
        self.constructors = []


class Generic:
    """A name of sorts with arguments. Its constructors and selectors are those of its sorts, with sort expressions in place of sorts."""

    def __init__(self, name, kind, parameters):
        self.name = name
        self.kind = kind
        self.parameters = parameters
        self.constructors = []


class Synonym:
    def __init__(self, parameters, body):
        self.parameters = parameters
        self.body = body


class SortExpression:
    """A parameter by its number, or a sort or generic with arguments. Each stands once, so two are equal where they are one."""

    def __init__(self, head, arguments):
        self.head = head
        self.arguments = arguments
        if type(head) is int:
            self.length = 1
        else:
            self.length = len(text_of_name(head.name)) + sum(1 + argument.length for argument in arguments)
            self.length += 2 if arguments else 0


class GenericConstructor:
    def __init__(self, name, generic, place):
        self.name = name
        self.generic = generic
        self.place = place
        self.selectors = []
        self.arguments = []  # sort expressions

    def determined(self):
        """Whether the sorts of the fields determine what all parameters stand for."""
        found = {expression.head for expression in under(self.arguments) if type(expression.head) is int}
        return len(found) == self.generic.parameters


class GenericSelector:
    arguments = (None,)

    def __init__(self, name, constructor, place):
        self.name = name
        self.constructor = constructor
        self.place = place


def under(expressions):
    """The sort expressions in some sort expressions, each once."""
    seen = set(expressions)
    waiting = list(seen)
    while waiting:
        for argument in waiting.pop().arguments:
            if argument not in seen:
                seen.add(argument)
                waiting.append(argument)
    return seen


def matches(field, expression, found):
    """Whether a field's sort expression is a sort, where parameters stand for what they were found to be first."""
    pairs = [(field, expression)]
    while pairs:
        field, expression = pairs.pop()
        if type(field.head) is int:
            if found.setdefault(field.head, expression) is not expression:
                return False
        elif field.head is not expression.head:
            return False
        else:
            pairs.extend(zip(field.arguments, expression.arguments))
    return True


def text_of_name(name):
    return name if re.fullmatch(SYMBOL, name) and name not in RESERVED else b"|" + name + b"|"


def text_of_expression(expression):
    """The text of a sort."""
    pieces = []
    waiting = [expression]
    while waiting:
        part = waiting.pop()
        if type(part) is bytes:
            pieces.append(part)
            continue
        name = text_of_name(part.head.name)
        if not part.arguments:
            pieces.append(name)
            continue
        pieces.append(b"(" + name)
        waiting.append(b")")
        for argument in reversed(part.arguments):
            waiting.append(argument)
            waiting.append(b" ")
    return b"".join(pieces)


def text_of_sort(text):
    """The text of a sort that is written, or None where it has the form of none."""
    pieces = []
    waiting = [text]
    while waiting:
        part = waiting.pop()
        if type(part) is str:
            pieces.append(part.encode())
        elif type(part) is list:
            if len(part) < 2 or name_of(part[0]) is None:
                return None
            pieces.append(b"(")
            waiting.append(")")
            for i, inner in reversed(list(enumerate(part))):
                waiting.append(inner)
                if i:
                    waiting.append(" ")
        else:
            name = name_of(part)
            if name is None:
                return None
            pieces.append(text_of_name(name))
    return b"".join(pieces)


class Constructor:
    written = None  # the sort expressions of its fields, where a block declares it

    def __init__(self, name, result):
        self.name = name
        self.result = result
        self.selectors = []
        self.arguments = []
        self.tester = Tester(self)


class Selector:
    def __init__(self, name, constructor, place, result):
        self.name = name
        self.constructor = constructor
        self.place = place
        self.arguments = [constructor.result]
        self.result = result


class Tester:
    def __init__(self, constructor):
        self.constructor = constructor


class Function:
    def __init__(self, name, arguments, result):
        self.name = name
        self.arguments = arguments
        self.result = result


class Definition:
    """A definition with the code of its body over those of its parameters that occur in the body's term."""

    def __init__(self, name, arguments, result, used, code):
        self.name = name
        self.arguments = arguments
        self.result = result
        self.used = used
        self.code = code


class Refused(Exception):
    """A command has an error, and changes nothing."""


def require(condition):
    if not condition:
        raise Refused


OPERATORS = frozenset(b"not and or xor => = distinct ite".split())
NOT, AND, OR, IFF, EQUAL, ITE = "not", "and", "or", "iff", "=", "ite"
PARAMETER, DISTINCT, DISTINCT_BOOL = "parameter", "distinct", "distinct Bool"


# ---------------------------------------------------------------------------------------------------------------------
# Expressions

def without_recursion(routine):
    """Runs a generator that yields the generators it waits for, and gives what it returns."""
    waiting = [routine]
    value = None
    while waiting:
        try:
            called = waiting[-1].send(value)
        except StopIteration as ended:
            waiting.pop()
            value = ended.value
        else:
            waiting.append(called)
            value = None
    return value


class Elaboration:
    """One expression, read over what is declared. Its nodes are numbered: each is a head with the numbers of the nodes under it, which
    are smaller. Nothing is left of variables, `let` and `match`; calls of definitions and `distinct` stand as they are. The body of a
    quantifier is a definition over the variables in scope, which is called at each list of values."""

    def __init__(self, script):
        self.script = script
        self.values = {}
        self.firsts = {}
        self.heads = []
        self.under = []
        self.sorts = []
        self.variables = {}

    def node(self, head, under, sort):
        self.heads.append(head)
        self.under.append(under)
        self.sorts.append(sort)
        return len(self.heads) - 1

    def boolean(self, head, *under):
        return self.node(head, under, self.script.bool)

    def root(self, text):
        """The node of an expression."""
        return without_recursion(self.lists([text]))[0]

    def lists(self, texts):
        """The nodes of some expressions."""
        nodes = []
        for text in texts:
            nodes.append((yield self.application(text)) if type(text) is list else self.alone(text))
        return nodes

    def alone(self, atom):
        """A symbol alone."""
        name = name_of(atom)
        require(name is not None)
        if name in self.variables:
            return self.variables[name]
        return self.applied(self.script.symbols.get(name), ())

    def applied(self, symbol, nodes):
        """A constructor, selector, function or definition over its arguments."""
        require(symbol is not None and len(nodes) == len(symbol.arguments))
        if type(symbol) is GenericConstructor:
            require(symbol.determined())
            symbol = self.script.constructor(symbol, [self.sorts[node] for node in nodes])
        elif type(symbol) is GenericSelector:
            constructor = at_sort(symbol.constructor, self.sorts[nodes[0]])
            require(constructor is not None)
            symbol = constructor.selectors[symbol.place]
        for node, sort in zip(nodes, symbol.arguments):
            require(self.sorts[node] is sort)
        return self.node(symbol, nodes, symbol.result)

    def application(self, text):
        """A list."""
        require(text)
        head = text[0]
        if type(head) is list:
            return (yield self.with_listed_head(head, text))
        if head in KEYWORDS:
            return (yield KEYWORDS[head](self, text))
        name = name_of(head)
        require(name is not None and len(text) > 1 and name not in self.variables)
        if name in OPERATORS:
            nodes = yield self.lists(text[1:])
            return self.operator(name, nodes)
        symbol = self.script.symbols.get(name)
        if symbol is None and name.startswith(b"is-"):
            return (yield self.tested(name[3:], text[1:]))
        require(symbol is not None and len(symbol.arguments) == len(text) - 1)
        return self.applied(symbol, (yield self.lists(text[1:])))

    def tested(self, name, texts):
        """The tester of the constructor of the name, over the one term."""
        symbol = self.script.symbols.get(name)
        require(type(symbol) in (Constructor, GenericConstructor) and symbol not in self.script.bool.constructors)
        require(len(texts) == 1)
        nodes = yield self.lists(texts)
        constructor = at_sort(symbol, self.sorts[nodes[0]])
        require(constructor is not None)
        return self.boolean(constructor.tester, *nodes)

    def with_listed_head(self, head, text):
        """`((_ is C) t)` and `((as f S) t ..)`."""
        require(len(head) == 3 and len(text) > 1)
        if head[0] == b"as":
            symbol = self.ascribed(head)
            require(len(symbol.arguments) == len(text) - 1)
            return self.applied(symbol, (yield self.lists(text[1:])))
        require(head[0] == b"_" and name_of(head[1]) == b"is")
        return (yield self.tested(name_of(head[2]), text[1:]))

    def ascribed(self, text):
        """The symbol of `(as f S)`."""
        require(len(text) == 3)
        name = name_of(text[1])
        require(name not in self.variables)
        symbol = self.script.symbols.get(name)
        require(type(symbol) in (Constructor, GenericConstructor, Function, Definition))
        sort = self.script.sort(text[2])
        if type(symbol) is GenericConstructor:
            symbol = at_sort(symbol, sort)
        require(symbol is not None and symbol.result is sort)
        return symbol

    def ascription(self, text):
        return self.applied(self.ascribed(text), ())
        yield

    def attributed(self, text):
        """`(! t :k v ..)`."""
        require(len(text) > 2 and is_keyword(text[2]))
        for i, part in enumerate(text[2:], 2):
            require(is_keyword(part) or is_keyword(text[i - 1]))
            require(part != b":named")
        return (yield self.lists(text[1:2]))[0]

    def operator(self, name, nodes):
        """An operator over its arguments."""
        sorts = [self.sorts[node] for node in nodes]
        if name == b"ite":
            require(len(nodes) == 3 and sorts[0] is self.script.bool and sorts[1] is sorts[2])
            return self.node(ITE, nodes, sorts[1])
        if name in (b"=", b"distinct"):
            require(len(nodes) > 1 and all(sort is sorts[0] for sort in sorts))
            return self.equation(nodes) if name == b"=" else self.distinction(nodes)
        require(all(sort is self.script.bool for sort in sorts))
        if name == b"not":
            require(len(nodes) == 1)
            return self.boolean(NOT, *nodes)
        if name in (b"and", b"or"):
            return nodes[0] if len(nodes) == 1 else self.boolean(AND if name == b"and" else OR, *nodes)
        require(len(nodes) > 1)
        if name == b"xor":
            last = nodes[0]
            for node in nodes[1:]:
                last = self.boolean(NOT, self.boolean(IFF, last, node))
            return last
        last = nodes[-1]
        for node in nodes[-2::-1]:
            last = self.boolean(OR, self.boolean(NOT, node), last)
        return last

    def equation(self, nodes):
        head = IFF if self.sorts[nodes[0]] is self.script.bool else EQUAL
        equations = [self.boolean(head, left, right) for left, right in zip(nodes, nodes[1:])]
        return equations[0] if len(equations) == 1 else self.boolean(AND, *equations)

    def distinction(self, nodes):
        return self.boolean(DISTINCT_BOOL if self.sorts[nodes[0]] is self.script.bool else DISTINCT, *nodes)

    def bind(self, bindings):
        """Binds variables, and gives what `unbind` wants."""
        before = {name: self.variables.get(name) for name in bindings}
        self.variables.update(bindings)
        return before

    def unbind(self, before):
        for name, node in before.items():
            if node is None:
                del self.variables[name]
            else:
                self.variables[name] = node

    def let(self, text):
        """`(let ((x t) ..) u)`."""
        require(len(text) == 3 and type(text[1]) is list and text[1])
        for binding in text[1]:
            require(type(binding) is list and len(binding) == 2)
        names = [name_of(binding[0]) for binding in text[1]]
        require(None not in names and len(set(names)) == len(names))
        nodes = yield self.lists([binding[1] for binding in text[1]])
        before = self.bind(dict(zip(names, nodes)))
        body = (yield self.lists(text[2:]))[0]
        self.unbind(before)
        return body

    def quantified(self, text):
        """`(forall ((x S) ..) t)` and `(exists ((x S) ..) t)`."""
        require(len(text) == 3 and type(text[1]) is list and text[1])
        for binding in text[1]:
            require(type(binding) is list and len(binding) == 2)
        names = [name_of(binding[0]) for binding in text[1]]
        require(None not in names and len(set(names)) == len(names))
        sorts = [self.script.sort(binding[1]) for binding in text[1]]
        counts = {}
        lists = 1
        for sort in sorts:
            counts.update(count_values(sort))
            require(sort in counts)
            lists *= counts[sort]
        require(lists <= MOST_VALUES)
        outer = list(self.variables.items())
        inside = Elaboration(self.script)
        for name, sort in [(name, self.sorts[node]) for name, node in outer] + list(zip(names, sorts)):
            inside.variables[name] = inside.node(PARAMETER, (), sort)
        body = (yield inside.lists(text[2:]))[0]
        require(inside.sorts[body] is self.script.bool)
        used, code = inside.code(body, len(outer) + len(names))
        # The nodes of values that occur, and one place for each value that does not.
        values = []
        for place, sort in enumerate(sorts, len(outer)):
            nodes = []
            for number in range(counts[sort]):
                nodes.append((yield self.value(sort, number, counts)) if place in used else None)
            values.append(nodes)
        definition = Definition(None, None, self.script.bool, used, code)
        calls = {}
        nodes = []
        for chosen in product(*values):
            if chosen not in calls:
                calls[chosen] = self.boolean(definition, *(node for name, node in outer), *chosen)
            nodes.append(calls[chosen])
        return self.operator(b"and" if text[0] == b"forall" else b"or", nodes)

    def value(self, sort, number, counts):
        """The node of the value of a listable sort with this number, from 0 on: constructor by constructor, the first field slowest."""
        if (sort, number) not in self.values:
            constructor, rest = self.constructor_of(sort, number, counts)
            nodes = []
            for i, field in enumerate(constructor.arguments):
                after = choices(constructor.arguments[i + 1:], counts)
                nodes.append((yield self.value(field, rest // after, counts)))
                rest %= after
            self.values[sort, number] = self.node(constructor, nodes, sort)
        return self.values[sort, number]

    def constructor_of(self, sort, number, counts):
        """The constructor of the value with this number, and the number of the value among those of the constructor."""
        if sort not in self.firsts:
            ways = [choices(constructor.arguments, counts) for constructor in sort.constructors]
            self.firsts[sort] = list(accumulate(ways, initial=0))
        place = bisect.bisect_right(self.firsts[sort], number) - 1
        return sort.constructors[place], number - self.firsts[sort][place]

    def match(self, text):
        """`(match t ((p u) ..))`."""
        require(len(text) == 3 and type(text[2]) is list)
        for case in text[2]:
            require(type(case) is list and len(case) == 2)
        subject = (yield self.lists(text[1:2]))[0]
        sort = self.sorts[subject]
        require(sort.kind in ("datatype", "codatatype"))
        cases = []
        seen = set()
        complete = False
        for pattern, body in text[2]:
            constructor, bindings = self.pattern(pattern, subject)
            before = self.bind(bindings)
            node = (yield self.lists([body]))[0]
            self.unbind(before)
            require(not cases or self.sorts[node] is self.sorts[cases[0][1]])
            if not complete:
                cases.append((constructor, node))
                seen.add(constructor)
                complete = constructor is None or len(seen) == len(sort.constructors)
        require(complete)
        return self.choice(subject, cases)

    def choice(self, subject, cases):
        """The first case that fits; the last one surely does."""
        last = cases[-1][1]
        for constructor, node in cases[-2::-1]:
            test = self.boolean(constructor.tester, subject)
            last = self.node(ITE, (test, node, last), self.sorts[node])
        return last

    def pattern(self, pattern, subject):
        """The constructor of a pattern, or None for one that fits everything, and what its variables stand for."""
        symbols = self.script.symbols
        if type(pattern) is not list:
            if pattern == b"_":
                return None, {}
            name = name_of(pattern)
            require(name is not None)
            symbol = symbols.get(name)
            if type(symbol) not in (Constructor, GenericConstructor):
                return None, {name: subject}
            names = []
        else:
            require(len(pattern) > 1)
            symbol = symbols.get(name_of(pattern[0]))
            require(type(symbol) in (Constructor, GenericConstructor))
            names = [None if x == b"_" else name_of(x) for x in pattern[1:]]
            require(all(name is not None or x == b"_" for name, x in zip(names, pattern[1:])))
        constructor = at_sort(symbol, self.sorts[subject])
        require(constructor is not None and len(names) == len(constructor.selectors))
        bindings = {}
        for name, selector in zip(names, constructor.selectors):
            if name is not None:
                require(name not in bindings)
                bindings[name] = self.node(selector, (subject,), selector.result)
        return constructor, bindings

    def code(self, root, parameters):
        """The places of the parameters that occur in the term of a node, and the heads and places of the nodes that do, in order: the
        places of used parameters come first. The root is the last one."""
        wanted = bytearray(root + 1)
        wanted[root] = 1
        for node in range(root, -1, -1):
            if wanted[node]:
                self.under[node] = self.needed(node)
                for below in self.under[node]:
                    wanted[below] = 1
        used = tuple(node for node in range(min(parameters, root + 1)) if wanted[node])
        places = {node: place for place, node in enumerate(used)}
        code = []
        for node in range(parameters, root + 1):
            if wanted[node]:
                places[node] = len(places)
                code.append((self.heads[node], tuple([places[below] for below in self.under[node]])))
        return used, code

    def needed(self, node):
        """The nodes right under a node that occur in its term."""
        head = self.heads[node]
        return [self.under[node][i] for i in head.used] if type(head) is Definition else self.under[node]


def at_sort(symbol, sort):
    """The constructor that a name is at this sort, or None where it is of another one."""
    if type(symbol) is GenericConstructor:
        return sort.constructors[symbol.place] if sort.generic is symbol.generic else None
    return symbol if symbol.result is sort else None


def choices(sorts, counts):
    """How many lists of values of these sorts there are, cut off beyond MOST_VALUES."""
    lists = 1
    for sort in sorts:
        lists = min(lists * counts[sort], MOST_VALUES + 1)
    return lists


def count_values(sort):
    """The listable sorts among those that a sort reaches, with their numbers of values, cut off beyond MOST_VALUES."""
    reached = [sort]
    seen = {sort}
    missing = {}
    over = defaultdict(list)
    ready = []
    for sort in reached:
        fields = {field for constructor in sort.constructors for field in constructor.arguments}
        missing[sort] = len(fields)
        if not fields and sort.kind != "uninterpreted":
            ready.append(sort)
        for field in fields:
            over[field].append(sort)
            if field not in seen:
                seen.add(field)
                reached.append(field)
    counts = {}
    while ready:
        sort = ready.pop()
        counts[sort] = min(sum(choices(constructor.arguments, counts) for constructor in sort.constructors), MOST_VALUES + 1)
        for user in over[sort]:
            missing[user] -= 1
            if not missing[user]:
                ready.append(user)
    return counts


def no_form(elaboration, text):
    """A reserved word that begins no expression."""
    raise Refused
    yield


KEYWORDS = {word: no_form for word in RESERVED}
KEYWORDS.update({b"let": Elaboration.let, b"match": Elaboration.match, b"as": Elaboration.ascription,
                 b"!": Elaboration.attributed, b"forall": Elaboration.quantified, b"exists": Elaboration.quantified})


# ---------------------------------------------------------------------------------------------------------------------
# The terms of the assertions

class Terms:
    """Terms by numbers: each is a head with the numbers right under it, which are smaller. None stands twice."""

    def __init__(self, heads):
        self.numbers = {}
        self.calls = {}
        for head in heads:
            self.term(head, ())

    def term(self, head, under):
        """The number of a term, which is refused where there are too many."""
        key = (head, *under)
        number = self.numbers.get(key)
        if number is None:
            number = len(self.numbers)
            require(number < MOST_TERMS)
            self.numbers[key] = number
        return number

    def mark(self):
        return len(self.numbers), len(self.calls)

    def back_to(self, mark):
        for entries, length in zip((self.numbers, self.calls), mark):
            while len(entries) > length:
                entries.popitem()

    def of_code(self, code):
        """The term of the code of an assertion. Calls that are not known wait for each other in a list."""
        waiting = [(None, 0, code, [])]
        while True:
            call, parameters, code, values = waiting[-1]
            called = self.go_on(code, values, len(values) - parameters)
            if called is not None:
                definition, *arguments = called
                waiting.append((called, len(arguments), definition.code, arguments))
                continue
            waiting.pop()
            if not waiting:
                return values[-1]
            self.calls[call] = values[-1]

    def go_on(self, code, values, start):
        """Adds the values of code from a place on, up to a call that is not known, which is given."""
        for head, places in islice(code, start, None):
            under = [values[place] for place in places]
            if type(head) is Definition:
                call = (head, *under)
                if call not in self.calls:
                    return call
                values.append(self.calls[call])
            elif head is DISTINCT or head is DISTINCT_BOOL:
                values.append(self.distinct(EQUAL if head is DISTINCT else IFF, under))
            else:
                values.append(self.term(head, under))
        return None

    def distinct(self, head, under):
        """No two are equal."""
        pairs = [self.term(NOT, (self.term(head, pair),)) for pair in combinations(under, 2)]
        return pairs[0] if len(pairs) == 1 else self.term(AND, pairs)


# ---------------------------------------------------------------------------------------------------------------------
# Commands

NUMERAL_OPTIONS = frozenset(b":reproducible-resource-limit :verbosity :random-seed".split())
STRING_OPTIONS = frozenset(b":diagnostic-output-channel :regular-output-channel".split())
BOOLEAN_OPTIONS = frozenset(
    b":print-success :global-declarations :produce-models :produce-proofs :produce-assertions :produce-assignments "
    b":produce-unsat-cores :produce-unsat-assumptions :minimal-unsat-cores".split())
LOGIC_PART = re.compile(rb"AX|A|UF|BV|FP|DT|S|IDL|RDL|LIA|LRA|LIRA|NIA|NRA|NIRA")


def is_logic(name):
    """Whether the name is one without parts, or different parts one after another, with `QF_` before them or without."""
    if name in (b"ALL", b"ALL_SUPPORTED"):
        return True
    left = name.removeprefix(b"QF_")
    parts = LOGIC_PART.findall(left)
    return parts != [] and b"".join(parts) == left and len(set(parts)) == len(parts)


class Script:
    """What is declared, defined and asserted, at one moment of a script."""

    def __init__(self):
        self.bool = Sort(b"Bool", "Bool")
        self.checks = 0
        self.start()

    def start(self):
        """All as at the start, but for the number of checks."""
        self.globally = False
        self.ends_at_errors = False  # whether a refused command ends the script
        self.standing = None  # the word of the check whose verdict stands, whatever it is
        self.outset()

    def outset(self):
        """Nothing is declared and asserted."""
        self.sorts = {b"Bool": self.bool}  # sorts, generics and synonyms by their names
        self.instances = {}  # sorts with arguments by what they are
        self.shared = {}
        self.symbols = {}
        self.bool.constructors = [Constructor(name, self.bool) for name in (b"true", b"false")]
        for constructor in self.bool.constructors:
            self.symbols[constructor.name] = constructor
        self.counts = Counter({Constructor: 2})
        self.terms = Terms(self.bool.constructors)
        self.assertions = []
        self.levels = []

    def answer(self, command, wanted):
        """Does a command, and says whether nothing after it is looked at: it is `exit`, the check of the number that is wanted, or a
        refused command where these end the script. A command that asks for what a verdict left is refused here for its form, or where
        no such verdict stands."""
        word = command[0] if command else None
        if word == b"exit" and len(command) == 1:
            return True
        if word == b"check-sat" and len(command) == 1:
            self.checks += 1
            self.standing = word
            return self.checks == wanted
        before = self.declared()
        try:
            require(type(word) is bytes and word in COMMANDS)
            COMMANDS[word](self, *command[1:])
        except Refused:
            self.take_back(*before)
            return self.ends_at_errors
        if word in CHANGES:
            self.standing = None
        elif word == b"check-sat-assuming":
            self.standing = word
        return False

    def declared(self):
        """How much is declared."""
        return len(self.sorts), len(self.instances), len(self.symbols), Counter(self.counts)

    def take_back(self, sorts, instances, symbols, counts):
        """Leaves what was declared."""
        for entries, length in ((self.sorts, sorts), (self.instances, instances), (self.symbols, symbols)):
            while len(entries) > length:
                entries.popitem()
        self.counts = Counter(counts)

    # Sorts

    def expression(self, head, arguments=()):
        """The sort expression of a parameter, a sort or a generic with arguments."""
        key = (head, *arguments)
        if key not in self.shared:
            self.shared[key] = SortExpression(head, arguments)
        return self.shared[key]

    def written(self, text, parameters, heads):
        """The sort expression that a text writes over parameters, where names stand for these sorts, generics and synonyms."""
        name = name_of(text[0] if type(text) is list and len(text) > 1 else text)
        require(name is not None)
        if name in parameters:
            require(type(text) is not list)
            return self.expression(parameters[name])
        require(name in heads)
        head = heads[name]
        wanted = 0 if type(head) is Sort else head.parameters
        require(wanted == (len(text) - 1 if type(text) is list else 0))
        arguments = []
        for part in text[1:] if wanted else ():
            arguments.append((yield self.written(part, parameters, heads)))
        if type(head) is Synonym:
            return self.substitute(head.body, arguments)
        return self.expression(head, tuple(arguments))

    def substitute(self, expression, arguments):
        """The expression with arguments in place of its parameters."""
        done = {}
        waiting = [expression]
        while waiting:
            part = waiting[-1]
            missing = [argument for argument in part.arguments if argument not in done]
            if missing:
                waiting.extend(missing)
                continue
            waiting.pop()
            if type(part.head) is int:
                done[part] = arguments[part.head]
            else:
                done[part] = self.expression(part.head, tuple([done[argument] for argument in part.arguments]))
        return done[expression]

    def fields(self, expression):
        """The sorts of the fields of each constructor of a sort expression."""
        head = expression.head
        if type(head) is int:
            return []
        return [[self.substitute(field, expression.arguments) for field in self.field_expressions(constructor)]
                for constructor in head.constructors]

    def field_expressions(self, constructor):
        if type(constructor) is Constructor and constructor.written is None:
            return [self.expression_of(sort) for sort in constructor.arguments]
        return constructor.arguments if type(constructor) is GenericConstructor else constructor.written

    def expression_of(self, sort):
        return sort.expression if sort.generic else self.expression(sort)

    def sort(self, text):
        """The sort that a text writes."""
        return self.instance(without_recursion(self.written(text, {}, self.sorts)))

    def instance(self, expression):
        """The sort that an expression is, which is added with all that comes with it where it is not there."""
        fresh = []
        waiting = [expression]
        while waiting:
            part = waiting.pop()
            if type(part.head) is Sort or part in self.instances:
                continue
            require(part.length <= MOST_TEXT)
            sort = self.instances[part] = Sort(None, part.head.kind)
            sort.generic = part.head
            sort.expression = part
            fresh.append(sort)
            self.add_constructors(sort)
            self.within_limits()
            waiting.extend(part.arguments)
            for fields in self.fields(part):
                waiting.extend(fields)
        for sort in fresh:
            for constructor, fields in zip(sort.constructors, self.fields(sort.expression)):
                self.set_fields(constructor, fields)
        return self.found(expression)

    def found(self, expression):
        """The sort of an expression, which is there."""
        return expression.head if type(expression.head) is Sort else self.instances[expression]

    def add_constructors(self, sort):
        """The constructors of a sort with arguments, for which fields are still to be set."""
        for generic in sort.generic.constructors:
            constructor = Constructor(generic.name, sort)
            constructor.selectors = [Selector(selector.name, constructor, selector.place, None) for selector in generic.selectors]
            sort.constructors.append(constructor)
            self.counts[Constructor] += 1
            self.counts[Selector] += len(constructor.selectors)

    def set_fields(self, constructor, fields):
        constructor.arguments = [self.found(field) for field in fields]
        for selector, sort in zip(constructor.selectors, constructor.arguments):
            selector.result = sort

    def all_sorts(self):
        return [sort for sort in self.sorts.values() if type(sort) is Sort] + list(self.instances.values())

    def within_limits(self):
        require(len(self.sorts) + len(self.instances) <= MOST_SORTS)
        require(self.counts[Constructor] <= MOST_CONSTRUCTORS)
        require(self.counts[Selector] <= MOST_SELECTORS)

    def constructor(self, symbol, sorts):
        """The constructor of a generic whose fields have these sorts."""
        found = {}
        for field, sort in zip(symbol.arguments, sorts):
            require(matches(field, self.expression_of(sort), found))
        arguments = tuple([found[parameter] for parameter in range(symbol.generic.parameters)])
        return self.instance(self.expression(symbol.generic, arguments)).constructors[symbol.place]

    def new(self, names, taken):
        """Refuses names of which one cannot be declared."""
        require(len(set(names)) == len(names))
        for name in names:
            require(name is not None and name not in taken and name[:1] not in (b"@", b"."))
            require(taken is self.sorts or name not in OPERATORS)

    # Each command takes the expressions after its word.

    def set_option(self, *rest):
        require(len(rest) == 2 and is_keyword(rest[0]))
        option, value = rest
        if option in NUMERAL_OPTIONS:
            require(type(value) is int)
        elif option in STRING_OPTIONS:
            require(type(value) is bytes and value[0] == ord('"'))
        elif option == b":error-behavior":
            require(name_of(value) in (b"continued-execution", b"immediate-exit"))
            self.ends_at_errors = name_of(value) == b"immediate-exit"
        elif option in BOOLEAN_OPTIONS:
            require(name_of(value) in (b"true", b"false"))
            if option == b":global-declarations":
                require(not (self.levels or self.assertions or len(self.sorts) > 1 or len(self.symbols) > 2))
                self.globally = name_of(value) == b"true"

    def set_logic(self, *rest):
        require(len(rest) == 1 and is_logic(name_of(rest[0]) or b""))

    def set_info(self, *rest):
        require(len(rest) in (1, 2) and is_keyword(rest[0]))

    def get_setting(self, *rest):
        require(len(rest) == 1 and is_keyword(rest[0]))

    def echo(self, *rest):
        require(len(rest) == 1 and type(rest[0]) is bytes and rest[0][0] == ord('"'))

    def alone(self, *rest):
        """Is refused where something follows."""
        require(not rest)

    def ask(self, *rest):
        """Asks for what the verdict of a check left."""
        require(not rest and self.standing)

    def get_value(self, *rest):
        require(len(rest) == 1 and type(rest[0]) is list and rest[0] and self.standing)

    def get_proof(self, *rest):
        require(not rest and self.standing == b"check-sat")

    def get_unsat_assumptions(self, *rest):
        require(not rest and self.standing == b"check-sat-assuming")

    def check_sat_assuming(self, *rest):
        """Reads the terms, and creates the sorts that they need. Nothing stays asserted."""
        require(len(rest) == 1 and type(rest[0]) is list)
        codes = [self.boolean(text)[1] for text in rest[0]]
        mark = self.terms.mark()
        try:
            for code in codes:
                self.terms.of_code(code)
        finally:
            self.terms.back_to(mark)

    def boolean(self, text):
        """The code of a term, which is to be Boolean."""
        elaboration = Elaboration(self)
        root = elaboration.root(text)
        require(elaboration.sorts[root] is self.bool)
        return elaboration.code(root, 0)

    def unsupported(self, *rest):
        """Is answered, whatever follows."""

    def declare_sort(self, *rest):
        require(len(rest) == 2 and type(rest[1]) is int and rest[1] <= MOST_ARGUMENTS)
        name = name_of(rest[0])
        self.new([name], self.sorts)
        self.sorts[name] = Generic(name, "uninterpreted", rest[1]) if rest[1] else Sort(name, "uninterpreted")
        self.within_limits()

    def define_sort(self, *rest):
        require(len(rest) == 3 and type(rest[1]) is list)
        name = name_of(rest[0])
        self.new([name], self.sorts)
        parameters = self.parameters(rest[1])
        body = without_recursion(self.written(rest[2], parameters, self.sorts))
        require(body.length <= MOST_TEXT)
        self.sorts[name] = Synonym(len(parameters), body)
        self.within_limits()

    def parameters(self, texts):
        """The numbers of type parameters by their names."""
        parameters = {name_of(text): number for number, text in enumerate(texts)}
        require(None not in parameters and len(parameters) == len(texts))
        return parameters

    def declare_datatype(self, *rest):
        require(len(rest) == 2)
        self.block([rest[0]], [None], [rest[1]], "datatype")

    def declare_codatatype(self, *rest):
        require(len(rest) == 2)
        self.block([rest[0]], [None], [rest[1]], "codatatype")

    def declare_datatypes(self, *rest):
        self.blocks(rest, "datatype")

    def declare_codatatypes(self, *rest):
        self.blocks(rest, "codatatype")

    def blocks(self, rest, kind):
        require(len(rest) == 2 and type(rest[0]) is list and type(rest[1]) is list)
        require(rest[0] and len(rest[0]) == len(rest[1]))
        for named in rest[0]:
            require(type(named) is list and len(named) == 2 and type(named[1]) is int)
        self.block([named[0] for named in rest[0]], [named[1] for named in rest[0]], rest[1], kind)

    def block(self, names, arities, bodies, kind):
        """Declares datatypes or codatatypes that may name one another."""
        names = [name_of(name) for name in names]
        self.new(names, self.sorts)
        parameters = []
        for place, (arity, body) in enumerate(zip(arities, bodies)):
            require(type(body) is list and body)
            own = {}
            if body[0] == b"par":
                require(len(body) == 3 and type(body[1]) is list and body[1] and type(body[2]) is list and body[2])
                own = self.parameters(body[1])
                bodies[place] = body[2]
            require(arity is None or arity == len(own))
            parameters.append(own)
        fresh = {name: Generic(name, kind, len(own)) if own else Sort(name, kind) for name, own in zip(names, parameters)}
        heads = {**self.sorts, **fresh}
        symbols = []
        for head, own, body in zip(fresh.values(), parameters, bodies):
            for text in body:
                symbols.extend(self.block_constructor(head, own, heads, text))
        self.new([symbol.name for symbol in symbols], self.symbols)
        self.admit(fresh.values(), kind)
        for symbol in symbols:
            self.symbols[symbol.name] = symbol
            self.counts[Constructor if type(symbol) in (Constructor, GenericConstructor) else Selector] += 1
        self.sorts.update(fresh)
        self.within_limits()
        for sort in fresh.values():
            for constructor in sort.constructors if type(sort) is Sort else ():
                for field in constructor.written:
                    self.instance(field)
                self.set_fields(constructor, constructor.written)

    def block_constructor(self, head, parameters, heads, text):
        """A constructor of a block, and its selectors."""
        require(type(text) is list and text)
        fields = text[1:]
        for field in fields:
            require(type(field) is list and len(field) == 2)
        expressions = [without_recursion(self.written(field[1], parameters, heads)) for field in fields]
        if type(head) is Sort:
            constructor = Constructor(name_of(text[0]), head)
            constructor.written = expressions
            constructor.selectors = [Selector(name_of(field[0]), constructor, place, None) for place, field in enumerate(fields)]
        else:
            constructor = GenericConstructor(name_of(text[0]), head, len(head.constructors))
            constructor.arguments = expressions
            constructor.selectors = [GenericSelector(name_of(field[0]), constructor, place) for place, field in enumerate(fields)]
        head.constructors.append(constructor)
        return [constructor, *constructor.selectors]

    def admit(self, heads, kind):
        """Refuses a block that holds itself at other arguments, reaches too much, mixes datatypes and codatatypes, or has no value."""
        own = {head: self.expression(head, tuple([self.expression(i) for i in range(getattr(head, "parameters", 0))])) for head in heads}
        for head in heads:
            fields = [field for row in self.fields(own[head]) for field in row]
            inner = under(fields)
            require(all(part is own[part.head] and part.arguments == own[head].arguments for part in inner if part.head in own))
        rows = {own[head]: self.fields(own[head]) for head in heads}
        fields = set(rows).union(*[row for inner in rows.values() for row in inner])
        if all(type(field.head) is Sort for field in fields):
            # Nothing that was there reaches the block, and all that was there has a value.
            require(all(field.length <= MOST_TEXT for field in fields))
            require(kind == "codatatype" or founded(rows) >= set(rows))
            return
        for head in heads:
            reached = self.reached(own[head])
            require(not mixed(reached))
            require(kind == "codatatype" or own[head] in founded(reached))

    def reached(self, start):
        """The rows of fields of what a sort expression reaches."""
        reached = {}
        waiting = [start]
        seen = {start}
        while waiting:
            expression = waiting.pop()
            require(expression.length <= MOST_TEXT)
            reached[expression] = self.fields(expression)
            for field in set().union(*reached[expression]):
                if field not in seen:
                    seen.add(field)
                    require(len(seen) <= MOST_REACHED)
                    waiting.append(field)
        return reached

    def declare_const(self, *rest):
        require(len(rest) == 2)
        self.function(rest[0], [], rest[1])

    def declare_fun(self, *rest):
        require(len(rest) == 3 and type(rest[1]) is list)
        self.function(*rest)

    def function(self, name, arguments, result):
        name = name_of(name)
        self.new([name], self.symbols)
        arguments = [self.sort(argument) for argument in arguments]
        result = self.sort(result)
        require(self.counts[Function] < MOST_FUNCTIONS)
        self.counts[Function] += 1
        self.symbols[name] = Function(name, arguments, result)

    def define_const(self, *rest):
        require(len(rest) == 3)
        self.define_fun(rest[0], [], *rest[1:])

    def define_fun(self, *rest):
        require(len(rest) == 4 and type(rest[1]) is list)
        name, parameters, result, body = rest
        name = name_of(name)
        self.new([name], self.symbols)
        for parameter in parameters:
            require(type(parameter) is list and len(parameter) == 2)
        names = [name_of(parameter[0]) for parameter in parameters]
        require(None not in names and len(set(names)) == len(names))
        arguments = [self.sort(parameter[1]) for parameter in parameters]
        result = self.sort(result)
        elaboration = Elaboration(self)
        for parameter, sort in zip(names, arguments):
            elaboration.variables[parameter] = elaboration.node(PARAMETER, (), sort)
        root = elaboration.root(body)
        require(elaboration.sorts[root] is result)
        require(self.counts[Definition] < MOST_DEFINITIONS)
        self.counts[Definition] += 1
        self.symbols[name] = Definition(name, arguments, result, *elaboration.code(root, len(names)))

    def assert_(self, *rest):
        require(len(rest) == 1)
        text, label = labelled(rest[0])
        code = self.boolean(text)
        if label is not None:
            self.new([label], self.symbols)
            require(self.counts[Definition] < MOST_DEFINITIONS)
        mark = self.terms.mark()
        try:
            self.assertions.append(self.terms.of_code(code[1]))
        except Refused:
            self.terms.back_to(mark)
            raise
        if label is not None:
            self.counts[Definition] += 1
            self.symbols[label] = Definition(label, [], self.bool, *code)

    def push(self, *rest):
        levels = self.levels_of(rest)
        require(len(self.levels) + levels <= MOST_LEVELS)
        here = (self.declared(), len(self.assertions), self.terms.mark())
        self.levels.extend([here] * levels)

    def pop(self, *rest):
        levels = self.levels_of(rest)
        require(levels <= len(self.levels))
        if levels:
            mark = self.levels[-levels]
            del self.levels[-levels:]
            self.back_to(*mark)

    def levels_of(self, rest):
        if not rest:
            return 1
        require(len(rest) == 1 and type(rest[0]) is int)
        return rest[0]

    def back_to(self, declared, assertions, terms):
        del self.assertions[assertions:]
        self.terms.back_to(terms)
        if not self.globally:
            self.take_back(*declared)

    def reset_assertions(self, *rest):
        require(not rest)
        if self.globally:
            self.levels = []
            self.assertions = []
            self.terms = Terms(self.bool.constructors)
        else:
            self.outset()

    def reset(self, *rest):
        require(not rest)
        self.start()


COMMANDS = {
    b"set-option": Script.set_option, b"declare-sort": Script.declare_sort, b"define-sort": Script.define_sort,
    b"declare-datatype": Script.declare_datatype, b"declare-codatatype": Script.declare_codatatype,
    b"declare-datatypes": Script.declare_datatypes, b"declare-codatatypes": Script.declare_codatatypes,
    b"declare-const": Script.declare_const, b"declare-fun": Script.declare_fun,
    b"define-const": Script.define_const, b"define-fun": Script.define_fun,
    b"assert": Script.assert_, b"push": Script.push, b"pop": Script.pop,
    b"reset-assertions": Script.reset_assertions, b"reset": Script.reset,
    b"set-logic": Script.set_logic, b"set-info": Script.set_info, b"get-info": Script.get_setting,
    b"get-option": Script.get_setting, b"echo": Script.echo,
    b"check-sat": Script.alone, b"exit": Script.alone, b"get-model": Script.ask, b"get-proof": Script.get_proof,
    b"get-unsat-core": Script.ask, b"get-unsat-assumptions": Script.get_unsat_assumptions, b"get-value": Script.get_value,
    b"check-sat-assuming": Script.check_sat_assuming,
    b"get-assertions": Script.unsupported, b"get-assignment": Script.unsupported,
    b"define-fun-rec": Script.unsupported, b"define-funs-rec": Script.unsupported,
    b"declare-sort-parameter": Script.unsupported,
}

# No verdict stands after one of these commands.
CHANGES = {
    b"declare-sort", b"define-sort", b"declare-datatype", b"declare-codatatype", b"declare-datatypes", b"declare-codatatypes",
    b"declare-const", b"declare-fun", b"define-const", b"define-fun", b"assert", b"push", b"pop", b"reset-assertions", b"reset",
}


def kind_of(expression):
    return None if type(expression.head) is int else expression.head.kind


def founded(reached):
    """The sort expressions with a finite value, among these with the rows of their fields; all others have one."""
    waiting = defaultdict(list)
    found = {expression for expression in reached if kind_of(expression) != "datatype"}
    ready = list(found)
    for expression, rows in reached.items():
        for row in rows if expression not in found else ():
            fields = {field for field in row if field in reached}
            entry = [len(fields), expression]
            for field in fields:
                waiting[field].append(entry)
            if not fields and expression not in found:
                found.add(expression)
                ready.append(expression)
    while ready:
        for entry in waiting[ready.pop()]:
            entry[0] -= 1
            if not entry[0] and entry[1] not in found:
                found.add(entry[1])
                ready.append(entry[1])
    return found


def mixed(reached):
    """Whether a datatype and a codatatype of these reach each other."""
    if len({kind_of(expression) for expression in reached} & {"datatype", "codatatype"}) < 2:
        return False
    for start in reached:
        if kind_of(start) != "codatatype":
            continue
        for target in closure(reached, start):
            if kind_of(target) == "datatype" and start in closure(reached, target):
                return True
    return False


def closure(reached, start):
    """What a sort expression reaches."""
    seen = {start}
    waiting = [start]
    while waiting:
        for row in reached[waiting.pop()]:
            for field in row:
                if field not in seen:
                    seen.add(field)
                    waiting.append(field)
    return seen


def sorts_with_one_value(sorts):
    """The greatest set of datatypes and codatatypes with one constructor each, whose fields all have sorts of the set."""
    single = {sort for sort in sorts if sort.kind in ("datatype", "codatatype") and len(sort.constructors) == 1}
    over = defaultdict(list)
    for sort in single:
        for field in sort.constructors[0].arguments:
            over[field].append(sort)
    removed = [field for field in over if field not in single]
    while removed:
        for sort in over[removed.pop()]:
            if sort in single:
                single.remove(sort)
                removed.append(sort)
    return single


def script_at(text, check):
    """What is declared and asserted at the check of this number, or None where there is none."""
    script = Script()
    try:
        for command in expressions(text):
            if script.answer(command, check):
                break
    except TextError:
        pass
    return script if script.checks == check else None


# ---------------------------------------------------------------------------------------------------------------------
# The text of a derivation. The literal of the term n is 2 n, the opposite one 2 n + 1.

ERRORS = {41: "derivation form", 42: "number not yet defined", 43: "term line does not fit the script",
          44: "no such check-sat"}
NO_FAULT = 100


class ItemError(Exception):
    """An item that cannot be read, with the number of its error."""

    def __init__(self, item, error):
        super().__init__(item, error)
        self.line = '(error "item %d: [E%d] %s")' % (item, error, ERRORS[error])


class WrongItem(Exception):
    """The item that is read is wrong, with the number of its error."""

    def __init__(self, error):
        super().__init__(error)
        self.error = error


def form(condition):
    """An item that departs from its form is refused at once; other errors wait until it is read whole."""
    if not condition:
        raise WrongItem(41)


def number(text):
    form(type(text) is int and text < WORD_BOUND)
    return text


def numbers(texts):
    return [number(text) for text in texts]


def opposite(literal):
    return literal ^ 1


def positive(term):
    return 2 * term


class Derivation:
    """The terms, the lines and the assertions of a derivation, over what a script declares at its check."""

    def __init__(self, script):
        self.script = script
        self.heads = []
        self.under = []
        self.sorts = []
        self.literals = []
        self.numbers = {}
        self.lines = []
        self.assertions = set()
        self.one_value = None
        self.texts = None

    # Reading. `fault` has the least error of the numbers and names of the item that is read.

    def read(self, items):
        place = 1
        try:
            while place < 3 or starts_with(items, place, b"t"):
                form(place < len(items))
                self.item(self.term_line, items[place])
                place += 1
            self.count = len(self.heads)
            while starts_with(items, place, b"s"):
                self.item(self.line, items[place])
                place += 1
            form(place < len(items) and items[place] == [b"end", len(self.lines)])
            place += 1
            form(place == len(items))
        except WrongItem as wrong:
            raise ItemError(place, wrong.error) from None
        self.add_assertions()

    def item(self, read, text):
        self.fault = NO_FAULT
        read(text)
        if self.fault != NO_FAULT:
            raise WrongItem(self.fault)

    def term_line(self, text):
        """`(t N TERM)`"""
        here = len(self.heads)
        form(type(text) is list and len(text) > 2 and text[0] == b"t" and text[1] == here and here < MOST_TERMS)
        kind = text[2]
        form(type(kind) is bytes)
        if kind in (b"con", b"app", b"sel", b"is"):
            form(len(text) > 3)
            name, sort = self.named(kind, text[3])
            under = numbers(text[4:])
            form(len(under) == 1 or kind in (b"con", b"app"))
            form(here > 1 or (kind == b"con" and name == (b"true", b"false")[here] and sort is None and not under))
            symbol = self.script.symbols.get(name)
        else:
            form(kind in PLAIN_KINDS and here > 1)
            under = numbers(text[3:])
            form(PLAIN_KINDS[kind] is None or PLAIN_KINDS[kind] == len(under))
            symbol = sort = None
        if any(term >= here for term in under):
            self.fault = 42
            return
        symbol = self.at_sorts(kind, symbol, sort, [self.sorts[term] for term in under])
        head, result = self.well_sorted(kind, symbol, under)
        if head is None:
            self.fault = 43
            return
        key = (head, *under)
        form(key not in self.numbers)
        self.numbers[key] = here
        self.heads.append(head)
        self.under.append(under)
        self.sorts.append(result)
        self.literals.append(self.literal_of(here, head, under, result))

    def named(self, kind, text):
        """The name of a term line, and the text of S where it is written `(as C S)`."""
        name = name_of(text)
        if name is not None:
            return name, None
        form(kind in (b"con", b"is") and type(text) is list and len(text) == 3 and text[0] == b"as")
        name, sort = name_of(text[1]), text_of_sort(text[2])
        form(name is not None and sort is not None)
        return name, sort

    def at_sorts(self, kind, symbol, written, sorts):
        """What a name is beside the sorts of the terms and the sort that is written, or None."""
        if type(symbol) is GenericSelector:
            constructor = at_sort(symbol.constructor, sorts[0]) if sorts else None
            return constructor and constructor.selectors[symbol.place]
        if type(symbol) is not GenericConstructor:
            return symbol if written is None else None
        if symbol.determined() != (written is None):
            return None
        if written is not None:
            sort = self.sorts_by_text().get(written)
            return sort and at_sort(symbol, sort)
        if kind == b"is":
            return at_sort(symbol, sorts[0])
        found = {}
        if len(sorts) != len(symbol.arguments):
            return None
        if not all(matches(field, self.script.expression_of(sort), found) for field, sort in zip(symbol.arguments, sorts)):
            return None
        arguments = tuple([found[parameter] for parameter in range(symbol.generic.parameters)])
        sort = self.script.instances.get(self.script.expression(symbol.generic, arguments))
        return sort and at_sort(symbol, sort)

    def sorts_by_text(self):
        """The sorts of the script by their texts."""
        if self.texts is None:
            self.texts = {}
            for name, sort in self.script.sorts.items():
                if type(sort) is Sort:
                    self.texts[text_of_name(name)] = sort
            for sort in self.script.instances.values():
                self.texts[text_of_expression(sort.expression)] = sort
        return self.texts

    def well_sorted(self, kind, symbol, under):
        """The head and the sort of a term, or None where it is none."""
        sorts = [self.sorts[term] for term in under]
        boolean = self.script.bool
        if kind in SYMBOL_KINDS:
            if type(symbol) is not SYMBOL_KINDS[kind]:
                return None, None
            if kind == b"is":
                return (symbol.tester, boolean) if sorts == [symbol.result] else (None, None)
            return (symbol, symbol.result) if sorts == symbol.arguments else (None, None)
        if kind == b"=":
            fits = sorts[0] is sorts[1] and sorts[0] is not boolean
            return (EQUAL, boolean) if fits else (None, None)
        if kind == b"ite":
            fits = sorts[0] is boolean and sorts[1] is sorts[2]
            return (ITE, sorts[1]) if fits else (None, None)
        fits = sorts and all(sort is boolean for sort in sorts)
        return (PLAIN_HEADS[kind], boolean) if fits else (None, None)

    def literal_of(self, term, head, under, sort):
        """The literal of a Boolean term."""
        if sort is not self.script.bool:
            return None
        return opposite(self.literals[under[0]]) if head is NOT else positive(term)

    def term(self, text):
        """The number of a term."""
        if number(text) >= self.count:
            self.fault = min(self.fault, 42)
        return text

    def literal(self, text):
        """`n` or `(not n)`"""
        negative = type(text) is list
        if negative:
            form(len(text) == 2 and text[0] == b"not")
            text = text[1]
        if self.term(text) < self.count and self.literals[text] != positive(text):
            self.fault = min(self.fault, 43)
        return opposite(positive(text)) if negative else positive(text)

    def line(self, text):
        """`(s N (LITERAL ..) STEP)`"""
        form(len(text) > 3 and text[1] == len(self.lines) + 1 and type(text[2]) is list)
        clause = [self.literal(literal) for literal in text[2]]
        step = text[3]
        form(type(step) is bytes and step in STEPS)
        self.lines.append((clause, *STEPS[step](self, *text[4:])))

    def parts(self, texts, parts):
        """The parts of a step by letters: T a term, N a number, L a literal."""
        form(len(texts) == len(parts))
        return [self.literal(text) if part == "L" else self.term(text) if part == "T" else number(text)
                for text, part in zip(texts, parts)]

    def input_step(self, *texts):
        return by_input, self.parts(texts, "T")

    def exhaust_step(self, *texts):
        return by_exhaust, self.parts(texts, "T")

    def learn_step(self, *texts):
        return by_learn, numbers(texts)

    def gate_step(self, *texts):
        form(texts and type(texts[0]) is bytes and texts[0] in GATES)
        parts, rule = GATES[texts[0]]
        return rule, self.parts(texts[1:], parts)

    def theory_step(self, *texts):
        form(len(texts) == 2 and type(texts[0]) is list and type(texts[1]) is list)
        steps = [self.equality(text) for text in texts[0]]
        return by_theory, (steps, *self.closing(texts[1]))

    def equality(self, text):
        form(type(text) is list and text and type(text[0]) is bytes)
        word, *texts = text
        if word == b"unique":
            return unique, self.unique_step(texts)
        form(word in EQUALITIES)
        parts, rule = EQUALITIES[word]
        if word == b"cong":
            return rule, self.parts(texts[:2], parts) + numbers(texts[2:])
        return rule, self.parts(texts, parts)

    def unique_step(self, texts):
        form(texts)
        pairs = []
        for text in texts[1:]:
            form(type(text) is list and len(text) > 1)
            entries = []
            for entry in text[2:]:
                if type(entry) is list:
                    form(len(entry) == 4 and entry[0] == b"pair")
                    entries.append(numbers(entry[1:]))
                else:
                    entries.append(number(entry))
            pairs.append((self.term(text[0]), self.term(text[1]), entries))
        return number(texts[0]), pairs

    def closing(self, text):
        form(text and text[0] in (b"clash", b"cycle"))
        if text[0] == b"clash":
            return clash, self.parts(text[1:], "N")
        for entry in text[1:]:
            form(type(entry) is list)
        return cycle, [self.parts(entry, "TNN") for entry in text[1:]]

    def add_assertions(self):
        """Finds the numbers of the assertions, where their terms stand after those of the derivation."""
        moved = []
        for head, *under in self.script.terms.numbers:
            key = (head, *[moved[term] for term in under])
            moved.append(self.numbers.setdefault(key, len(self.numbers)))
        if len(self.numbers) > MOST_TERMS:
            raise ItemError(0, 41)
        self.assertions = {moved[term] for term in self.script.assertions}

    # Checking

    def verdict(self):
        """The number of the first line that is not accepted, or None where the derivation passes."""
        for place, (clause, rule, parts) in enumerate(self.lines):
            if not rule(self, place, clause, *parts):
                return place + 1
        passes = self.lines and not self.lines[-1][0]
        return None if passes else len(self.lines) + 1

    def has_one_value(self, sort):
        if self.one_value is None:
            self.one_value = sorts_with_one_value(self.script.all_sorts())
        return sort in self.one_value

    def is_constructor(self, term):
        return type(self.heads[term]) is Constructor


def starts_with(items, place, word):
    return place < len(items) and type(items[place]) is list and items[place][:1] == [word]


SYMBOL_KINDS = {b"con": Constructor, b"app": Function, b"sel": Selector, b"is": Constructor}
PLAIN_KINDS = {b"=": 2, b"not": 1, b"iff": 2, b"and": None, b"or": None, b"ite": 3}
PLAIN_HEADS = {b"=": EQUAL, b"not": NOT, b"iff": IFF, b"and": AND, b"or": OR, b"ite": ITE}


# ---------------------------------------------------------------------------------------------------------------------
# The steps of lines. Each function says whether the step gives the clause. `d` is the derivation, `place` how many lines are before.

def by_input(d, place, clause, t):
    return t in d.assertions and clause == [d.literals[t]]


def gate_true(d, place, clause):
    return clause == [positive(0)]


def gate_false(d, place, clause):
    return clause == [opposite(positive(1))]


def gate_and_pos(d, place, clause, t, k):
    return (d.heads[t] is AND and k < len(d.under[t])
            and clause == [opposite(positive(t)), d.literals[d.under[t][k]]])


def gate_and_neg(d, place, clause, t):
    return (d.heads[t] is AND and len(clause) == len(d.under[t]) + 1
            and clause == [positive(t)] + [opposite(d.literals[a]) for a in d.under[t]])


def gate_or_pos(d, place, clause, t):
    return (d.heads[t] is OR and len(clause) == len(d.under[t]) + 1
            and clause == [opposite(positive(t))] + [d.literals[a] for a in d.under[t]])


def gate_or_neg(d, place, clause, t, k):
    return (d.heads[t] is OR and k < len(d.under[t])
            and clause == [positive(t), opposite(d.literals[d.under[t][k]])])


def gate_iff(t_sign, a_sign, b_sign):
    """The rule of one clause of an equivalence; a sign is 1 for an opposite literal."""
    def rule(d, place, clause, t):
        if d.heads[t] is not IFF:
            return False
        a, b = d.under[t]
        return clause == [positive(t) ^ t_sign, d.literals[a] ^ a_sign, d.literals[b] ^ b_sign]
    return rule


def gate_ite(t_sign, c_sign, branch, branch_sign):
    """The rule of one clause of a Boolean choice; the branch is 1 or 2."""
    def rule(d, place, clause, t):
        if d.heads[t] is not ITE or d.literals[t] is None:
            return False
        c, e = d.under[t][0], d.under[t][branch]
        return clause == [positive(t) ^ t_sign, d.literals[c] ^ c_sign, d.literals[e] ^ branch_sign]
    return rule


def gate_branch(c_sign, branch):
    """The rule of one branch of a choice that is not Boolean."""
    def rule(d, place, clause, t):
        if d.heads[t] is not ITE or d.literals[t] is not None or len(clause) != 2:
            return False
        e = d.numbers.get((EQUAL, t, d.under[t][branch]))
        return e is not None and clause == [d.literals[d.under[t][0]] ^ c_sign, positive(e)]
    return rule


GATES = {
    b"true": ("", gate_true), b"false": ("", gate_false),
    b"and-pos": ("TN", gate_and_pos), b"and-neg": ("T", gate_and_neg),
    b"or-pos": ("T", gate_or_pos), b"or-neg": ("TN", gate_or_neg),
    b"iff-1": ("T", gate_iff(1, 1, 0)), b"iff-2": ("T", gate_iff(1, 0, 1)),
    b"iff-3": ("T", gate_iff(0, 0, 0)), b"iff-4": ("T", gate_iff(0, 1, 1)),
    b"ite-1": ("T", gate_ite(1, 1, 1, 0)), b"ite-2": ("T", gate_ite(1, 0, 2, 0)),
    b"ite-3": ("T", gate_ite(0, 1, 1, 1)), b"ite-4": ("T", gate_ite(0, 0, 2, 1)),
    b"then": ("T", gate_branch(1, 1)), b"else": ("T", gate_branch(0, 2)),
}


def by_exhaust(d, place, clause, t):
    sort = d.sorts[t]
    if sort.kind not in ("datatype", "codatatype") or len(clause) != len(sort.constructors):
        return False
    tests = [d.numbers.get((constructor.tester, t)) for constructor in sort.constructors]
    return None not in tests and clause == [positive(test) for test in tests]


def by_learn(d, place, clause, *hints):
    if not hints:
        return False
    false = set(clause)
    for hint in hints[:-1]:
        if not 0 < hint <= place:
            return False
        left = set(d.lines[hint - 1][0]) - false
        if len(left) != 1:
            return False
        false.add(opposite(left.pop()))
    return 0 < hints[-1] <= place and false.issuperset(d.lines[hints[-1] - 1][0])


def by_theory(d, place, clause, steps, close, entries):
    theory = Theory(set(clause))
    for rule, parts in steps:
        equation = rule(d, theory, *parts)
        if equation is None:
            return False
        theory.given.append(equation)
    return close(d, theory, *entries)


STEPS = {b"input": Derivation.input_step, b"gate": Derivation.gate_step, b"exhaust": Derivation.exhaust_step,
         b"learn": Derivation.learn_step, b"theory": Derivation.theory_step}


# ---------------------------------------------------------------------------------------------------------------------
# The equality steps of a theory line. Each function gives the equation of its step as a pair, or None where it lacks its condition.

TRUE, FALSE = 0, 1
NO_EQUATION = (None, None)


class Theory:
    """The clause of a theory line, and the equations of its steps so far."""

    def __init__(self, clause):
        self.clause = clause
        self.given = []

    def equation(self, i):
        """What an earlier step gives; a pair of no terms where there is none."""
        return self.given[i] if i < len(self.given) else NO_EQUATION


def hyp(d, theory, literal):
    if opposite(literal) not in theory.clause:
        return None
    return literal >> 1, FALSE if literal & 1 else TRUE


def refl(d, theory, t):
    return t, t


def sym(d, theory, i):
    x, y = theory.equation(i)
    return None if x is None else (y, x)


def trans(d, theory, i, j):
    x, y = theory.equation(i)
    middle, z = theory.equation(j)
    return (x, z) if x is not None and y == middle else None


def cong(d, theory, t, u, *steps):
    if d.heads[t] is not d.heads[u] or not len(d.under[t]) == len(d.under[u]) == len(steps):
        return None
    for i, equation in zip(steps, zip(d.under[t], d.under[u])):
        if theory.equation(i) != equation:
            return None
    return t, u


def inject(d, theory, i, k):
    x, y = theory.equation(i)
    if x is None or not d.is_constructor(x) or d.heads[x] is not d.heads[y] or k >= len(d.under[x]):
        return None
    return d.under[x][k], d.under[y][k]


def select(d, theory, t, i):
    u, x = theory.equation(i)
    selector = d.heads[t]
    if u is None or type(selector) is not Selector or d.under[t] != [u] or d.heads[x] is not selector.constructor:
        return None
    return t, d.under[x][selector.place]


def test(d, theory, t, i):
    u, x = theory.equation(i)
    if u is None or type(d.heads[t]) is not Tester or d.under[t] != [u] or not d.is_constructor(x):
        return None
    return t, TRUE if d.heads[x] is d.heads[t].constructor else FALSE


def expand(d, theory, i, c):
    t, truth = theory.equation(i)
    if t is None or truth != TRUE or type(d.heads[t]) is not Tester:
        return None
    u = d.under[t][0]
    constructor = d.heads[t].constructor
    if d.heads[c] is not constructor:
        return None
    for selector, x in zip(constructor.selectors, d.under[c]):
        if d.heads[x] is not selector or d.under[x] != [u]:
            return None
    return u, c


def equal_in(d, theory, t, i):
    x, y = theory.equation(i)
    return (t, TRUE) if x is not None and d.heads[t] is EQUAL and d.under[t] == [x, y] else None


def equal_out(d, theory, i):
    t, truth = theory.equation(i)
    return tuple(d.under[t]) if t is not None and truth == TRUE and d.heads[t] is EQUAL else None


def negate(d, theory, t, i):
    a, truth = theory.equation(i)
    if a is None or d.heads[t] is not NOT or d.under[t] != [a] or truth not in (TRUE, FALSE):
        return None
    return t, FALSE if truth == TRUE else TRUE


def single(d, theory, x, y):
    return (x, y) if d.sorts[x] is d.sorts[y] and d.has_one_value(d.sorts[x]) else None


def unique(d, theory, p, pairs):
    for l, r, entries in pairs:
        if not d.is_constructor(l) or d.heads[l] is not d.heads[r] or len(entries) != len(d.under[l]):
            return None
        for x, y, entry in zip(d.under[l], d.under[r], entries):
            if type(entry) is int:
                if theory.equation(entry) != (x, y):
                    return None
                continue
            k, i, j = entry
            if k >= len(pairs) or theory.equation(i) != (x, pairs[k][0]) or theory.equation(j) != (pairs[k][1], y):
                return None
    return pairs[p][:2] if p < len(pairs) else None


EQUALITIES = {
    b"hyp": ("L", hyp), b"refl": ("T", refl), b"sym": ("N", sym), b"trans": ("NN", trans), b"cong": ("TT", cong),
    b"inject": ("NN", inject), b"sel": ("TN", select), b"test": ("TN", test), b"expand": ("NT", expand),
    b"equal-in": ("TN", equal_in), b"equal-out": ("N", equal_out), b"neg": ("TN", negate), b"single": ("TT", single),
}


# How a theory line ends: whether the closing rule has its condition.

def clash(d, theory, i):
    x, y = theory.equation(i)
    return x is not None and d.is_constructor(x) and d.is_constructor(y) and d.heads[x] is not d.heads[y]


def cycle(d, theory, *entries):
    for place, (c, k, i) in enumerate(entries):
        following = entries[(place + 1) % len(entries)][0]
        if not d.is_constructor(c) or d.sorts[c].kind != "datatype" or k >= len(d.under[c]):
            return False
        if theory.equation(i) != (d.under[c][k], following):
            return False
    return bool(entries)


# ---------------------------------------------------------------------------------------------------------------------

def audit(proof, script):
    """The line and the status for the bytes of a derivation and of a script."""
    try:
        derivation = read_derivation(proof, script)
    except ItemError as error:
        return error.line, 6
    rejected = derivation.verdict()
    return ("verified", 0) if rejected is None else ("rejected %d" % rejected, 6)


def read_derivation(proof, script):
    try:
        texts = list(expressions(proof))
    except TextError:
        raise ItemError(0, 41) from None
    if len(texts) != 1 or not texts[0]:
        raise ItemError(0, 41)
    items = texts[0]
    if not starts_with(items, 0, b"cosmt-derivation") or len(items[0]) != 2:
        raise ItemError(0, 41)
    check = items[0][1]
    if type(check) is not int or not 0 < check < WORD_BOUND:
        raise ItemError(0, 41)
    at_check = script_at(script, check)
    if at_check is None:
        raise ItemError(0, 44)
    derivation = Derivation(at_check)
    derivation.read(items)
    return derivation


def main(arguments):
    if "-h" in arguments or "--help" in arguments:
        line, status = __doc__.rstrip(), 0
    elif len(arguments) != 2:
        line, status = __doc__.split("\n\n")[1], 2
    else:
        try:
            files = []
            for name in arguments:
                with open(name, "rb") as file:
                    files.append(file.read(MOST_BYTES + 1))
        except (OSError, ValueError):
            return 3
        if any(len(text) > MOST_BYTES for text in files):
            return 7
        files[0] = VERDICT.sub(b"", files[0])
        gc.disable()  # hardly anything goes round, and millions of lists are looked through in vain
        try:
            line, status = audit(*files)
        except MemoryError:
            return 5
    try:
        sys.stdout.write(line + "\n")
        sys.stdout.flush()
    except OSError:
        return 4
    return status


if __name__ == "__main__":
    sys.exit(main(sys.argv[1:]))
