"""The expressions of a script, and the names that they have in Coq. Nothing is left of `let`: what is bound is a definition over the
variables in scope."""

import re

import check_derivation as checker


# The words that Coq reads as such, also those of its notations; and the names of its library, and the theorem's, that files are written with.
KEYWORDS = frozenset("""_ Axiom CoFixpoint Definition Eval Fixpoint Hypothesis Parameter Prop SProp Set Theorem Type Variable as at by cofix
else end exists exists2 fix for forall fun if IF in land let lor lxor match mod require return then using where with
bool true false negb andb orb list flat_map positive nat False Datatypes Logic unsat""".split())


class Names:
    """The names of the file: those of the script where Coq allows them. What is declared or defined has a name of its own; a variable
    has one that nothing else has in its scope."""

    def __init__(self):
        self.used = set(KEYWORDS)
        self.variables = set()
        self.locals = {}

    @staticmethod
    def fresh(base, *taken):
        while any(base in names for names in taken):
            base += "'"
        return base

    def take(self, base):
        """The name of something that is declared or defined."""
        name = self.fresh(base, self.used, self.variables, self.locals.values())
        self.used.add(name)
        return name

    def variable(self, base, taken):
        """The name of a variable of the script, where these names are in scope."""
        name = self.fresh(base, self.used, self.locals.values(), taken)
        self.variables.add(name)
        return name

    def local(self, base):
        """The name of a variable that the script does not have."""
        if base not in self.locals:
            self.locals[base] = self.fresh(base, self.used, self.variables, self.locals.values())
        return self.locals[base]


def plain(name):
    """A name of SMT-LIB in the letters of Coq's."""
    text = re.sub(r"[^A-Za-z0-9_']", "_", name.decode("utf-8", "replace"))
    text = text.lstrip("'") or "x"
    return "n" + text if text[0].isdigit() else text


class Variable:
    matches = False

    def __init__(self, name, sort):
        self.name = name
        self.sort = sort
        self.free = {name: sort}


class Apply:
    """A constructor, selector, tester, function or operator over expressions."""

    def __init__(self, head, under, sort):
        self.head = head
        self.under = under
        self.sort = sort
        self.matches = any(part.matches for part in under)
        self.free = union(under)


class Call:
    """A definition over expressions."""

    def __init__(self, definition, under):
        self.definition = definition
        self.under = under
        self.sort = definition.body.sort
        self.matches = definition.body.matches or any(part.matches for part in under)
        self.free = union(under)


class Match:
    """`match`; a case is a constructor or None, the names of its variables, and an expression. A constructor may have a second case,
    which is a choice in the term of the assertion, though nothing reaches it."""

    matches = True
    lemma = None

    def __init__(self, subject, cases):
        self.subject = subject
        self.cases = cases
        self.sort = cases[0][2].sort
        self.bound = {}
        for constructor, names, body in cases:
            inner = {name for name in names if name}
            self.bound.update({name: sort for name, sort in body.free.items() if name not in inner})
        self.free = {**self.bound, **subject.free}


class Quantifier:
    def __init__(self, word, variables, body, sort):
        self.word = word
        self.variables = variables
        self.body = body
        self.sort = sort
        self.matches = body.matches
        self.free = {name: value for name, value in body.free.items() if name not in dict(variables)}


class Definition:
    """A definition by name: a definition of the script, or what a `let` binds."""

    core = None

    def __init__(self, name, parameters, body):
        self.name = name
        self.parameters = parameters
        self.body = body


def union(parts):
    free = {}
    for part in parts:
        free.update(part.free)
    return free


class Reader:
    """Reads the texts of a script, which were accepted, as expressions."""

    def __init__(self, script, names, define):
        self.script = script
        self.names = names
        self.define = define  # what is told each definition when it is complete
        self.definitions = {}

    def variable(self, text, sort, scope):
        taken = {name for part in scope.values() for name in part.free}
        return Variable(self.names.variable(plain(checker.name_of(text)), taken), sort)

    def expression(self, text, scope):
        if type(text) is not list:
            name = checker.name_of(text)
            return scope[name] if name in scope else self.applied(self.script.symbols[name], [])
        head = text[0]
        if type(head) is list:
            under = [self.expression(part, scope) for part in text[1:]]
            if head[0] == b"as":
                return self.applied(self.ascribed(head), under)
            return self.tested(checker.name_of(head[2]), under)
        if head == b"as":
            return self.applied(self.ascribed(text), [])
        if head == b"!":
            return self.expression(text[1], scope)
        if head == b"let":
            return self.let(text, scope)
        if head == b"match":
            return self.match(text, scope)
        if head in (b"forall", b"exists"):
            return self.quantifier(text, scope)
        name = checker.name_of(head)
        under = [self.expression(part, scope) for part in text[1:]]
        if name in checker.OPERATORS:
            return self.operator(name, under)
        if name not in self.script.symbols:
            return self.tested(name.removeprefix(b"is-"), under)
        return self.applied(self.script.symbols[name], under)

    def tested(self, name, under):
        """The tester of the constructor of the name, over the one term."""
        return Apply(checker.at_sort(self.script.symbols[name], under[0].sort).tester, under, self.script.bool)

    def ascribed(self, text):
        symbol = self.script.symbols[checker.name_of(text[1])]
        return checker.at_sort(symbol, self.script.sort(text[2])) if type(symbol) is checker.GenericConstructor else symbol

    def applied(self, symbol, under):
        if type(symbol) is checker.GenericConstructor:
            symbol = self.script.constructor(symbol, [part.sort for part in under])
        elif type(symbol) is checker.GenericSelector:
            symbol = checker.at_sort(symbol.constructor, under[0].sort).selectors[symbol.place]
        if type(symbol) is checker.Definition:
            return Call(self.definition(symbol), under)
        return Apply(symbol, under, symbol.result)

    def definition(self, symbol):
        """The definition that a symbol of the script is, which is read where it is used first."""
        if symbol not in self.definitions:
            parameters, _, body = symbol.text
            scope = {}
            for name, sort in parameters:
                scope[checker.name_of(name)] = self.variable(name, self.script.sort(sort), scope)
            body = self.expression(body, scope)
            made = Definition(self.names.take(plain(symbol.name)), [(part.name, part.sort) for part in scope.values()], body)
            self.definitions[symbol] = made
            self.define(made)
        return self.definitions[symbol]

    def let(self, text, scope):
        inner = dict(scope)
        for name, value in text[1]:
            value = self.expression(value, scope)
            if type(value) is not Variable and not (type(value) is Call and not value.under):
                parameters = list(value.free.items())
                made = Definition(self.names.take(plain(checker.name_of(name))), parameters, value)
                self.define(made)
                value = Call(made, [Variable(*parameter) for parameter in parameters])
            inner[checker.name_of(name)] = value
        return self.expression(text[2], inner)

    def match(self, text, scope):
        subject = self.expression(text[1], scope)
        cases = []
        seen = set()
        for pattern, body in text[2]:
            symbol = self.script.symbols.get(checker.name_of(pattern[0] if type(pattern) is list else pattern))
            inner = dict(scope)
            if type(pattern) is list or type(symbol) in (checker.Constructor, checker.GenericConstructor):
                constructor = checker.at_sort(symbol, subject.sort)
                names = self.fields(pattern, constructor, inner)
            else:
                constructor, names = None, [self.bound(pattern, subject.sort, inner)]
            cases.append((constructor, names, self.expression(body, inner)))
            seen.add(constructor)
            if constructor is None or len(seen) == len(subject.sort.constructors):
                break
        return Match(subject, cases)

    def fields(self, pattern, constructor, inner):
        texts = pattern[1:] if type(pattern) is list else []
        return [self.bound(text, sort, inner) for text, sort in zip(texts, constructor.arguments)]

    def bound(self, text, sort, inner):
        """The name of a variable of a pattern, which is put into scope."""
        if text == b"_":
            return None
        inner[checker.name_of(text)] = variable = self.variable(text, sort, inner)
        return variable.name

    def quantifier(self, text, scope):
        inner = dict(scope)
        variables = []
        for name, sort in text[1]:
            variable = inner[checker.name_of(name)] = self.variable(name, self.script.sort(sort), inner)
            variables.append((variable.name, variable.sort))
        return Quantifier(text[0], variables, self.expression(text[2], inner), self.script.bool)

    def boolean(self, head, *under):
        return Apply(head, list(under), self.script.bool)

    def several(self, head, under):
        return under[0] if len(under) == 1 else self.boolean(head, *under)

    def operator(self, name, under):
        if name == b"ite":
            return Apply("ite", under, under[1].sort)
        if name == b"not":
            return self.boolean("not", *under)
        if name in (b"and", b"or"):
            return self.several(name.decode(), under)
        if name == b"=>":
            last = under[-1]
            for part in under[-2::-1]:
                last = self.boolean("=>", part, last)
            return last
        equal = "iff" if under[0].sort is self.script.bool else "="
        if name == b"xor":
            last = under[0]
            for part in under[1:]:
                last = self.boolean("not", self.boolean("iff", last, part))
            return last
        if name == b"=":
            return self.several("and", [self.boolean(equal, *pair) for pair in zip(under, under[1:])])
        pairs = [(a, b) for i, a in enumerate(under) for b in under[i + 1:]]
        return self.several("and", [self.boolean("not", self.boolean(equal, *pair)) for pair in pairs])
