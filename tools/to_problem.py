#!/usr/bin/env python3
"""Writes a derivation of `unsat` together with its declarations and assertions, so that a reader needs no script.

usage: tools/to_problem.py SCRIPT DERIVATION

The text goes to standard output. It is one list, with these items in this order; numbers of sorts, constructors, functions and terms
count from 0, and a name is quoted where it has to be:

    (cosmt-problem 1)
    (sort N KIND NAME)              KIND is bool, uninterpreted, datatype or codatatype; sort 0 is Bool. A sort with arguments has the
                                    name |(List Color)|: it is a sort like any other, with constructors of its own
    (constructor N S NAME (NAME S) ..)   of the sort S; each field has the name of its selector and a sort. 0 is true and 1 is false
    (function N NAME (S ..) S)      the sorts of the arguments, and that of the result
    (t N S TERM)                    a term of the sort S, as in docs/DERIVATIONS.md, but with `con C`, `is C`, `app F` and `sel C K`
                                    for the numbers of a constructor and a function and the place of a field from 0
    (assert N)                      the term N is an assertion
    (s N (LITERAL ..) STEP)         the lines, as in docs/DERIVATIONS.md
    (end M)

The terms are those of the derivation, and after them those that the assertions have beside these. What a reader has to believe is
that the declarations and the terms with `assert` are what the script says; tools/check_derivation.py is what reads it here. The
status is that of tools/to_coq.py.
"""

import os
import sys

sys.dont_write_bytecode = True
sys.path.insert(0, os.path.dirname(os.path.abspath(__file__)))
import check_derivation as checker  # noqa: E402

KINDS = {"Bool": "bool"}
WORDS = {checker.EQUAL: "=", checker.NOT: "not", checker.IFF: "iff", checker.AND: "and", checker.OR: "or", checker.ITE: "ite"}


def text_of(item):
    """The text of an expression that was read."""
    if type(item) is list:
        return "(%s)" % " ".join(map(text_of, item))
    return item.decode("utf-8", "surrogateescape") if type(item) is bytes else str(item)


def name_of(name):
    return checker.text_of_name(name).decode("utf-8", "surrogateescape")


class Problem:
    """The items of a problem."""

    def __init__(self, proof, script):
        self.derivation = checker.read_derivation(proof, script)
        self.items = next(checker.expressions(proof))
        self.lines = ["(cosmt-problem 1)"]
        self.sorts = {sort: number for number, sort in enumerate(self.derivation.script.all_sorts())}
        self.constructors = {constructor: number for number, constructor in enumerate(
            constructor for sort in self.sorts for constructor in sort.constructors)}
        self.functions = {}
        self.terms = []

    def write(self):
        self.declare()
        self.write_terms()
        for number in sorted(self.derivation.assertions):
            self.lines.append("(assert %d)" % number)
        self.lines += [text_of(item) for item in self.items if item[0] in (b"s", b"end")]
        return "(\n%s\n)\n" % "\n".join(self.lines)

    def declare(self):
        for sort, number in self.sorts.items():
            name = sort.name if sort.generic is None else checker.text_of_expression(sort.expression).replace(b"|", b"")
            self.lines.append("(sort %d %s %s)" % (number, KINDS.get(sort.kind, sort.kind), name_of(name)))
        for constructor, number in self.constructors.items():
            fields = "".join(" (%s %d)" % (name_of(selector.name), self.sorts[sort])
                             for selector, sort in zip(constructor.selectors, constructor.arguments))
            self.lines.append("(constructor %d %d %s%s)" % (number, self.sorts[constructor.result], name_of(constructor.name), fields))
        for head, *_ in self.derivation.numbers:
            if type(head) is checker.Function and head not in self.functions:
                self.functions[head] = len(self.functions)
                arguments = " ".join(str(self.sorts[sort]) for sort in head.arguments)
                self.lines.append("(function %d %s (%s) %d)" % (self.functions[head], name_of(head.name), arguments, self.sorts[head.result]))

    def write_terms(self):
        sorts = []
        boolean = self.derivation.script.bool
        for number, (head, *under) in enumerate(self.derivation.numbers):
            sort = boolean
            if type(head) in (checker.Constructor, checker.Function, checker.Selector):
                sort = head.result
            elif head is checker.ITE:
                sort = sorts[under[1]]
            sorts.append(sort)
            self.lines.append("(t %d %d %s)" % (number, self.sorts[sort], " ".join([self.head(head), *map(str, under)])))

    def head(self, head):
        if type(head) is checker.Constructor:
            return "con %d" % self.constructors[head]
        if type(head) is checker.Tester:
            return "is %d" % self.constructors[head.constructor]
        if type(head) is checker.Function:
            return "app %d" % self.functions[head]
        if type(head) is checker.Selector:
            return "sel %d %d" % (self.constructors[head.constructor], head.place)
        return WORDS[head]


def main(arguments):
    if "-h" in arguments or "--help" in arguments:
        print(__doc__.rstrip())
        return 0
    if len(arguments) != 2:
        sys.stderr.write(__doc__.split("\n\n")[1] + "\n")
        return 2
    try:
        script, proof = [open(name, "rb").read() for name in arguments]
    except OSError as error:
        sys.stderr.write("to_problem: %s\n" % error)
        return 3
    try:
        text = Problem(proof, script).write()
    except checker.ItemError as error:
        sys.stderr.write(error.line + "\n")
        return 6
    sys.stdout.buffer.write(text.encode("utf-8", "surrogateescape"))
    return 0


if __name__ == "__main__":
    sys.exit(main(sys.argv[1:]))
