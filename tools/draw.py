#!/usr/bin/env python3
"""Draws a value, a model or a derivation as text for Graphviz.

    crates/cosmt/out/cosmt examples/streams.smt2 | tools/draw.py | dot -Tsvg > streams.svg

The file, or the standard input, has what cosmt writes for a script, or one of its answers. One answer is drawn: the last model, list
of values or derivation, or the one that --answer names. Anything else, for example a script, a core or a verdict, is refused.

In values and models each constructor is a row of boxes with its name and its fields, and an arrow leads from a field to its value.
Equal values are one row, so an infinite value is a cycle. A function is a table.

A derivation is drawn from the assertions down, but only the lines that the empty clause rests on. Each line has its number and its
clause. A theory line also has the equality steps that its closing rule rests on, without those that only swap the sides of an
equation. A line that rests on no other is drawn in full beside the first line that uses it, and in short beside every later one. With
--script SCRIPT, assertions have their labels. If there are more than --most lines, only the core is drawn: the assertions, the number
of lines that follow from them, and the empty clause. docs/DERIVATIONS.md describes the steps.

The status is 1 if there is nothing to draw, or if there are more than --most rows or assertions.
"""

import argparse
import html
import re
import sys

TOKEN = re.compile(r'\s+|;[^\n\r]*|(?P<token>[()]|"(?:[^"]|"")*"|\|[^|]*\||[^\s()";|]+)')
LONGEST = 36
LEFT = '<BR ALIGN="LEFT"/>'
KINDS = {
    "input": ("assertion", "#e9f5e9"),
    "gate": ("gate", "#eef3ff"),
    "exhaust": ("all constructors", "#eef3ff"),
    "learn": ("follows", "#f4f4f4"),
    "theory": ("theory", "#fff4e0"),
}


class Unfit(Exception):
    """What is read is no answer that can be drawn; the text says why."""


def read(text):
    """The S-expressions of a text: an atom is a `str`, a list is a `list`."""
    lists = [[]]
    for match in TOKEN.finditer(text):
        token = match["token"]
        if token == "(":
            lists.append([])
        elif token == ")":
            if len(lists) == 1:
                raise Unfit("a parenthesis closes that was not opened")
            done = lists.pop()
            lists[-1].append(done)
        elif token:
            lists[-1].append(token)
    if len(lists) > 1:
        raise Unfit("the input ends inside parentheses")
    return lists[0]


def written(expr):
    """The text of an S-expression."""
    return expr if isinstance(expr, str) else f"({' '.join(map(written, expr))})"


def plain(head):
    """The name of a constructor, which may stand with its sort as `(as C S)`."""
    return head[1] if isinstance(head, list) and len(head) == 3 and head[0] == "as" else head


def heads(expr):
    """The first items of the items of a list that are lists."""
    return {item[0] for item in expr if isinstance(item, list) and item and isinstance(item[0], str)}


def kind(expr):
    """What an answer is: derivation, model or values; else None."""
    if isinstance(expr, str):
        return None
    if not expr or isinstance(expr[0], str):
        return None
    if "cosmt-derivation" in heads(expr[:1]):
        return "derivation"
    if heads(expr) and heads(expr) <= {"define-fun", "@off"}:
        return "model"
    return "values" if all(isinstance(item, list) and len(item) == 2 and item[0] != "not" for item in expr) else None


def label(text):
    """A text as it stands in a label."""
    plain = "".join(char if char.isprintable() else " " for char in text)
    return html.escape(plain)


def table(rows, colour="white"):
    """A label of rows of cells; a cell is a text or a pair of a text and its attributes."""
    lines = []
    for row in rows:
        cells = [(cell, "") if isinstance(cell, str) else cell for cell in row]
        lines.append("<TR>" + "".join(f"<TD{' ' if more else ''}{more}>{text}</TD>" for text, more in cells) + "</TR>")
    return f'<<TABLE BORDER="0" CELLBORDER="1" CELLSPACING="0" CELLPADDING="4" BGCOLOR="{colour}">{"".join(lines)}</TABLE>>'


# ---------------------------------------------------------------------------------------------------------------------
# Values and models


class Values:
    """Nodes of values: each has a name and the numbers of its fields' nodes."""

    def __init__(self):
        self.names, self.fields = [], []

    def node(self, name, fields=()):
        """The number of a new node."""
        self.names.append(name)
        self.fields.append(list(fields))
        return len(self.names) - 1

    def add(self, expr, known=None):
        """The number of the node of a value."""
        if isinstance(expr, str):
            return known[expr] if known and expr in known else self.node(expr)
        if len(expr) == 3 and expr[0] == "@graph":
            return self.graph(expr[1], expr[2])
        if isinstance(plain(expr), str):
            return self.node(plain(expr))
        if not expr or not isinstance(plain(expr[0]), str):
            raise Unfit(f"{written(expr)[:60]} is no value")
        return self.node(plain(expr[0]), [self.add(field, known) for field in expr[1:]])

    def graph(self, nodes, root):
        """The number of the node of a value that is written as a graph."""
        known = {name: self.node("") for name, _ in nodes}
        for name, expr in nodes:
            made = self.add(expr, known)
            self.names[known[name]], self.fields[known[name]] = self.names[made], self.fields[made]
        if root not in known:
            raise Unfit(f"the graph has no node {written(root)}")
        return known[root]

    def classes(self):
        """For each node the number of its class: nodes are in one where their values are equal."""
        block, count = self.numbered(self.names), 0
        while count < max(block, default=0) + 1:
            count = max(block) + 1
            block = self.numbered([(block[n], *(block[k] for k in fields)) for n, fields in enumerate(self.fields)])
        return block

    @staticmethod
    def numbered(keys):
        """For each key its number in the order in which different keys come first."""
        numbers = {}
        return [numbers.setdefault(key, len(numbers)) for key in keys]


class Picture:
    """The lines of a picture of values: one node for each class."""

    def __init__(self, values):
        self.values, self.block = values, values.classes()
        self.lines, self.done = [], set()

    def small(self, node):
        """Whether a value is a name alone."""
        return not self.values.fields[node]

    def cell(self, owner, port, node):
        """The cell of a table that stands for a value: its name, or the start of an arrow to its row."""
        if self.small(node):
            return label(self.values.names[node]), ""
        self.lines.append(f"{owner}:{port}:c -> v{self.block[node]}:name [tailclip=false, arrowtail=dot, dir=both, arrowsize=0.6]")
        return "&nbsp;&nbsp;&nbsp;", f'PORT="{port}"'

    def rows(self, node):
        """Draws the rows of a value and of all values under it."""
        waiting = [node]
        while waiting:
            node = waiting.pop()
            if self.small(node) or self.block[node] in self.done:
                continue
            self.done.add(self.block[node])
            owner, fields = f"v{self.block[node]}", self.values.fields[node]
            cells = [(f"<B>{label(self.values.names[node])}</B>", 'PORT="name"')]
            cells += [self.cell(owner, f"f{place}", field) for place, field in enumerate(fields)]
            self.lines.append(f"{owner} [shape=plain, label={table([cells])}]")
            waiting += reversed(fields)

    def named(self, name, node):
        """Draws what has this value."""
        owner = f"c{len(self.lines)}"
        if self.small(node):
            self.lines.append(f'{owner} [shape=plain, label={table([[label(name), label(self.values.names[node])]], "#eef3ff")}]')
        else:
            self.lines.append(f'{owner} [shape=box, style="rounded,filled", fillcolor="#eef3ff", label=<{label(name)}>]')
            self.lines.append(f"{owner} -> v{self.block[node]}:name")
            self.rows(node)

    def function(self, name, arity, rows, rest):
        """Draws the table of a function: rows of arguments and a result, and the result for all others."""
        owner, lines = f"c{len(self.lines)}", [[(f"<B>{label(name)}</B>", f'COLSPAN="{arity + 1}"')]]
        for at, (arguments, result) in enumerate(rows):
            lines.append([self.cell(owner, f"r{at}_{place}", node) for place, node in enumerate([*arguments, result])])
        lines.append([("all others", f'COLSPAN="{arity}"'), self.cell(owner, "rest", rest)])
        self.lines.append(f'{owner} [shape=plain, label={table(lines, "#eef3ff")}]')
        for node in [node for arguments, result in rows for node in [*arguments, result]] + [rest]:
            self.rows(node)


def function_body(values, body):
    """The rows of a function's body, each the nodes of its arguments with that of its result, and the node of the rest."""
    rows = []
    while isinstance(body, list) and len(body) == 4 and body[0] == "ite":
        _, test, result, body = body
        tests = test[1:] if test[0] == "and" else [test]
        rows.append(([values.add(one[2]) for one in tests], values.add(result)))
    return rows, values.add(body)


def drawn_values(named, functions, values, most):
    """The picture of these names with their nodes, and of these functions."""
    picture = Picture(values)
    for name, node in named:
        picture.named(name, node)
    for function in functions:
        picture.function(*function)
    if len(picture.done) > most:
        raise Unfit(f"there are {len(picture.done)} rows, and --most is {most}")
    return ["rankdir=LR", "nodesep=0.25", *picture.lines]


def drawn_model(expr, most):
    """The picture of a model."""
    values, named, functions = Values(), [], []
    for item in expr:
        if len(item) != 5 or not isinstance(item[2], list):
            raise Unfit(f"{written(item)[:60]} is no definition of a model")
        word, name, parameters, _, body = item
        if parameters:
            title = f"{name} of other constructors" if word == "@off" else name
            functions.append((title, len(parameters), *function_body(values, body)))
        else:
            named.append((name, values.add(body)))
    return drawn_values(named, functions, values, most)


def drawn_pairs(pairs, most):
    """The picture of terms with their values."""
    values = Values()
    named = [(written(term), values.add(value)) for term, value in pairs]
    return drawn_values(named, [], values, most)


# ---------------------------------------------------------------------------------------------------------------------
# Derivations


class Terms:
    """The terms of a derivation, with the texts that stand for them."""

    def __init__(self, items):
        self.heads, self.below, self.texts, self.cut = [], [], [], []
        self.used = set()
        for item in items:
            self.add(item)
        self.places = self.places_of_selectors()

    def add(self, item):
        """Takes a term line."""
        word, rest = item[2], item[3:]
        name = plain(rest[0]) if word in ("con", "app", "sel", "is") else {"iff": "="}.get(word, word)
        below = [int(number) for number in (rest[1:] if word in ("con", "app", "sel", "is") else rest)]
        self.heads.append((word, name))
        self.below.append(below)
        parts = [f"(_ is {name})" if word == "is" else name, *map(self.short, below)]
        self.texts.append(f"({' '.join(parts)})" if below else name)

    def short(self, term):
        """The text of a term inside another: a long one is its number."""
        return self.texts[term] if len(self.texts[term]) <= LONGEST else f"#{term}"

    def places_of_selectors(self):
        """The place of a selector, where some constructor term has it at its place, beside all others, over one term."""
        places = {}
        for (word, _), below in zip(self.heads, self.below):
            if word == "con" and below and all(self.heads[b][0] == "sel" for b in below) and len({self.below[b][0] for b in below}) == 1:
                places.update({self.heads[b][1]: place for place, b in enumerate(below)})
        return places

    def show(self, side):
        """The text of a term on a picture; a side of an equation may be a text already."""
        if isinstance(side, str):
            return side
        for term in self.numbers(side):
            self.used.add(term)
        return self.short(side)

    def numbers(self, term):
        """The terms that stand as numbers in the text of a term."""
        if len(self.texts[term]) > LONGEST:
            return {term}
        return {below for below in self.below[term] if len(self.texts[below]) > LONGEST}.union(*(self.numbers(b) for b in self.below[term]))

    def equation(self, left, right, sign="="):
        """The text of an equation."""
        return f"{self.show(left)} {sign} {self.show(right)}"

    def literal(self, expr):
        """The text of a literal."""
        negative = isinstance(expr, list)
        term = int(expr[1] if negative else expr)
        if self.heads[term][0] in ("=", "iff"):
            return self.equation(*self.below[term], "≠" if negative else "=")
        return ("not " if negative else "") + self.show(term)

    def clause(self, literals):
        """The text of a clause."""
        return [self.literal(literal) for literal in literals] or ["false"]

    def legend(self):
        """The terms that stand as numbers on the picture, each with its text."""
        rows, waiting = {}, sorted(self.used, reverse=True)
        while waiting:
            term = waiting.pop()
            if term not in rows:
                rows[term] = f"({' '.join([self.heads[term][1], *map(self.short, self.below[term])])})"
                waiting += set().union(*(self.numbers(b) for b in self.below[term]))
        return sorted(rows.items())


class Theory:
    """A line of the theory: the equation of each of its steps."""

    def __init__(self, terms, steps, close):
        self.terms, self.steps, self.close = terms, steps, close
        self.equations = []
        for step in steps:
            self.equations.append(self.gives(step))

    def field(self, side, place):
        """The term at a place of a constructor term."""
        if isinstance(side, int) and place is not None and place < len(self.terms.below[side]):
            return self.terms.below[side][place]
        return f"a field of {self.terms.show(side)}"

    def gives(self, step):
        """The two sides of the equation that a step gives; a side that cannot be found is a text."""
        word, rest = step[0], step[1:]
        if word == "hyp":
            return (int(rest[0][1]), 1) if isinstance(rest[0], list) else (int(rest[0]), 0)
        if word == "unique":
            left, right = rest[1 + int(rest[0])][:2]
            return int(left), int(right)
        first, last = int(rest[0]), int(rest[-1])
        below = self.terms.below
        return {
            "refl": lambda: (first, first),
            "sym": lambda: self.equations[first][::-1],
            "trans": lambda: (self.equations[first][0], self.equations[last][1]),
            "cong": lambda: (first, int(rest[1])),
            "single": lambda: (first, last),
            "inject": lambda: tuple(self.field(side, last) for side in self.equations[first]),
            "sel": lambda: (first, self.field(self.equations[last][1], self.terms.places.get(self.terms.heads[first][1]))),
            "test": lambda: (first, self.tested(first, self.equations[last][1])),
            "expand": lambda: (below[self.equations[first][0]][0], last),
            "equal-in": lambda: (first, 0),
            "equal-out": lambda: tuple(below[self.equations[first][0]]),
            "neg": lambda: (first, 1 if self.equations[last][1] == 0 else 0),
        }[word]()

    def tested(self, test, side):
        """What a test of a constructor term is: term 0 or 1."""
        if not isinstance(side, int):
            return "true or false"
        return 0 if self.terms.heads[side][1] == self.terms.heads[test][1] else 1

    def needs(self, step):
        """The steps that a step names."""
        word, rest = step[0], step[1:]
        if word in ("hyp", "refl", "single"):
            return []
        if word == "unique":
            entries = [entry for pair in rest[1:] for entry in pair[2:]]
            return [int(i) for entry in entries for i in (entry[2:] if isinstance(entry, list) else [entry])]
        return [int(i) for i in {"trans": rest, "cong": rest[2:], "sel": rest[1:], "test": rest[1:], "equal-in": rest[1:], "neg": rest[1:]}.get(word, rest[:1])]

    def ends(self):
        """The steps that the closing rule names."""
        return [int(self.close[1])] if self.close[0] == "clash" else [int(entry[2]) for entry in self.close[1:]]

    def needed(self):
        """The steps on which the closing rule rests."""
        found, waiting = set(), self.ends()
        while waiting:
            step = waiting.pop()
            if step not in found:
                found.add(step)
                waiting += self.needs(self.steps[step])
        return sorted(found)

    def hidden(self, needed):
        """The steps that get no row: what is equal to itself, an equation turned round, and a hypothesis that is an equation."""
        others = {i for n in needed if self.steps[n][0] != "equal-out" for i in self.needs(self.steps[n])} | set(self.ends())
        used = {i for n in needed if self.steps[n][0] == "equal-out" for i in self.needs(self.steps[n])} - others
        return {n for n in needed if self.steps[n][0] in ("refl", "sym") or self.steps[n][0] == "hyp" and n in used}

    def rows(self, most):
        """The rows of the steps on which the closing rule rests, and of that rule."""
        needed = self.needed()
        hidden = self.hidden(needed)
        shown = [n for n in needed if n not in hidden]
        rows = [(str(n), [self.terms.equation(*self.equations[n])], self.reason(n, hidden)) for n in shown[:most]]
        if len(shown) > most:
            rows.append(("", [f"and {len(shown) - most} steps more"], [""]))
        return [*rows, self.closing(hidden)]

    def named(self, steps, hidden):
        """The numbers of the rows that stand for these steps."""
        names, waiting = [], list(steps)
        while waiting:
            step = waiting.pop(0)
            if step in hidden:
                waiting = self.needs(self.steps[step]) + waiting
            elif str(step) not in names:
                names.append(str(step))
        return names

    def reason(self, number, hidden):
        """The lines of text that tell a step's rule and the steps that it names."""
        step = self.steps[number]
        names = self.named(self.needs(step), hidden)
        if step[0] == "equal-out" and not names:
            return ["hyp"]
        if step[0] != "unique":
            return [" ".join([step[0], *names])]
        pairs = [f"{self.terms.show(int(left))} ~ {self.terms.show(int(right))}" for left, right, *_ in step[2:]]
        more = [f"and {len(pairs) - 8} pairs more"] if len(pairs) > 8 else []
        return [" ".join(["unique", *names]), *pairs[:8], *more]

    def closing(self, hidden):
        """The row of the closing rule."""
        names = self.named(self.ends(), hidden)
        if self.close[0] == "clash":
            return "", ["two constructors"], [" ".join(["clash", *names])]
        return "", [f"{self.terms.show(int(self.close[1][0]))} lies below itself"], [" ".join(["cycle", *names])]


class Derivation:
    """A derivation: its terms and its lines."""

    def __init__(self, expr, steps, labels):
        self.terms = Terms([item for item in expr if item[0] == "t"])
        self.lines = {int(item[1]): (item[2], item[3:]) for item in expr if item[0] == "s"}
        self.most_steps, self.labels = steps, labels

    def needs(self, number):
        """The lines that a line names."""
        step = self.lines[number][1]
        return [int(hint) for hint in step[1:]] if step[0] == "learn" else []

    def core(self):
        """The lines that the last one rests on, in their order."""
        found, waiting = set(), [max(self.lines, default=0)]
        while waiting:
            number = waiting.pop()
            if number not in self.lines:
                raise Unfit(f"the derivation has no line {number}")
            if number not in found:
                found.add(number)
                waiting += self.needs(number)
        return sorted(found)

    def title(self, number):
        """What a line is, and its colour."""
        clause, step = self.lines[number]
        title, colour = KINDS[step[0]]
        if step[0] == "gate":
            title = f"gate {step[1]}"
        if step[0] == "input" and int(step[1]) in self.labels:
            title = f"assertion {self.labels[int(step[1])]}"
        return title, colour if clause else "#ffd9d9"

    def clause(self, number, most=8):
        """The texts of the literals of a line, which are cut where there are many."""
        texts = self.terms.clause(self.lines[number][0])
        return texts if len(texts) <= most else [*texts[: most - 1], f"or {len(texts) - most + 1} literals more"]

    def node(self, number):
        """The node of a line."""
        step, (title, colour) = self.lines[number][1], self.title(number)
        rows = [[(f"<B>{number}</B> {label(title)}", 'COLSPAN="3" ALIGN="LEFT"')]]
        rows.append([("<BR/>or ".join(map(label, self.clause(number))), 'COLSPAN="3"')])
        if step[0] == "theory":
            for place, equation, reason in Theory(self.terms, step[1], step[2]).rows(self.most_steps):
                lines = [f'{"".join(label(text) + LEFT for text in texts)}' for texts in ([place], equation, reason)]
                rows.append([(text, 'ALIGN="LEFT" BALIGN="LEFT"') for text in lines])
        return f"s{number} [shape=plain, label={table(rows, colour)}]"

    def stub(self, number, user):
        """The node of a line beside a further line that uses it, with the edge to this one."""
        rows = [[f"<B>{number}</B>", "<BR/>or ".join(map(label, self.clause(number, 3)))]]
        return [f"s{number}_{user} [shape=plain, label={table(rows, self.title(number)[1])}]", f"s{number}_{user} -> s{user}"]

    def edges(self, core):
        """The lines of text for the edges between the lines of the core, and for the nodes of those that are drawn more than once."""
        drawn = set()
        for user in core:
            for number in dict.fromkeys(self.needs(user)):
                if number in drawn and not self.needs(number):
                    yield from self.stub(number, user)
                else:
                    yield f"s{number} -> s{user}"
                drawn.add(number)

    def summary(self, core, most):
        """The core alone: a table of the assertions, the lines that follow from them, and the empty clause."""
        inputs = [number for number in core if self.lines[number][1][0] == "input"]
        if len(inputs) > most:
            raise Unfit(f"the last line rests on {len(inputs)} assertions, and --most is {most}")
        rows = []
        for number in inputs:
            texts = f"{self.title(number)[0]}, line {number}", *self.clause(number)
            rows.append([(text, 'ALIGN="LEFT"') for text in (label(texts[0]), "<BR/>or ".join(map(label, texts[1:])))])
        kinds = [self.lines[number][1][0] for number in core[:-1]]
        others = [["lines that follow", str(len(kinds) - len(inputs))]]
        others += [[label(KINDS[kind][0]), str(kinds.count(kind))] for kind in dict.fromkeys(kinds) if kind != "input"]
        yield f"inputs [shape=plain, label={table(rows, KINDS['input'][1])}]"
        yield f"others [shape=plain, label={table(others, KINDS['learn'][1])}]"
        yield self.node(core[-1])
        yield "inputs -> others"
        yield f"others -> s{core[-1]}"

    def drawn(self, most):
        """The picture of the lines on which the last one rests."""
        core = self.core()
        large = len(core) > most
        lines = list(self.summary(core, most)) if large else [*map(self.node, core), *self.edges(core)]
        legend = [[label(f"#{term}"), (label(text), 'ALIGN="LEFT"')] for term, text in self.terms.legend()]
        return lines + ([f"legend [shape=plain, label={table(legend)}]"] if legend else [])


def labels_of(expr, path):
    """The labels of assertions of a script, by the numbers of their terms in a derivation."""
    sys.dont_write_bytecode = True
    import check_derivation as checker

    with open(path, "rb") as file:
        text = file.read()
    try:
        derivation = checker.read_derivation(written(expr).encode("utf-8", "surrogateescape"), text)
        script, moved, labels = derivation.script, [], {}
        for head, *under in list(script.terms.numbers):
            moved.append(derivation.numbers[(head, *[moved[term] for term in under])])
        for command in checker.expressions(text):
            name = checker.labelled(command[1])[1] if command[:1] == [b"assert"] and len(command) == 2 else None
            if type(script.symbols.get(name)) is checker.Definition:
                term = script.terms.of_code(script.symbols[name].code)
                if term in script.assertions:
                    labels[moved[term]] = name.decode("utf-8", "surrogateescape")
    except checker.ItemError as error:
        raise Unfit(f"this derivation is none of {path}: {error.line}") from error
    except (checker.TextError, checker.Refused):
        pass
    return labels


# ---------------------------------------------------------------------------------------------------------------------


def chosen(text, wanted):
    """The answer that is drawn, with its kind."""
    answers = read(text)
    fit = [(kind(answer), answer) for answer in answers if kind(answer)]
    if not fit:
        raise Unfit("there is no model, no value and no derivation")
    if wanted is not None and not 1 <= wanted <= len(fit):
        raise Unfit(f"there are {len(fit)} answers to draw")
    return fit[-1 if wanted is None else wanted - 1]


def drawing(text, options):
    """The text of the picture."""
    what, expr = chosen(text, options.answer)
    try:
        if what == "derivation":
            labels = labels_of(expr, options.script) if options.script else {}
            lines = Derivation(expr, options.steps, labels).drawn(options.most)
        elif what == "model":
            lines = drawn_model(expr, options.most)
        else:
            lines = drawn_pairs(expr, options.most)
    except (IndexError, KeyError, ValueError, TypeError, RecursionError) as error:
        raise Unfit(f"this {what} departs from its form") from error
    style = ['graph [fontname="Helvetica"]', 'node [fontname="Helvetica", fontsize=11]', 'edge [color="#555555"]']
    return "\n".join([f"digraph {what} {{", *(f"  {line}" for line in style + lines), "}"]) + "\n"


def main():
    parser = argparse.ArgumentParser(description=__doc__, formatter_class=argparse.RawDescriptionHelpFormatter)
    parser.add_argument("file", nargs="?", help="what cosmt wrote; standard input where it is left out")
    parser.add_argument("--answer", type=int, metavar="N", help="draw the N-th of the answers that can be drawn, from 1")
    parser.add_argument("--script", metavar="FILE", help="the script of a derivation, for the labels of its assertions")
    parser.add_argument("--most", type=int, default=200, metavar="N", help="the most rows or lines that are drawn (200)")
    parser.add_argument("--steps", type=int, default=24, metavar="N", help="the most equality steps of a line that are drawn (24)")
    options = parser.parse_args()
    sys.setrecursionlimit(20_000)
    try:
        if options.file:
            with open(options.file, encoding="utf-8", errors="surrogateescape") as file:
                text = file.read()
        else:
            text = sys.stdin.buffer.read().decode("utf-8", "surrogateescape")
        sys.stdout.write(drawing(text, options))
    except (Unfit, OSError) as error:
        print(f"draw: {error}", file=sys.stderr)
        return 1
    return 0


if __name__ == "__main__":
    sys.exit(main())
