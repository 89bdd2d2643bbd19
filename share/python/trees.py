#!/usr/bin/env python3
"""Makes test inputs: red-black trees, each once, found by cosmt and checked here.

usage: share/python/trees.py PROGRAM [COUNT [DEPTH]]

Writes COUNT trees (default 1000), or all if there are fewer, as lines of JSON: null is the empty tree, ["R", left, right] a red
one. DEPTH (default 4) is the greatest number of nodes on a path. A line on the error output says how many trees there were and how
many checks they took. The status is 1 if a tree comes twice or is not a red-black tree.

How it works: after `sat` the value of the tree is one input. Every other tree differs from it at some first place, in the order from
the root down. So for each place in this order, the program pushes a level, asserts another constructor there, and searches on; then
it pops the level and asserts the constructor that the value has. No input comes twice, and few assertions are in force.
"""

import itertools
import json
import os
import sys

sys.path.insert(0, os.path.join(os.path.dirname(os.path.abspath(__file__)), "..", "..", "tools"))
from client import Solver, parse  # noqa: E402

CONSTRUCTORS = {
    "Color": {"red": [], "black": []},
    "Tree": {"empty": [], "node": [("color", "Color"), ("left", "Tree"), ("right", "Tree")]},
}
DECLARATIONS = [
    "(declare-datatype Color ((red) (black)))",
    "(declare-datatype Tree ((empty) (node (color Color) (left Tree) (right Tree))))",
    "(declare-datatype Height ((zero) (next (less Height))))",
    "(declare-fun height (Tree) Height)",
    "(define-fun is-red ((t Tree)) Bool (and ((_ is node) t) (= (color t) red)))",
    "(declare-const tree Tree)",
    "(assert (= (height empty) zero))",
    "(assert (not (is-red tree)))",
]


def assertions(term, depth):
    """What makes a tree red-black: red nodes have black children, and all paths have the same number of black nodes."""
    left, right = f"(left {term})", f"(right {term})"
    if depth == 1:
        parts = [f"((_ is empty) {left})", f"((_ is empty) {right})"]
    else:
        parts = [f"(=> (= (color {term}) red) (not (or (is-red {left}) (is-red {right}))))"]
    parts.append(f"(= (height {left}) (height {right}))")
    parts.append(f"(= (height {term}) (ite (= (color {term}) red) (height {left}) (next (height {left}))))")
    yield f"(assert (=> ((_ is node) {term}) (and {' '.join(parts)})))"
    if depth > 1:
        yield from assertions(left, depth - 1)
        yield from assertions(right, depth - 1)


class Inputs:
    """The values of a term, one after another."""

    def __init__(self, solver, term, sort):
        self.solver, self.term, self.sort = solver, term, sort
        self.checks = 0

    def all(self):
        """All values of the term."""
        return self.under([(self.term, self.sort)])

    def under(self, places):
        """The values under the assertions in force. They differ at these places, each a term and its sort, or below them."""
        self.checks += 1
        if self.solver.check() != "sat":
            return
        value, *parts = map(parse, self.solver.values(self.term, *(term for term, _ in places)))
        yield value
        places = [(term, sort, part) for (term, sort), part in zip(places, parts)]
        while places:
            (term, sort, part), *rest = places
            name, fields = (part, []) if isinstance(part, str) else (part[0], part[1:])
            for other in CONSTRUCTORS[sort]:
                if other != name:
                    self.solver.command("(push 1)")
                    self.solver.command(f"(assert ((_ is {other}) {term}))")
                    below = [(f"({selector} {term})", kind) for selector, kind in CONSTRUCTORS[sort][other]]
                    yield from self.under(below + [(term, sort) for term, sort, _ in rest])
                    self.solver.command("(pop 1)")
            self.solver.command(f"(assert ((_ is {name}) {term}))")
            places = [(f"({selector} {term})", kind, field) for (selector, kind), field in zip(CONSTRUCTORS[sort][name], fields)] + rest


def plain(value):
    """A tree as it is written in JSON."""
    return None if value == "empty" else [value[1][0].upper(), plain(value[2]), plain(value[3])]


def black_height(tree):
    """The number of black nodes on each path. None if paths differ or a red node has a red child."""
    if tree is None:
        return 0
    color, *children = tree
    heights = {black_height(child) for child in children}
    if len(heights) > 1 or None in heights or color == "R" and any(child and child[0] == "R" for child in children):
        return None
    return heights.pop() + (color == "B")


def main():
    arguments = sys.argv[1:]
    if not 1 <= len(arguments) <= 3 or arguments[0] in ("-h", "--help") or not all(map(str.isdigit, arguments[1:])):
        print(__doc__.strip())
        return 0 if arguments in (["-h"], ["--help"]) else 2
    count, depth = [int(word) for word in arguments[1:]] + [1000, 4][len(arguments) - 1 :]
    seen = set()
    with Solver(arguments[0], seconds=60) as solver:
        for text in [*DECLARATIONS, *assertions("tree", depth)]:
            solver.command(text)
        inputs = Inputs(solver, "tree", "Tree")
        for value in itertools.islice(inputs.all(), count):
            tree = plain(value)
            line = json.dumps(tree)
            if line in seen or black_height(tree) is None:
                print(f"trees: {line} comes twice, or is no red-black tree", file=sys.stderr)
                return 1
            seen.add(line)
            print(line)
    print(f"trees: {len(seen)} trees by {inputs.checks} checks", file=sys.stderr)
    return 0


if __name__ == "__main__":
    sys.exit(main())
