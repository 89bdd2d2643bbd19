#!/usr/bin/env python3
"""Writes a script and a derivation of `unsat` as a file that Coq accepts where the derivation passes.

usage: tools/to_coq.py [--decoded] [--abstract] [--core] SCRIPT DERIVATION
       tools/to_coq.py [--decoded] [--abstract] [--core] PROBLEM

The file goes to standard output. It ends in a theorem `unsat`: for all sorts, functions and constants of the SCRIPT, the assertions
in force at the check of the DERIVATION (docs/DERIVATIONS.md) contradict each other. Coq needs the folder coq/ of this repository,
built by `make -C coq`:

    tools/to_coq.py SCRIPT DERIVATION > proof.v && coqc -Q coq Cosmt proof.v

    --decoded   the derivation is decoded when the file is compiled, so the theorem does not rest on Coq's machine integers and arrays
    --abstract  the theorem is about any types that behave as the codatatypes, the principle of coinduction among its hypotheses;
                without this they are Coq's, and the principle is an axiom
    --core      only the assertions that the derivation uses are hypotheses

A PROBLEM is a derivation with its declarations and assertions (tools/to_problem.py); its assertions stand as terms, without `match`,
quantifiers and definitions.

What it is read with is tools/check_derivation.py; nothing that this program writes is trusted but the statement of the theorem.
docs/COQ.md says more. The status is 0, 2 where the arguments are wrong, 3 where a file cannot be read, and 6 where the derivation
cannot be read over the script.
"""

import os
import sys
import threading

sys.dont_write_bytecode = True
sys.path.insert(0, os.path.dirname(os.path.abspath(__file__)))
import check_derivation as checker  # noqa: E402
from theorems.derivation import Writer  # noqa: E402
from theorems.script import read, read_problem  # noqa: E402

STACK = 512 * 1024 * 1024


def run(arguments):
    """The status and the text for some arguments."""
    options = {"--decoded", "--abstract", "--core"}
    if "-h" in arguments or "--help" in arguments:
        return 0, __doc__.rstrip() + "\n"
    files = [argument for argument in arguments if argument not in options]
    if len(files) not in (1, 2) or any(name.startswith("--") for name in files):
        return 2, __doc__.split("\n\n")[1] + "\n"
    try:
        texts = [open(name, "rb").read() for name in files]
    except OSError as error:
        return 3, "to_coq: %s\n" % error
    try:
        derivation = read_problem(*texts) if len(texts) == 1 else read(texts[1], texts[0])
    except checker.ItemError as error:
        return 6, error.line + "\n"
    return 0, Writer(derivation, "--abstract" in arguments, "--decoded" in arguments, "--core" in arguments).write()


def main():
    result = []
    sys.setrecursionlimit(10**6)
    threading.stack_size(STACK)
    thread = threading.Thread(target=lambda: result.append(run(sys.argv[1:])))
    thread.start()
    thread.join()
    if not result:
        return 1
    status, text = result[0]
    (sys.stdout if status == 0 else sys.stderr).write(text)
    return status


if __name__ == "__main__":
    sys.exit(main())
