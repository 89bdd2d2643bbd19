#!/usr/bin/env python3
"""Lists the public functions of the crates with the clauses of their contracts.

usage: tools/clauses.py [--check]

Reads crates.txt and the sources in crates/*/src, and writes docs/CLAUSES.md: for each crate its public functions, methods and
trait methods, each with the first sentence of its comment, the names of its clauses, and the definitions of `specs` that these
clauses cite. With --check nothing is written, and the status is 1 where docs/CLAUSES.md is not what would be written.
"""

import os
import re
import sys

CRATES, PAGE = "crates.txt", "docs/CLAUSES.md"
HEAD = """# Clauses

`tools/clauses.py` writes this page from the contracts in `crates/*/src`, and the gate refuses a stale one; do not edit it by hand.
[THEOREMS.md](THEOREMS.md) says in words what the main clauses promise.

Each crate has a table of its public functions. `Promises` lists the `ensures` clauses, which are proved of the function's body, and
`Asks` the `requires` clauses, which every caller proves. `Definitions` lists what these clauses cite from the crate's own `specs`,
as `Module.name`, and what they cite from those of another crate after that crate's name. A function marked *theorem* does
nothing: its clauses are theorems about definitions. A method that implements a trait is listed where it has clauses of its own.
`ct_cases` and the test programs are left out.
"""

USE = re.compile(r"^pub use ([^;]+);", re.M)
GHOST = re.compile(r"ghost use Rattle\.(\w+)\.specs\.([\w.]+?)(?:\.\{([^}]*)\}| as (\w+));")
FUNCTION = re.compile(r"^(?P<indent> *)(?P<public>pub )?(?:const )?fn (?P<name>\w+)", re.M)
BLOCK = re.compile(r"^(?P<kind>impl|pub trait)(?:<[^{]*?>)? (?P<rest>[^{]*)\{", re.M)
BINDER = re.compile(r"\([\w ]+ : [^()]*\)")
CLAUSE = re.compile(r"\b(requires|ensures) (\w+) \{")


def layers():
    """The layers in the order of crates.txt, each with its crates."""
    found = []
    with open(CRATES, encoding="ascii") as file:
        for line in file:
            heading = re.fullmatch(r"# (\w+)\n", line)
            if heading:
                found.append((heading[1], []))
            elif ":" in line.split("#")[0]:
                found[-1][1].append(line.split(":")[0])
    return found


def sources(crate):
    """The text of each file of the crate, by its path in src without the ending."""
    texts, top = {}, os.path.join("crates", crate, "src")
    for folder, _, files in sorted(os.walk(top)):
        for name in sorted(files):
            if name.endswith(".rt"):
                path = os.path.join(folder, name)
                with open(path, encoding="utf-8") as file:
                    texts[os.path.relpath(path, top)[:-3]] = file.read()
    return texts


def exported(texts):
    """What the crate's root makes public, as pairs of a module and a name."""
    root = texts.get("lib", texts.get("main", ""))
    modules = set(re.findall(r"^(?:pub )?mod (\w+);", root, re.M))
    for path in USE.findall(root):
        module, _, names = "".join(path.split()).partition("::")
        if module in modules:
            for name in names.strip("{}").split(","):
                if name:
                    yield module, name.split("::")[-1]


def is_of(path, module):
    """Whether the file is that of the module or of one inside it."""
    return path == module or path.startswith(module + os.sep)


def comment_before(text, start):
    """The first sentence of the comment that stands before a function."""
    lines = text[:start].splitlines()
    while lines and lines[-1].strip().startswith("#["):
        lines.pop()
    said = []
    while lines and lines[-1].strip().startswith("///"):
        said.insert(0, lines.pop().strip()[3:].strip())
    first = " ".join(said).split("  ")[0]
    match = re.match(r".*?[^.]\.(?= [A-Z`\d]|$)", first)
    return (match[0] if match else first).rstrip(".")


def enclosed(text, start):
    """What stands between the brace before `start` and its partner."""
    depth, at = 1, start
    while depth:
        depth += {"{": 1, "}": -1}.get(text[at], 0)
        at += 1
    return text[start : at - 1]


def imports(text):
    """The definitions that a file names: for each name, or alias with a dot, its crate and its module."""
    names, aliases = {}, {}
    for crate, module, listed, alias in GHOST.findall(text):
        if crate == "std" or module.startswith("declared"):
            continue
        if alias:
            aliases[alias] = (crate, module)
        for item in listed.split(","):
            name, _, local = item.strip().partition(" as ")
            if name:
                names[local or name] = (crate, f"{module}.{name}")
    return names, aliases


def cited(crate, clauses, names, aliases):
    """The definitions that clauses cite, as they are written in the table."""
    found = {}
    for word in re.findall(r"[^\s(){}\[\],;:]+", BINDER.sub("", clauses)):
        head, dot, rest = word.partition(".")
        home = names.get(word) or (dot and head in aliases and (aliases[head][0], f"{aliases[head][1]}.{rest}"))
        if home:
            found[home] = None
    return [f"`{name}`" if of == crate else f"{of} `{name}`" for of, name in found]


def contract(text, at):
    """The clauses of the function whose name ends at the offset, each with its kind, name and text, and whether it is a theorem."""
    clauses, depth, bare = [], 0, re.match(r"\(\)(?!\s*->)", text[at:]) is not None
    while True:
        clause = CLAUSE.match(text, at)
        if clause:
            body = enclosed(text, clause.end())
            clauses.append((clause[1], clause[2], body))
            at = clause.end() + len(body) + 1
        elif text.startswith("//", at):
            at = text.index("\n", at)
        elif depth == 0 and text[at] in "{;":
            return clauses, text[at] == "{" and (bare or not enclosed(text, at + 1).strip())
        else:
            depth += {"(": 1, "[": 1, ")": -1, "]": -1}.get(text[at], 0)
            at += 1


def owner_of(match, blocks):
    """The type or the trait that the function is a method of, the trait that it implements, and whether a block declares the trait."""
    kind, rest = [block[1:] for block in blocks if block[0] < match.start()][-1]
    trait, _, name = rest.rpartition(" for ")
    found = re.match(r"\w+", name.strip())
    return (found[0] if found else ""), trait, kind == "pub trait"


def is_listed(match, path, public, blocks, is_program):
    """Whether the function can be called from other crates, or is a method of what can be."""
    if not match["indent"]:
        named = any(name == match["name"] and is_of(path, module) for module, name in public)
        return bool(match["public"]) and (is_program or named)
    if not any(start < match.start() for start, _, _ in blocks):
        return False
    owner, trait, declares = owner_of(match, blocks)
    return owner in {name for _, name in public} and bool(declares or trait or match["public"])


def row(crate, text, match, blocks, imported):
    """The cells of a function; none where it implements a trait and has no clauses beside those of the trait."""
    clauses, theorem = contract(text, match.end())
    owner, trait, _ = owner_of(match, blocks) if match["indent"] else ("", "", False)
    if trait and not clauses:
        return None
    said = comment_before(text, match.start()).replace("|", "\\|")
    promises, asks = ([f"`{name}`" for sort, name, _ in clauses if sort == wanted] for wanted in ("ensures", "requires"))
    return [
        f"`{owner}::{match['name']}`" if owner else f"`{match['name']}`",
        f"*theorem*: {said}" if theorem and clauses else said,
        ", ".join(promises),
        ", ".join(asks),
        ", ".join(cited(crate, " ".join(body for _, _, body in clauses), *imported)),
    ]


def functions(crate, texts):
    """The rows of the crate's table."""
    public, is_program = set(exported(texts)), "main" in texts
    for path, text in texts.items():
        imported = imports(text)
        blocks = [(match.start(), match["kind"], match["rest"].split(" where ")[0].strip()) for match in BLOCK.finditer(text)]
        for match in FUNCTION.finditer(text):
            cells = is_listed(match, path, public, blocks, is_program) and row(crate, text, match, blocks, imported)
            if cells:
                yield cells


def page():
    """The text of the page."""
    parts = [HEAD]
    for layer, crates in layers():
        if layer == "tests":
            continue
        tables = []
        for crate in crates:
            rows = list(functions(crate, sources(crate)))
            if rows:
                lines = ["| Function | What it does | Promises | Asks | Definitions |", "|---|---|---|---|---|"]
                lines += [f"| {' | '.join(row)} |" for row in rows]
                tables.append(f"### {crate}\n\n" + "\n".join(lines) + "\n")
        if tables:
            parts += [f"## {layer.capitalize()}\n", *tables]
    return "\n".join(parts)


def stored():
    """The text of the page as it stands, if there is one."""
    if not os.path.exists(PAGE):
        return None
    with open(PAGE, encoding="utf-8") as file:
        return file.read()


def main():
    if sys.argv[1:] not in ([], ["--check"]):
        print(__doc__.strip())
        return 0 if sys.argv[1:] in (["-h"], ["--help"]) else 2
    os.chdir(os.path.join(os.path.dirname(os.path.abspath(sys.argv[0])), ".."))
    text = page()
    if sys.argv[1:]:
        if stored() == text:
            return 0
        print(f"tools/clauses.py: {PAGE} is stale: run tools/clauses.py and commit what it writes", file=sys.stderr)
        return 1
    with open(PAGE, "w", encoding="utf-8") as file:
        file.write(text)
    return 0


if __name__ == "__main__":
    sys.exit(main())
