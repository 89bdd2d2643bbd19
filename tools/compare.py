#!/usr/bin/env python3
"""Runs cosmt beside other solvers on a script or the scripts of a folder, and writes what each answers as a table.

    tools/compare.py bench/peers

The file, or each file .smt2 of the folder and of the folders in it, is given to cosmt and to whichever of cvc5, cvc4 and z3 are
installed. cosmt is the program that --cosmt names, else the variable COSMT, else crates/cosmt/out/cosmt. All get the same commands.
Those that ask for models, values, proofs and infos are left out, so that times are of verdicts alone; so are infos themselves, and
options but for `:global-declarations` and `:reproducible-resource-limit`.

A row of the table is a script: of each solver its verdicts, one for each check-sat, its processor time in seconds and its memory in
MiB. 'late' means that the solver used up --seconds. 'no answer' means that it gave fewer verdicts than the script asks for: it ended
early, or it answered an error or `unsupported`. What it answers after these is about another question and does not count. The last
column names the solvers that differ from the script's `(set-info :status ..)`, which tells the verdict of the next check, or from each
other if there is none. It also names those that gave no answer, so that the row could not be compared completely. The last row counts
both.

The table is Markdown. The error output says which solvers are missing, and shows the progress of a run of more than two seconds. It
needs Python 3.9. The status is 1 if verdicts differ, 2 if there is no script or no solver, else 0. Rows that could not be compared do
not change it.
"""

import argparse
import collections
import os
import re
import resource
import shutil
import subprocess
import sys
import tempfile
import threading
import time

HERE = os.path.dirname(os.path.abspath(__file__))
BUILT = os.path.join(os.path.dirname(HERE), "crates", "cosmt", "out", "cosmt")
VERDICTS = ("sat", "unsat", "unknown")
DEFINITE = {"sat", "unsat"}
FLAGS = {"cvc5": ["--lang", "smt2", "-q"], "cvc4": ["--lang", "smt2.6", "-q"], "z3": ["-smt2"]}
MARK = re.compile(r';[^\n\r]*|"[^"]*"|\|[^|]*\||[()]')
WORD = re.compile(r"\(\s*([^\s()]*)")
STATUS = re.compile(r"\(\s*set-info\s+:status\s+(\w+)\s*\)")

END = re.compile(r"^(\(error|unsupported$)", re.M)

Script = collections.namedtuple("Script", "name text checks levels wanted")
Run = collections.namedtuple("Run", "verdicts note seconds mib")
OPTIONS = re.compile(r"\(\s*set-option\s+:(global-declarations|reproducible-resource-limit)\s")
CHECKS = ("check-sat", "check-sat-assuming")
NONE = "no answer"


def commands_of(text):
    """The texts of the commands of a script, up to the first parenthesis that closes none."""
    depth, start = 0, 0
    for match in MARK.finditer(text):
        if match[0] == "(":
            start = match.start() if depth == 0 else start
            depth += 1
        elif match[0] == ")":
            depth -= 1
            if depth < 0:
                return
            if depth == 0:
                yield text[start : match.end()]


def script_of(path, name):
    """A script: its text without the commands that ask, how many checks it has, whether it has levels, and the right verdicts."""
    commands, wanted, status = [], [], None
    with open(path, encoding="utf-8", errors="replace") as file:
        text = file.read()
    for command in commands_of(text):
        match = WORD.match(command)
        word = match[1] if match else ""
        if STATUS.match(command):
            status = STATUS.match(command)[1]
        if word in CHECKS:
            wanted.append(status if status in DEFINITE else None)
            status = None
        if not word.startswith("get-") and word not in ("echo", "set-info") and (word != "set-option" or OPTIONS.match(command)):
            commands.append((word, command))
        if word == "exit":
            break
    levels = any(word in ("push", "pop", "reset-assertions", "reset") for word, _ in commands)
    return Script(name, "\n".join(command for _, command in commands) + "\n", len(wanted), levels, wanted)


def scripts_in(folder):
    """The script of a file, or the scripts of a folder and of those in it, by name."""
    if os.path.isfile(folder):
        return [script_of(folder, os.path.basename(folder).removesuffix(".smt2"))]
    found = []
    for place, folders, files in os.walk(folder):
        folders.sort()
        found += [os.path.join(place, file) for file in sorted(files) if file.endswith(".smt2")]
    return [script_of(path, os.path.relpath(path, folder).removesuffix(".smt2")) for path in sorted(found)]


def solvers_of(options):
    """Names and command lines of the solvers that are there."""
    cosmt = options.cosmt or os.environ.get("COSMT") or (BUILT if os.path.exists(BUILT) else "cosmt")
    peers = [name for name in options.peers.split(",") if name]
    commands = [("cosmt", [cosmt])] + [(name, [name, *FLAGS.get(name, [])]) for name in peers]
    commands += [(os.path.basename(words.split()[0]), words.split()) for words in options.solver]
    for name, command in commands:
        if not shutil.which(command[0]):
            print(f"compare: {name} is not there: no program {command[0]}", file=sys.stderr)
    return [(name, command) for name, command in commands if shutil.which(command[0])]


def started(command, path, options, output):
    """A process of the solver, with the limits of time and memory."""

    def limited():
        resource.setrlimit(resource.RLIMIT_CPU, (options.seconds, options.seconds + 1))
        resource.setrlimit(resource.RLIMIT_AS, (options.mib << 20, options.mib << 20))

    return subprocess.Popen([*command, path], stdin=subprocess.DEVNULL, stdout=output, stderr=subprocess.DEVNULL, preexec_fn=limited)


def run_of(name, command, script, path, options):
    """One run of a solver on a script."""
    several = name in ("cvc5", "cvc4") and (script.checks > 1 or script.levels)
    with tempfile.TemporaryFile() as output:
        process = started([*command, *(["--incremental"] if several else [])], path, options, output)
        timer = threading.Timer(options.clock or 6 * options.seconds, process.kill)
        timer.start()
        _, ended, used = os.wait4(process.pid, 0)
        timer.cancel()
        process.returncode = os.waitstatus_to_exitcode(ended)
        output.seek(0)
        text = output.read().decode("utf-8", "replace")
    verdicts = [line for line in END.split(text, maxsplit=1)[0].splitlines() if line in VERDICTS]
    took = used.ru_utime + used.ru_stime
    note = ""
    if len(verdicts) < script.checks:
        note = "late" if process.returncode < 0 and (took >= options.seconds or not timer.is_alive() and process.returncode == -9) else NONE
    return Run(verdicts, note, took, used.ru_maxrss // 1024)


class Progress:
    """Tells on the error output what is under way, at most every so often."""

    def __init__(self, count):
        self.count, self.start = count, time.monotonic()
        self.terminal = sys.stderr.isatty()
        self.next = 2

    def told(self, done, what):
        """Says how many scripts are done, and what is run now."""
        now = time.monotonic() - self.start
        if now < self.next:
            return
        self.next = now + (0.5 if self.terminal else 30)
        line = f"{done} of {self.count} scripts in {now:.0f} s, now {what}"
        sys.stderr.write(f"\r\x1b[K{line[:100]}" if self.terminal else line + "\n")
        sys.stderr.flush()

    def ended(self):
        """Takes the line off a terminal."""
        if self.terminal:
            sys.stderr.write("\r\x1b[K")


def remarks(script, runs):
    """The names of solvers with a verdict that is not the right one, or 'differ' where that is not known and two differ."""
    wrong, differ = [], False
    for check, wanted in enumerate(script.wanted):
        given = {name: run.verdicts[check] for name, run in runs.items() if check < len(run.verdicts)}
        given = {name: verdict for name, verdict in given.items() if verdict in DEFINITE}
        if wanted:
            wrong += [name for name, verdict in given.items() if verdict != wanted and name not in wrong]
        differ = differ or not wanted and len(set(given.values())) > 1
    return [f"{name} wrong" for name in wrong] + (["differ"] if differ else [])


def silent(runs):
    """The names of solvers that gave too few verdicts, as they stand in the last column."""
    names = [name for name, run in runs.items() if run.note == NONE]
    return [f"not compared: {', '.join(names)}"] if names else []


def counted(verdicts):
    """Verdicts as text: each of them, or how many of each."""
    if len(verdicts) <= 3:
        return " ".join(verdicts)
    return ", ".join(f"{verdicts.count(verdict)} {verdict}" for verdict in VERDICTS if verdict in verdicts)


def cells(run, least):
    """The cells of a run: verdicts, time and memory."""
    memory = f"{run.mib}" if run.mib > least else f"≤{least}"
    return [" ".join(filter(None, [counted(run.verdicts), run.note])), f"{run.seconds:.2f}", memory]


def all_runs(name, table, least):
    """The cells of a solver's row of sums."""
    runs = [runs[name] for _, runs in table]
    verdicts = [verdict for run in runs for verdict in run.verdicts]
    counts = [f"{verdicts.count(verdict)} {verdict}" for verdict in VERDICTS if verdict in verdicts]
    counts += [f"{sum(run.note == note for run in runs)} {note}" for note in ("late", NONE) if any(run.note == note for run in runs)]
    memory = max(run.mib for run in runs)
    return [", ".join(counts), f"{sum(run.seconds for run in runs):.2f}", f"{memory}" if memory > least else f"≤{least}"]


def written(rows, right):
    """A Markdown table whose columns line up; those whose number is in `right` are set to the right."""
    widths = [max(len(row[column]) for row in rows) for column in range(len(rows[0]))]
    lines = ["| " + " | ".join(cell.rjust(w) if i in right else cell.ljust(w) for i, (cell, w) in enumerate(zip(row, widths))) + " |" for row in rows]
    rule = "|" + "|".join("-" * (w + 1) + (":" if i in right else "-") for i, w in enumerate(widths)) + "|"
    return "\n".join([lines[0], rule, *lines[1:]])


def compared(scripts, solvers, options):
    """The runs of all solvers on all scripts."""
    table, progress = [], Progress(len(scripts))
    with tempfile.TemporaryDirectory() as folder:
        path = os.path.join(folder, "script.smt2")
        for script in scripts:
            with open(path, "w", encoding="utf-8") as file:
                file.write(script.text)
            runs = {}
            for name, command in solvers:
                progress.told(len(table), f"{name} on {script.name}")
                runs[name] = run_of(name, command, script, path, options)
            table.append((script, runs))
    progress.ended()
    return table


def least_memory(options):
    """The memory below which runs are not told apart: what a process has that does nothing."""
    process = started(["true"], "", options, subprocess.DEVNULL)
    _, _, used = os.wait4(process.pid, 0)
    process.returncode = 0
    return used.ru_maxrss // 1024


def main():
    parser = argparse.ArgumentParser(description=__doc__, formatter_class=argparse.RawDescriptionHelpFormatter)
    parser.add_argument("folder", metavar="PATH", help="a script, or a folder of scripts")
    parser.add_argument("--cosmt", metavar="PATH", help="the program (what COSMT names, or crates/cosmt/out/cosmt)")
    parser.add_argument("--peers", default="cvc5,cvc4,z3", metavar="NAMES", help="who is looked for beside it (cvc5,cvc4,z3)")
    parser.add_argument("--solver", action="append", default=[], metavar="COMMAND", help="a further solver, by its command line; may be given more than once")
    parser.add_argument("--seconds", type=int, default=10, metavar="N", help="the most that a run may take of the processor (10)")
    parser.add_argument("--clock", type=int, metavar="N", help="the most seconds on the clock of a run, where it sleeps or the machine is busy (six times --seconds)")
    parser.add_argument("--mib", type=int, default=4096, metavar="N", help="the most memory that a run may have (4096)")
    options = parser.parse_args()
    if not os.path.exists(options.folder):
        print(f"compare: there is no file and no folder {options.folder}", file=sys.stderr)
        return 2
    scripts, solvers = scripts_in(options.folder), solvers_of(options)
    if not scripts or not solvers:
        print(f"compare: there is no {'solver' if scripts else 'script'}", file=sys.stderr)
        return 2
    least = least_memory(options)
    table = compared(scripts, solvers, options)
    rows = [["script", *(cell for name, _ in solvers for cell in (name, "s", "MiB")), "differs"]]
    notes = [remarks(script, runs) for script, runs in table]
    for (script, runs), note in zip(table, notes):
        rows.append([script.name, *(cell for name, _ in solvers for cell in cells(runs[name], least)), "; ".join(note + silent(runs))])
    differing, open_rows = sum(map(bool, notes)), sum(bool(silent(runs)) for _, runs in table)
    summary = f"{differing} of {len(table)}" + (f"; not compared: {open_rows}" if open_rows else "")
    rows.append([f"all {len(table)}", *(cell for name, _ in solvers for cell in all_runs(name, table, least)), summary])
    print(written(rows, {column for column in range(1, 3 * len(solvers) + 1) if column % 3 != 1}))
    return 1 if differing else 0


if __name__ == "__main__":
    sys.exit(main())
