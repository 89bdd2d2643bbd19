#!/usr/bin/env python3
"""Talks to cosmt over a pipe: it sends a command, reads the answer, and sends the next command.

usage: tools/client.py PROGRAM [FILE [FOLDER]]

As a module it has the class `Solver`:

    with Solver("cosmt", seconds=10) as solver:
        solver.command("(declare-const p Bool)")
        solver.command("(assert p)")
        if solver.check() == "sat":
            print(solver.values("p"))

`command` takes the text of exactly one command and returns its answer as an S-expression: an atom is a `str`, a list is a `list`.
For any other text it raises ValueError and sends nothing. It raises `SolverError` if the answer is `(error "..")`, and `Unsupported`
if it is `unsupported`; the session goes on after both. If an answer takes longer than `seconds`, the program is killed and
`OutOfTime` is raised. If the program ends without an answer, it is `SolverEnded`. `close`, which `with` calls, always ends the
program. `program` is a name or a path, or a list of a name or path and arguments. docs/CLIENTS.md has more, and
share/python/trees.py is an example.

The option `:print-success` is set at the start, so that every command has one answer, which ends where its S-expression ends.

Called with PROGRAM alone, it holds dialogues with the program and checks each answer. The status is 0 if all are right, else 1.
Called with a FILE, it sends the commands of this script one by one and writes each with its answer. With a FOLDER it also stores
there the model of each check-sat that is `sat`, and the derivation of each that is `unsat`. Then it writes a line for each check-sat:
its number, its verdict or `refused`, and the file. A line that begins with `-` is about a command that is refused or unsupported, a
line that begins with `?` has the verdict of a check with assumptions. `tools/prove.sh` does this and audits what is stored.

Bytes that are not UTF-8 pass unchanged (`surrogateescape`). It needs Python 3.8.

The line number in an error counts all that this tool sends, so it is not the line of the FILE.
"""

import os
import re
import select
import subprocess
import sys
import tempfile
import time

PIECE = 65536
END = '"end of the answer"'
SUCCESS = "(set-option :print-success true)"
GRACE = 5


class SolverError(Exception):
    """The answer `(error "..")` to a command; the text is its argument."""


class Unsupported(SolverError):
    """The answer `unsupported` to a command; the text is the command."""


class SolverEnded(EOFError):
    """The program ended, or was ended, before it answered."""


class OutOfTime(SolverEnded):
    """An answer took longer than the time limit; the program was ended."""


class Scanner:
    """Finds where S-expressions end in bytes that come in pieces. No byte is looked at twice."""

    def __init__(self):
        self.waiting = bytearray()
        self.at = 0
        self.start = None
        self.depth = 0
        self.inside = None

    def feed(self, piece):
        """Takes bytes that follow those taken before."""
        self.waiting += piece

    def next(self):
        """The bytes of the next S-expression, or None where its end has not come yet."""
        while self.at < len(self.waiting):
            byte = self.waiting[self.at]
            ended = self.step(byte)
            if ended is not None:
                text = bytes(self.waiting[self.start : ended])
                del self.waiting[:ended]
                self.at, self.start = 0, None
                return text
            self.at += 1
        return None

    def step(self, byte):
        """Where the S-expression ends, if the byte at `self.at` tells that it has ended."""
        char = chr(byte)
        if self.inside == "comment":
            self.inside = None if char in "\r\n" else "comment"
        elif self.inside == "|":
            if char == "|":
                self.inside = None
                return self.at + 1 if self.depth == 0 else None
        elif self.inside == '"':
            self.inside = "quote" if char == '"' else '"'
        elif self.inside == "quote" and char == '"':
            self.inside = '"'
        elif self.inside == "quote" or self.inside == "atom" and char in ' \t\r\n();"|':
            self.inside = None
            return self.at if self.depth == 0 else self.outside(char)
        elif self.inside is None:
            return self.outside(char)
        return None

    def outside(self, char):
        """As `step`, where the byte goes on with no atom, string, quoted symbol or comment."""
        if char == ";":
            self.inside = "comment"
        elif char not in " \t\r\n":
            self.start = self.at if self.start is None else self.start
            if char == "(":
                self.depth += 1
            elif char == ")":
                self.depth -= 1
                return self.at + 1 if self.depth <= 0 else None
            else:
                self.inside = char if char in '"|' else "atom"
        return None


def parse(text):
    """The S-expression of a text that holds one: an atom as `str`, a list as `list`. Nesting has no limit."""
    lists, at = [[]], 0
    while at < len(text):
        char = text[at]
        end = at + 1
        if char == "(":
            lists.append([])
        elif char == ")":
            done = lists.pop()
            lists[-1].append(done)
        elif char in '"|':
            end = text.index(char, at + 1) + 1
            while char == '"' and text[end : end + 1] == '"':
                end = text.index('"', end + 1) + 1
            lists[-1].append(text[at:end])
        elif char == ";":
            while end < len(text) and text[end] not in "\r\n":
                end += 1
        elif char not in " \t\r\n":
            while end < len(text) and text[end] not in ' \t\r\n()"|;':
                end += 1
            lists[-1].append(text[at:end])
        at = end
    return lists[0][0]


def written(expression):
    """The text of an S-expression."""
    return expression if isinstance(expression, str) else f"({' '.join(map(written, expression))})"


def fault_of(text):
    """Why a text is not exactly one command. None if it is one."""
    scanner, found = Scanner(), []
    scanner.feed(text.encode(errors="surrogateescape") + b"\n")
    while len(found) < 2 and (expression := scanner.next()) is not None:
        found.append(expression)
    if len(found) > 1:
        return "more than one command"
    if scanner.start is not None:
        return "a command that does not end"
    return None if found and found[0].startswith(b"(") else "no command"


class Solver:
    """A session with a solver that runs as another process. Use it with `with`, which ends the process.

    `seconds` is the longest time that an answer may take, None for no limit.
    """

    def __init__(self, program, seconds=None):
        words = [program] if isinstance(program, (str, os.PathLike)) else list(program)
        self.process = subprocess.Popen(words, stdin=subprocess.PIPE, stdout=subprocess.PIPE, bufsize=0)
        os.set_blocking(self.process.stdin.fileno(), False)
        self.scanner = Scanner()
        self.seconds, self.deadline = seconds, None
        self.ended = False
        try:
            self.command(SUCCESS)
        except BaseException:
            self.process.kill()
            self.close()
            raise

    def __enter__(self):
        return self

    def __exit__(self, kind, *_):
        if kind is not None:
            self.process.kill()
        self.close()

    def wait_for(self, reading, writing):
        """Waits until there is something to read, or room to write. OutOfTime if that takes too long."""
        left = None if self.deadline is None else max(0, self.deadline - time.monotonic())
        if not any(select.select(reading, writing, [], left)[:2]):
            self.process.kill()
            raise OutOfTime(f"no answer within {self.seconds} s; the solver was ended")

    def send(self, text):
        """Sends a text that may be a part of a command. SolverEnded if the program reads no more."""
        waiting = memoryview(text.encode(errors="surrogateescape"))
        while waiting:
            self.wait_for([], [self.process.stdin])
            try:
                waiting = waiting[os.write(self.process.stdin.fileno(), waiting[:PIECE]) :]
            except BlockingIOError:
                pass
            except BrokenPipeError as error:
                raise SolverEnded("the solver has ended") from error

    def answer(self):
        """The text of the next answer. SolverEnded if the program ends before it."""
        while (text := self.scanner.next()) is None:
            self.wait_for([self.process.stdout], [])
            piece = os.read(self.process.stdout.fileno(), PIECE)
            if not piece:
                raise SolverEnded("the solver ended without an answer")
            self.scanner.feed(piece)
        return text.decode(errors="surrogateescape")

    def timed(self, talk):
        """What `talk` returns, within the time limit. If the program ends, the session is closed."""
        if self.ended:
            raise SolverEnded("the solver has ended")
        self.deadline = None if self.seconds is None else time.monotonic() + self.seconds
        try:
            return talk()
        except OutOfTime:
            self.close()
            raise
        except SolverEnded as error:
            raise SolverEnded(f"{error}, with status {self.close()}") from None
        finally:
            self.deadline = None

    def text_of(self, text):
        """Sends one command and returns the text of its answer, for models and derivations that are stored."""
        fault = fault_of(text)
        if fault:
            raise ValueError(f"{fault}: {text!r}")
        words = parse(text)
        if words[:2] == ["set-option", ":print-success"] and words[2:] != ["true"]:
            raise ValueError(f"without `success` some commands have no answer: {text!r}")

        def talk():
            self.send(text + "\n")
            if words == ["reset"]:
                self.send(SUCCESS + "\n")
            return self.answer()

        return self.timed(talk)

    def command(self, text):
        """Sends one command and returns its answer. SolverError if it is an error, Unsupported if it is `unsupported`."""
        answer = parse(self.text_of(text))
        if isinstance(answer, list) and answer[:1] == ["error"]:
            raise SolverError(answer[1][1:-1].replace('""', '"'))
        if answer == "unsupported":
            raise Unsupported(text)
        return answer

    def check(self, *assumptions):
        """The verdict on the assertions together with the assumptions, if any: `sat`, `unsat` or `unknown`."""
        return self.command(f"(check-sat-assuming ({' '.join(assumptions)}))" if assumptions else "(check-sat)")

    def values(self, *terms):
        """The texts of the values of terms after `sat`."""
        return [written(value) for _, value in self.command(f"(get-value ({' '.join(terms)}))")]

    def answers(self, text):
        """Sends one command and an `echo` after it, and returns the texts of the answers before that of the `echo`: none or one.
        This works whatever the value of `:print-success` is. If the program ends, `ended` is true afterwards."""
        texts = []

        def talk():
            self.send(f"{text}\n(echo {END})\n")
            while (answer := self.answer()) != END:
                texts.append(answer)

        try:
            self.timed(talk)
        except OutOfTime:
            raise
        except SolverEnded:
            pass
        return texts

    def close(self):
        """Ends the input, kills the program unless it ends within some seconds, and returns its status."""
        self.ended = True
        if not self.process.stdout.closed:
            self.process.stdin.close()
            self.drain(time.monotonic() + GRACE)
            self.process.stdout.close()
        try:
            return self.process.wait(GRACE)
        except subprocess.TimeoutExpired:
            self.process.kill()
            return self.process.wait()

    def drain(self, deadline):
        """Reads and drops what the program still writes, and kills it if it writes on until the deadline."""
        while select.select([self.process.stdout], [], [], max(0, deadline - time.monotonic()))[0]:
            if not os.read(self.process.stdout.fileno(), PIECE):
                return
        self.process.kill()


def expect(what, wanted, got):
    """Ends the program with status 1 where an answer is not the one that it must be."""
    if wanted != got:
        print(f"client: {what}: {got!r} instead of {wanted!r}", file=sys.stderr)
        sys.exit(1)


def expect_start(what, wanted, got):
    """As `expect`, where the answer must begin with a text; an error may name a detail after it."""
    expect(what, wanted, got[: len(wanted)])


def refused(solver, text):
    """The text of the exception that a command raises."""
    try:
        return f"no error but {solver.command(text)!r}"
    except SolverError as error:
        return error.args[0]


SCRIPT = [
    "(declare-datatype List ((nil) (cons (head Bool) (tail List))))",
    "(declare-const x List)",
    "(assert ((_ is cons) x))",
]
CONTRADICTION = "(assert (= x (tail x)))"


def dialogue(program):
    """Declares, asserts, checks, asks for values, adds and removes a level, makes an error, and ends."""
    with Solver(program) as solver:
        for text in SCRIPT:
            expect(text, "success", solver.command(text))
        expect("check", "sat", solver.command("(check-sat)"))
        value = solver.command("(get-value (x))")
        expect("value", ["x", "cons"], [value[0][0], value[0][1][0]])
        expect("push", "success", solver.command("(push 1)"))
        expect("assert", "success", solver.command(CONTRADICTION))
        expect("check", "unsat", solver.command("(check-sat)"))
        derivation = solver.text_of("(get-proof)")
        expect("pop", "success", solver.command("(pop 1)"))
        expect_start("error", "line 12: [E21] unknown symbol", refused(solver, "(assert y)"))
        expect("check", "sat", solver.command("(check-sat)"))
        expect("exit", "success", solver.command("(exit)"))
        expect("status after an error", 1, solver.close())
    audited(program, derivation)


def audited(program, derivation):
    """The derivation of the dialogue's second check passes an audit of a process of its own."""
    with tempfile.TemporaryDirectory() as folder:
        paths = [os.path.join(folder, name) for name in ("derivation", "script.smt2")]
        script = "\n".join([*SCRIPT, "(check-sat)", "(push 1)", CONTRADICTION, "(check-sat)"])
        for path, text in zip(paths, (derivation, script)):
            with open(path, "w", encoding="utf-8") as file:
                file.write(text)
        run = subprocess.run([program, "--audit", *paths], stdout=subprocess.PIPE, check=False)
        expect("audit", (b"verified\n", 0), (run.stdout, run.returncode))


def in_pieces(program):
    """A command that comes byte by byte is answered once its closing parenthesis is sent, and not before."""
    with Solver(program) as solver:
        for char in '(echo "a ""b"" (")':
            solver.send(char)
        expect("echo", '"a ""b"" ("', solver.answer())
        solver.send("(check-sat) (get-info")
        expect("check before the rest", "sat", solver.answer())
        solver.send(" :name) ; no line feed")
        expect("info", '(:name "cosmt")', solver.answer())
        expect("status", 0, solver.close())


def reader_that_stops(program):
    """Where nobody reads the answers any more, the program ends with status 4, and by no signal."""
    solver = Solver(program)
    solver.process.stdout.close()
    solver.send('(echo "nobody reads this")\n')
    expect("status without a reader", 4, solver.process.wait())
    solver.process.stdin.close()


def command_that_never_ends(program):
    """Where the input ends in a command, what came before it is answered, and then the error."""
    solver = Solver(program)
    solver.send("(check-sat) (assert (and")
    solver.process.stdin.close()
    expect("check", "sat", solver.answer())
    expect_start("error", '(error "line 2: [E3] input ends inside an expression', solver.answer())
    solver.process.stdout.close()
    expect("status after a cut command", 1, solver.process.wait())


NO_COMMANDS = {
    "(check-sat) (check-sat)": "more than one command",
    "(check-sat) done": "more than one command",
    "(check-sat": "a command that does not end",
    "check-sat": "no command",
    " ; nothing": "no command",
    "(set-option :print-success false)": "without `success` some commands have no answer",
}


def in_step(program):
    """A text that is not exactly one command is not sent, an error is an exception, and the next command gets its own answer."""
    with Solver(program, seconds=60) as solver:
        for text, fault in NO_COMMANDS.items():
            try:
                expect(text, "a ValueError", solver.command(text))
            except ValueError as error:
                expect(text, f"{fault}: {text!r}", error.args[0])
        expect("unsupported", "(get-assertions)", refused(solver, "(get-assertions)"))
        expect("echo", '"a ""b"" ("', solver.command('(echo "a ""b"" (") ; (echo'))
        expect("reset", "success", solver.command("(reset)"))
        expect("success after a reset", "success", solver.command("(declare-const p Bool)"))
        expect("check", "sat", solver.check("p"))
        expect("values", ["true", "false"], solver.values("p", "(not p)"))
        expect("core", "unsat", solver.check("p", "(not p)"))
        expect("status after an error", 0, solver.close())
        expect("status once more", 0, solver.close())
        expect_end(solver, SolverEnded)


def expect_end(solver, kind):
    """The next command finds that the session ends, or has ended."""
    try:
        expect("answer after the end", kind.__name__, solver.command("(check-sat)"))
    except SolverEnded as error:
        expect("answer after the end", kind, type(error))


def ended_in_time(program):
    """A check that takes too long ends with the program, and every command after it finds the session ended."""
    colors, nodes = range(12), range(13)
    commands = ["(declare-datatype Color (" + " ".join(f"(c{n})" for n in colors) + "))"]
    commands += [f"(declare-const n{n} Color)" for n in nodes]
    commands += ["(assert (distinct " + " ".join(f"n{n}" for n in nodes) + "))", "(set-option :reproducible-resource-limit 0)"]
    start = time.monotonic()
    with Solver(program, seconds=1) as solver:
        for text in commands:
            solver.command(text)
        expect_end(solver, OutOfTime)
        expect_end(solver, SolverEnded)
        expect("status of a killed program", -9, solver.close())
    expect("seconds of a check that is too long", True, time.monotonic() - start < 5)


def commands_of(path):
    """The texts of the commands of a script, and at the end None where it ends inside one."""
    scanner = Scanner()
    with open(path, "rb") as file:
        scanner.feed(file.read() + b"\n")
    while (text := scanner.next()) is not None:
        yield text.decode(errors="surrogateescape")
    if scanner.start is not None:
        yield None


def replay(program, path):
    """Sends a script command by command, and writes each with its answer."""
    with Solver(program) as solver:
        for text in commands_of(path):
            if text is None:
                print("client: the script ends inside a command, which is not sent", file=sys.stderr)
                continue
            print(text)
            for answer in solver.answers(text):
                print(f"-> {answer}", flush=True)


CHECK = re.compile(r"\((\s|;[^\n\r]*[\n\r])*check-sat[\s;)]")
ASSUMING = re.compile(r"\((\s|;[^\n\r]*[\n\r])*check-sat-assuming[\s;()]")
VERDICTS = ("sat", "unsat", "unknown")
ASKED = {"sat": ("model", "(get-model)"), "unsat": ("derivation", "(get-proof)")}


def check_of(text, answers):
    """What came of a check-sat, by its answer; None where the command was another, one with assumptions among them."""
    if not CHECK.match(text):
        return None
    if answers and answers[0] in VERDICTS:
        return answers[0]
    return "refused" if answers and "[E30]" in answers[0] else None


def remark_on(text, answers):
    """The line about a command that is refused or unsupported or checks with assumptions. None for any other."""
    short = " ".join(text.split())
    short = short if len(short) <= 60 else short[:57] + ".."
    for answer in answers:
        if answer in VERDICTS and ASSUMING.match(text):
            return f"? {answer} {short}"
        if answer == "unsupported":
            return f"- unsupported {short}"
        if answer.startswith("(error "):
            return f"- refused {answer[answer.find('[') : -2]}: {short}"
    return None


def stored(program, path, folder):
    """Sends a script command by command, and stores the model or the derivation of each check."""
    os.makedirs(folder, exist_ok=True)
    count = 0
    with Solver(program) as solver:
        for text in commands_of(path):
            if solver.ended:
                break
            if text is None:
                print("- refused [E3] input ends inside an expression")
                break
            answers = solver.answers(text)
            remark = remark_on(text, answers)
            if remark:
                print(remark, flush=True)
            verdict = check_of(text, answers)
            if verdict is None:
                continue
            count += 1
            file = ""
            if verdict in ASKED:
                kind, question = ASKED[verdict]
                file = os.path.join(folder, f"check-{count}.{kind}")
                with open(file, "w", encoding="utf-8", errors="surrogateescape") as output:
                    output.write(solver.text_of(question) + "\n")
            print(count, verdict, file, flush=True)
        status = solver.close()
        expect("status of the solver", status if status in (0, 1) else "0 or 1", status)


def main():
    """The call as the head of this file says."""
    sys.stdout.reconfigure(encoding="utf-8", errors="surrogateescape")
    if len(sys.argv) == 3:
        replay(*sys.argv[1:])
    elif len(sys.argv) == 4:
        stored(*sys.argv[1:])
    elif len(sys.argv) == 2 and sys.argv[1] not in ("-h", "--help"):
        program = sys.argv[1]
        for part in (dialogue, in_pieces, reader_that_stops, command_that_never_ends, in_step, ended_in_time):
            part(program)
        print("client: the dialogues end as they must")
    else:
        print(__doc__.strip())
        return 0 if sys.argv[1:] in (["-h"], ["--help"]) else 2
    return 0


if __name__ == "__main__":
    sys.exit(main())
