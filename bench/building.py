"""Builds the small programs that the benches run: shared by those that measure a crate below the program."""

import os
import resource
import shutil
import subprocess


class Unexpected(Exception):
    """A step did not end as it must."""


def lines(crates):
    """The lines of crates.txt for these crates."""
    with open("crates.txt", encoding="ascii") as file:
        return [line for line in file if line.split(":")[0] in crates]


def with_those_below(crates):
    """These crates of the repository and all that they stand on."""
    found, left = [], list(crates)
    while left:
        crate = left.pop()
        if crate not in found and os.path.isdir(os.path.join("crates", crate)):
            found.append(crate)
            left += [word for line in lines([crate]) for word in line.split(":")[1].split()]
    return sorted(found)


def laid_out(folder, name, crates, sources):
    """The place of the program `name` in the folder, beside copies of these crates and of those below them.

    Its files lie in bench/`name` under other names, since the gate takes sources in crates alone: `sources` says
    which is which.
    """
    below = os.path.join(folder, "crates")
    crates = with_those_below(crates)
    for crate in crates:
        shutil.copytree(os.path.join("crates", crate), os.path.join(below, crate), ignore=shutil.ignore_patterns("out"))
    place = os.path.join(below, name)
    for source, path in sources:
        target = os.path.join(place, path)
        os.makedirs(os.path.dirname(target), exist_ok=True)
        shutil.copy(os.path.join("bench", name, source), target)
    shutil.copy("HANDLES", folder)
    with open(os.path.join(folder, "crates.txt"), "w", encoding="ascii") as file:
        file.writelines(lines(crates))
        file.write(f"{name}: {' '.join(crates)}\n")
    return place


def built(folder, name, crates, sources, words):
    """The program `name`, built in the folder over copies of these crates. It is run once with these words, and must end with
    status 0."""
    place = laid_out(folder, name, crates, sources)
    run = subprocess.run(["rt", "run", "--", *words], cwd=place, stdout=subprocess.PIPE, check=False)
    program = os.path.join(place, "out", name)
    if run.returncode != 0 or not os.path.exists(program):
        raise Unexpected("the program was not built")
    return program


def tried(folder, name, crates, sources, inputs):
    """What the program `name` writes, without any proof, on each input of a list of names and texts, by name."""
    place = laid_out(folder, name, crates, sources)
    cases = os.path.join(folder, "cases")
    os.makedirs(cases)
    for case, text in inputs:
        with open(os.path.join(cases, case), "w", encoding="ascii") as file:
            file.write(text)
    words = ["rt", "try", "--seconds", "600", "--cases", cases]
    run = subprocess.run(words, cwd=place, stdin=subprocess.DEVNULL, stdout=subprocess.PIPE, stderr=subprocess.STDOUT, check=False)
    wrote = {}
    for part in run.stdout.decode("ascii", "replace").split("== ")[1:]:
        case, *rest = part.splitlines()
        wrote[case] = next((line for line in rest if not line.startswith("case=")), "")
    return wrote


def seconds(words, want):
    """The processor's time in one run of these words, whose output is looked at."""
    before = resource.getrusage(resource.RUSAGE_CHILDREN)
    run = subprocess.run(words, stdout=subprocess.PIPE, check=False)
    after = resource.getrusage(resource.RUSAGE_CHILDREN)
    if run.returncode != 0 or run.stdout != want:
        raise Unexpected(f"status {run.returncode}, wrote {run.stdout[:60]!r} where {want!r} is due")
    return after.ru_utime + after.ru_stime - before.ru_utime - before.ru_stime


def memory(words):
    """The most memory that a run of these words had, in MiB, and no less than this program has itself."""
    run = subprocess.Popen(words, stdout=subprocess.DEVNULL)
    status, used = os.wait4(run.pid, 0)[1:]
    run.returncode = os.waitstatus_to_exitcode(status)
    if run.returncode != 0:
        raise Unexpected(f"status {run.returncode}")
    return used.ru_maxrss // 1024
