#!/usr/bin/env python3
"""Plants bugs in code of the programs, one at a time, and tells which of them both the prover and the tests let pass.

    tools/plant_tests.py CRATE [--most N] [--seed S] [--file WORD] [--list] [--jobs N]
    tools/plant_tests.py CRATE --from FILE [--jobs N]

CRATE is that of a program, or `console`, whose code is in every program. Run it at the top of the repository after `rt ci`. The bugs are those of
tools/plant.py. A bug that the prover lets pass, or that it has no contract to hold against, is built into the programs, and the scripts in tests/ and
what the programs have to print are tried. Bugs that do not compile are not counted. Each bug that passes is printed; the last line has the counts.
"""
import concurrent.futures
import contextlib
import os
import pathlib
import queue
import resource
import shutil
import signal
import subprocess
import sys
import tempfile

sys.dont_write_bytecode = True
from plant import ROOT, asked_for, options_of  # noqa: E402

PROGRAMS = ["run", "plan_check", "conformance", "speed"]
SCRIPTS = ["programs", "lock", "cases", "refusals"]
# in bytes, as large as the largest file that the scripts make
LARGEST = 8 << 30
NOT_COMPILED, REFUSED, FOUND, PASSED = "did not compile", "refused by the prover", "found by a test", "passed"


def output_of(words, folder):
    """Its status and what it writes. What does not end is stopped with all that it started, and no file may grow past what the tests make."""
    limit = lambda: resource.setrlimit(resource.RLIMIT_FSIZE, (LARGEST, LARGEST))
    pipes = {"stdin": subprocess.DEVNULL, "stdout": subprocess.PIPE, "stderr": subprocess.STDOUT}
    with subprocess.Popen(words, cwd=folder, start_new_session=True, preexec_fn=limit, **pipes) as run:
        try:
            said, _ = run.communicate(timeout=200)
        finally:
            with contextlib.suppress(ProcessLookupError):
                os.killpg(run.pid, signal.SIGKILL)
    return run.returncode, said.decode(errors="replace")


def prints_as_expected(copy, program):
    """Whether the program prints, with the words of its file `args`, what its file `stdout` has."""
    folder = copy / "crates" / program
    words = (folder / "args").read_text().split("\n") if (folder / "args").exists() else []
    data = folder / "data" if (folder / "data").exists() else folder
    run = subprocess.run([folder / "out" / program, *filter(None, words)], cwd=data, stdout=subprocess.PIPE, stderr=subprocess.DEVNULL, timeout=200)
    return run.stdout.decode(errors="replace") == (folder / "stdout").read_text()


def tried(copy, crate, bug):
    """What becomes of one bug, with the line that tells."""
    place, number, _, new = bug
    file = copy / "crates" / crate / place
    text = file.read_text()
    lines = text.split("\n")
    lines[number] = new
    file.write_text("\n".join(lines))
    try:
        return judged(copy, crate)
    except subprocess.TimeoutExpired:
        return FOUND, "it does not end"
    finally:
        file.write_text(text)


def judged(copy, crate):
    if crate not in PROGRAMS:
        status, said = output_of(["rt", "check"], copy / "crates" / crate)
        if status:
            return refusal(said)
    for program in [crate] if crate in PROGRAMS else PROGRAMS:
        built = copy / "crates" / program / "out" / program
        built.unlink(missing_ok=True)
        _, said = output_of(["rt", "run", "--", "--version"], copy / "crates" / program)
        if not built.exists():
            return refusal(said)
    for program in PROGRAMS:
        if not prints_as_expected(copy, program):
            return FOUND, f"what {program} prints"
    for script in SCRIPTS:
        status, said = output_of([copy / "tests" / script], copy)
        if status:
            return FOUND, f"tests/{script}"
    return PASSED, ""


def refusal(said):
    """A proof that failed, or a text that is no program."""
    lines = [it for it in said.split("\n") if ": error" in it]
    first = lines[0] if lines else said[-200:]
    return (REFUSED if "error: proof" in said or "not proved" in said else NOT_COMPILED), first


def main():
    options = options_of(__doc__, jobs=True)
    possible, bugs = asked_for(options)
    if options.list:
        for place, number, old, new in sorted(bugs):
            print(f"{place}:{number + 1}: {old}   ->   {new}")
        return
    counts = dict.fromkeys([NOT_COMPILED, REFUSED, FOUND, PASSED], 0)
    with tempfile.TemporaryDirectory(prefix="plant-") as folder:
        # what a stopped script leaves goes with the folder
        os.environ["TMPDIR"] = folder
        copies = queue.Queue()
        for job in range(options.jobs):
            copy = pathlib.Path(folder) / str(job)
            shutil.copytree(ROOT, copy, ignore=shutil.ignore_patterns(".git", "must-fail", "target"))
            copies.put(copy)

        def one(bug):
            copy = copies.get()
            try:
                return bug, *tried(copy, options.crate, bug)
            finally:
                copies.put(copy)

        with concurrent.futures.ThreadPoolExecutor(options.jobs) as pool:
            for (place, number, old, new), word, why in pool.map(one, bugs):
                counts[word] += 1
                print(f"{word.upper()} {place}:{number + 1}: {old}   ->   {new}   [{why[:160]}]", flush=True)
    compiled = sum(counts.values()) - counts[NOT_COMPILED]
    print(f"{options.crate}: {compiled} of {possible} bugs planted, {counts[REFUSED]} refused, {counts[FOUND]} found by a test, {counts[PASSED]} passed")
    sys.exit(counts[PASSED] > 0)


main()
