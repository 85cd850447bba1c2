"""Cases for `second --batch` and `program_batch`, and what the two programs answer to them.

A case is a header `DLEN PLEN QLEN PART` and the bytes of domain, problem and plan; PART is how many bytes of the plan are
fed at a time, or is left out. An answer ends with a line `--`. Cases are taken one by one, for a plan may have a million lines."""

import itertools
import os
import pathlib
import subprocess
import sys
from typing import NamedTuple, Optional

ROOT = pathlib.Path(__file__).resolve().parent.parent
SECOND = ROOT / "second/target/release/second"
BATCH = pathlib.Path(os.environ.get("BATCH", ROOT / "crates/program_batch/out/program_batch")).absolute()
LAST_LINE = b"--\n"
BENCH = ROOT / "examples/bench"
# A case with more bytes is not stored: tests/long-texts gives it to both programs.
SHORT = 5_000


class Case(NamedTuple):
    domain: bytes
    problem: bytes
    plan: bytes
    part: Optional[int] = None

    def size(self):
        return len(self.domain) + len(self.problem) + len(self.plan)

    def whole(self):
        """The part that holds the whole plan; 0 is no part."""
        return max(1, len(self.plan))


class Compared(NamedTuple):
    """A case with both answers; without a case, what a program wrote after its last answer."""

    case: Optional[Case]
    second: bytes
    batch: bytes

    def answered(self):
        return self.second.endswith(LAST_LINE) and self.batch.endswith(LAST_LINE)

    def differs(self):
        return self.second != self.batch or not self.answered()


def demand_programs():
    """Ends this run if one of the two programs has not been built."""
    for program in (SECOND, BATCH):
        if not os.access(program, os.X_OK):
            sys.exit(f"{program} is missing: cargo build --release builds second, rt run in crates/program_batch builds it")


def generate(seed, count, path):
    """Writes generated cases to a file."""
    with open(path, "wb") as out:
        subprocess.run([SECOND, "--generate", str(seed), str(count)], stdout=out, check=True)


def texts(path):
    """Writes to a file the cases without a plan: sizes at their limits, damaged texts, texts with much in init."""
    with open(path, "wb") as out:
        subprocess.run([SECOND, "--texts", "1", BENCH / "domain.pddl", BENCH / "problem.pddl"], stdout=out, check=True)


def of_tests(path):
    """Writes to a file the cases of second's tests, in their order; gives the file. CASES in the environment names one written before."""
    if "CASES" in os.environ:
        return pathlib.Path(os.environ["CASES"])
    command = ["cargo", "test", "--release", "--quiet", "--manifest-path", ROOT / "second/Cargo.toml", "--no-fail-fast", "--", "--test-threads=1"]
    subprocess.run(command, stdout=subprocess.PIPE, stderr=subprocess.STDOUT, env={**os.environ, "CASES": str(path)})
    return path


def read_cases(source):
    while header := source.readline():
        lengths = list(map(int, header.split(b" ")))
        yield Case(*(source.read(length) for length in lengths[:3]), *lengths[3:])


def read_file(path):
    with open(path, "rb") as source:
        yield from read_cases(source)


def write_cases(cases, path):
    with open(path, "wb") as out:
        for case in cases:
            numbers = [len(case.domain), len(case.problem), len(case.plan)] + ([case.part] if case.part else [])
            out.write(b"%s\n" % " ".join(map(str, numbers)).encode())
            out.writelines([case.domain, case.problem, case.plan])


def read_answers(source):
    """The answers, each with its last line; after them what is no whole answer, if there is such."""
    lines = []
    for line in source:
        lines.append(line)
        if line == LAST_LINE:
            yield b"".join(lines)
            lines = []
    if lines:
        yield b"".join(lines)


def run_both(path, folder):
    """Runs both programs over a file of cases; the folder has what they write. A bad exit status is one more line of it."""
    running = {}
    for name, command in {"second": [SECOND, "--batch"], "batch": [BATCH]}.items():
        with open(path, "rb") as source, open(folder / name, "wb") as out:
            running[name] = subprocess.Popen(command, stdin=source, stdout=out)
    for name, program in running.items():
        if program.wait() != 0:
            with open(folder / name, "ab") as out:
                out.write(b"exit status %d\n" % program.returncode)


def compare(path, folder):
    """Gives each case of a file with the answers of both programs, up to the first that lacks an answer."""
    run_both(path, folder)
    with open(path, "rb") as cases, open(folder / "second", "rb") as second, open(folder / "batch", "rb") as batch:
        rows = itertools.zip_longest(read_cases(cases), read_answers(second), read_answers(batch))
        for case, second_answer, batch_answer in rows:
            compared = Compared(case, second_answer or b"", batch_answer or b"")
            yield compared
            if not compared.answered():
                return
