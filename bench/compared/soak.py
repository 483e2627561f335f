#!/usr/bin/env python3
"""Compares what `run` and `run_streamed` answer with a plain model, many cases in each run of a program.

  bench/compared/soak.py MODEL [--cases 100000] [--seed 1] [--jobs 4] [--show 3] [--program FILE]

MODEL is a folder with Python modules that were written apart from these crates: `settings`, with a class
`Config` of settings, `program`, with `run(bytes, Options)` and `run_streamed(bytes, Config)`, which answer
bytes or raise a `RunFault`, and `gen`, with `data(random, escapes)`, which makes inputs. It is no part of the
repository. A program over `columns_run` (soak.source) answers a thousand cases a run: in random narrow styles,
with every option and colours of columns, by readers that give odd pieces or fail, and by writers that take odd
pieces, fail or take nothing. It is built on a copy of the crates, and proved, or given by --program. Of each
answer these are compared: what was written and by which error it ended. Standard error has the cases a second
and what is left; the last line says how many cases differ.
"""
import concurrent.futures
import os
import random
import subprocess
import sys
import tempfile
import time

sys.dont_write_bytecode = True
sys.path.insert(0, os.path.dirname(os.path.abspath(__file__)))
from common import Count, arguments, built, modules
import styles

LIBRARIES = "program_options columns_run grid_config papergrid_picture tabled_size_priority"
BATCH = 1000
SECONDS = 300
# Bytes of an input that is read into one buffer.
SHORT = 4096
COLORS = [("\x1b[%dm" % code, "\x1b[39m") for code in range(30, 38)] + [
    ("\x1b[1m", "\x1b[22m"), ("\x1b[4m", "\x1b[24m"), ("", ""), ("\x1b[1;31m", "\x1b[0m"), ("\x1b[1;4;45m", "\x1b[22;24;49m"),
    ("\x1b]8;;x\x07", "\x1b]8;;\x07"), ("\x1b[38;5;7m", "\x1b[m"), ("", "\x1b[0m"),
]
MODEL = {}


def loaded(model):
    """The modules of the model, once a process."""
    if not MODEL:
        gen, program, settings = modules(model, "gen", "program", "settings")
        MODEL.update(gen=gen, program=program, settings=settings)
    return MODEL


def random_colors(seeded):
    if seeded.random() < 0.5:
        return []
    return [(seeded.choice((0, 0, 1, 1, 2, 3, 9, 1 << 40)), seeded.choice(COLORS)) for _ in range(seeded.choice((1, 1, 2, 3)))]


def random_case(model, seeded):
    """An input, its options, and what else is requested of the program: streamed or not, and the streams."""
    data, options = styles.random_case(model["settings"], model["program"], model["gen"], seeded)
    options.colors = random_colors(seeded)
    piece = lambda: seeded.choice((1, 1, 2, 3, 7, 64, 1000, 1 << 20))
    bad = lambda share: seeded.choice((1, 1, 2, 3, 5, 20, 100)) if seeded.random() < share else 0
    streams = {"read": piece(), "bad_read": bad(0.05), "write": piece(), "bad_write": bad(0.15), "full": seeded.random() < 0.5}
    return data, options, seeded.random() < 0.2, streams


def described(data, options, is_streamed, streams):
    numbers = [int(is_streamed), streams["read"], streams["bad_read"], streams["write"], streams["bad_write"], int(streams["full"]), len(data)]
    texts = b""
    numbers += styles.described(options)
    numbers.append(len(options.colors))
    for column, (prefix, suffix) in options.colors:
        numbers += [column, len(prefix.encode()), len(suffix.encode())]
        texts += (prefix + suffix).encode()
    return " ".join(map(str, numbers)).encode() + b"\n" + texts + data


def reads_of(count, piece):
    """The reads that take all, in pieces of at most so many bytes, and report the end, where the buffer that is read into holds all."""
    return -(-count // piece) + 1


def wanted(model, data, options, is_streamed, streams):
    """What is written, and why it ends. A read that fails comes before all else."""
    program = model["program"]
    try:
        if 0 < streams["bad_read"] <= reads_of(len(data), streams["read"]):
            raise program.RunFault("Read")
        text, fault = (program.run_streamed(data, options.style) if is_streamed else program.run(data, options)), b"done"
    except program.RunFault as it:
        return b"", it.line().removeprefix("columns: ").encode()
    return text, fault


def agrees(want, got, streams, is_long):
    """Whether the answer is the wanted one; with a writer that fails, or takes nothing, at some call, a prefix. How many reads a long
    input takes depends on the sizes of buffers, which no contract promises, so a read that fails may come or not."""
    text, fault = want
    if got == want:
        return True
    if is_long and streams["bad_read"] and got == (b"", b"read failed"):
        return True
    if fault == b"done" and streams["bad_write"]:
        # each call before took a byte at least, and no more than a piece
        before = streams["bad_write"] - 1
        name = b"writer took nothing" if streams["full"] else b"write failed"
        return got[1] == name and text.startswith(got[0]) and before <= len(got[0]) <= before * streams["write"] and len(got[0]) < len(text)
    return False


def answers(output, count):
    found, at = [], 0
    for _ in range(count):
        end = output.index(b"\n", at)
        length, _, fault = output[at:end].partition(b" ")
        at = end + 1 + int(length)
        found.append((output[end + 1:at], fault))
    return found if at == len(output) else found[:-1]


def batch(job):
    """How many cases were compared, how many left a text, and those that differ."""
    folder, driver, seed, numbers = job
    model = loaded(folder)
    cases = [random_case(model, random.Random(f"{seed} {number}")) for number in numbers]
    given = b"".join(described(*case) for case in cases)
    ran = subprocess.run([driver], input=given, capture_output=True, timeout=SECONDS)
    found = answers(ran.stdout, len(cases)) if ran.returncode == 0 else []
    bad, texts = [], 0
    for number, case, got in zip(numbers, cases, found + [None] * (len(cases) - len(found))):
        want = wanted(model, *case)
        texts += len(want[0]) > 0
        if got is None or not agrees(want, got, case[3], len(case[0]) > SHORT):
            bad.append((number, repr(case[0]), repr(list(described(*case).split(b"\n")[0].split())), repr(want), repr(got)))
    return len(cases), texts, bad


def main():
    words = arguments(__doc__, 100_000)
    words.add_argument("--jobs", type=int, default=os.cpu_count(), metavar="N")
    given = words.parse_args()
    began, done, texts, count = time.time(), 0, 0, Count(given)
    with tempfile.TemporaryDirectory(prefix="soak-") as folder:
        driver = built("soak", LIBRARIES, given.program, folder)
        jobs = [(given.model, driver, given.seed, range(at, min(at + BATCH, given.cases))) for at in range(0, given.cases, BATCH)]
        with concurrent.futures.ProcessPoolExecutor(given.jobs) as pool:
            for some, with_text, bad in pool.map(batch, jobs):
                done, texts = done + some, texts + with_text
                for number, data, numbers, want, got in bad:
                    count.differs(number, [str(numbers), f"of     {data}", f"wanted {want}", f"found  {got}"])
                print(f"\r{done} of {given.cases} cases, {done / (time.time() - began):.0f} a second, {len(count.differing)} differ", end="", file=sys.stderr, flush=True)
    print(file=sys.stderr)
    count.close(f"{texts} texts")


if __name__ == "__main__":
    main()
