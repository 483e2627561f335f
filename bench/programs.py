"""Small programs over the crates, which the costs and the comparisons run: each is a file NAME.source.

None is a crate of this repository: rt ci does not prove them, and their names do not end in `.rt`, since rt ci
wants each such file in a crate.
"""
import glob
import os
import re
import shutil
import subprocess
import sys
import tempfile

ROOT = os.path.dirname(os.path.dirname(os.path.abspath(__file__)))
SECONDS = 600  # for one run of a program


def name_of(source):
    return os.path.basename(source).removesuffix(".source")


def laid_out(source, libraries, room, left_out):
    """Copies the crates, and beside them makes one of the program, over these libraries."""
    name = name_of(source)
    crate = f"{room}/crates/bench_{name}"
    shutil.copytree(f"{ROOT}/crates", f"{room}/crates", ignore=left_out)
    os.makedirs(f"{room}/.git")
    os.makedirs(f"{crate}/src")
    shutil.copyfile(source, f"{crate}/src/main.rt")
    with open(source, encoding="utf-8") as it:
        for module in re.findall(r"^mod (\w+);$", it.read(), re.M):
            shutil.copyfile(f"{os.path.dirname(source)}/{module}.source", f"{crate}/src/{module}.rt")
    with open(f"{ROOT}/crates.txt", encoding="utf-8") as given, open(f"{room}/crates.txt", "w", encoding="utf-8") as listed:
        listed.write(f"{given.read()}bench_{name}: {libraries}\n")
    return crate


def all_but_libraries(at, names):
    """What a build of a program does not need of the folder `out` of a crate."""
    return [it for it in names if it != "rlib"] if os.path.basename(at) == "out" else []


def proved(source, libraries, folder):
    """Builds the program, and proves it and what was not proved before; gives its path."""
    name = name_of(source)
    crate = laid_out(source, libraries, f"{folder}/{name}", all_but_libraries)
    # What is written of the proof of a function: NAME.FUNCTION.source.
    for path in glob.glob(f"{os.path.dirname(source)}/{name}.*.source"):
        function = os.path.basename(path).split(".")[1]
        os.makedirs(f"{crate}/proofs/{function}")
        shutil.copyfile(path, f"{crate}/proofs/{function}/Answers.antt")
    subprocess.run(["rt", "run"], cwd=crate, check=True, stdin=subprocess.DEVNULL, stdout=subprocess.DEVNULL)
    return f"{crate}/out/bench_{name}"


def printed(program, inputs):
    """The lines that a built program prints of each input."""
    for it in inputs:
        ran = subprocess.run([program], input=it.encode(), stdout=subprocess.PIPE, check=True, timeout=SECONDS)
        yield ran.stdout.decode().split("\n")


def tried(source, libraries, inputs):
    """The lines that the program prints of each input, and what is printed after them: `rt try` builds it once, with no
    proof."""
    with tempfile.TemporaryDirectory(prefix=f"{name_of(source)}-") as room:
        crate, cases = laid_out(source, libraries, room, shutil.ignore_patterns("out")), f"{room}/cases"
        os.mkdir(cases)
        names = [f"case{number:04}" for number in range(len(inputs))]
        for name, text in zip(names, inputs):
            with open(f"{cases}/{name}", "w", encoding="utf-8", newline="") as it:
                it.write(text)
        # What is compiled does it all: read step by step each input would take minutes.
        words = ["rt", "try", "--steps", "1", "--cases", cases]
        ran = subprocess.run(words, cwd=crate, stdin=subprocess.DEVNULL, stdout=subprocess.PIPE, stderr=subprocess.STDOUT, check=False)
    said = ran.stdout.decode(errors="replace").split("\n")
    for name in names:
        if f"== {name}" not in said:
            sys.exit("\n".join(said[-30:]))
        yield said[said.index(f"== {name}") + 1:]
