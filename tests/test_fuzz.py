"""Holds the built library to what its header promises, on the inputs of tests/corpus and tests/corpus-print, which a fuzzer
has found.

An input is bytes of options and a text; fuzz/table.c and fuzz/print.c say what holds of each, and are compiled with the
sanitizers of `cc`. The library is `lib/libbasinmug.a`, which `make lib` makes. tests/long/test_fuzzing.py looks for further
inputs.
"""
import os
import tempfile

from common import ROOT, Case, ended, shown

CORPUS, PRINT_CORPUS = f"{ROOT}/tests/corpus", f"{ROOT}/tests/corpus-print"
LIBRARY = os.environ.get("TEST_ARCHIVE", f"{ROOT}/lib/libbasinmug.a")
# What print.c counts.
WRAPPED = ["-Wl,--wrap=malloc,--wrap=realloc,--wrap=free"]


def compiled(compiler, flags, files, folder, library=LIBRARY):
    """Compiles these files over the library: what they make, and how that ended."""
    made = f"{folder}/{files[0].partition('.')[0]}"
    flags = [*flags, *(WRAPPED if "print.c" in files else [])]
    words = [compiler, "-O1", "-g", f"-I{ROOT}/include", *flags, *(f"{ROOT}/tests/fuzz/{it}" for it in files), library, "-o", made]
    return made, ended(words)


class Corpus:
    """The inputs of the folder `corpus`, as `source` takes them."""

    corpus = source = None

    @classmethod
    def setUpClass(cls):
        folder = tempfile.TemporaryDirectory(prefix="fuzz-")
        cls.addClassCleanup(folder.cleanup)
        for flags in (["-fsanitize=address,undefined"], []):
            cls.program, ran = compiled("cc", flags, [cls.source, "replay.c"], folder.name)
            if ran.returncode == 0:
                return
        raise RuntimeError(f"`cc` refuses {cls.source}, or `make lib` has not made the library: {shown(ran.stderr)}")

    def test_what_the_header_promises_holds_of_each_input(self):
        """Each in a process of its own."""
        for name in sorted(os.listdir(self.corpus)):
            with self.subTest(name):
                ran = ended([self.program, f"{self.corpus}/{name}"])
                self.assertEqual(ran.returncode, 0, shown(ran.stderr))


class Tables(Corpus, Case):
    corpus, source = CORPUS, "table.c"


class Prints(Corpus, Case):
    corpus, source = PRINT_CORPUS, "print.c"
