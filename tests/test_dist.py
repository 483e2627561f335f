"""Holds what `make release` packs: its files and their sums, that all of it works from the folder where it is unpacked, and that
`make install` there takes no compiler. `make release` itself packs twice, and compares the bytes."""
import functools
import glob
import os
import re
import shutil
import subprocess
import tarfile
import tempfile
import unittest

from common import ROOT, built, ended, environment, read
from test_clib import Built
from test_wheel import NAME as WHEEL
from test_wheel import alone, install

VERSION = read("VERSION").decode().strip()
# What `make install` puts into a folder, and where it comes from.
INSTALLED = {
    "bin/columns": "crates/columns/out/columns",
    "bin/basinmug": "tools/launcher",
    "libexec/basinmug": "crates/basinmug/out/basinmug",
    "include/basinmug.h": "include/basinmug.h",
    "lib/libbasinmug.a": "lib/libbasinmug.a",
    "lib/libbasinmug.so.0": "lib/libbasinmug.so.0",
}
for name in ("columns", "basinmug"):
    INSTALLED |= {
        f"share/bash-completion/completions/{name}": f"completions/{name}.bash",
        f"share/fish/vendor_completions.d/{name}.fish": f"completions/{name}.fish",
        f"share/man/man1/{name}.1": f"docs/{name}.1",
        f"share/zsh/site-functions/_{name}": f"completions/_{name}",
    }
FILES = {
    **INSTALLED,
    "LICENSE": "LICENSE",
    "Makefile": "tools/archive/Makefile",
    "NOTICE": "NOTICE",
    **{it: it for it in ("examples/c/report.c", "examples/cpp/report.cc", "examples/python/report.py", "examples/notes.csv")},
    "rust/LICENSE": "LICENSE",
    **{f"rust/{it}": f"bindings/rust/{it}" for it in ("Cargo.toml", "README.md", "build.rs")},
    **{it.replace("bindings/", "", 1): it for it in glob.glob("bindings/rust/*/*.rs", root_dir=ROOT)},
}
# What is made of others: the folder, the version, and the library are written into them.
MADE = {"README", "lib/pkgconfig/basinmug.pc", f"python/{WHEEL}"}
SUMS = "SHA256SUMS"
# All that `make install` of the archive may call.
TOOLS = ("make", "sh", "find", "install", "ln", "sed")
EXECUTABLE = re.compile(r".*/(bin|libexec)/|.*\.so(\.0)?$")


@functools.cache
def released():
    """Packs all of it, and gives the path of the archive."""
    built("crates/basinmug/out/basinmug")
    ran = ended(["make", "-s", "release"], cwd=ROOT, stderr=None, check=True, timeout=900)
    return f"{ROOT}/{ran.stdout.decode().strip()}"


def install_commands():
    """The commands of the first page that install from the archive, each without what is said of it."""
    block = re.search(r"^((?:    .*\n)+)", read("README.md").decode().partition("\n## Install\n")[2], re.M)[1]
    return [it.strip().partition("  ")[0] for it in block.splitlines()]


class Release(Built):
    """The archive, unpacked into a folder."""

    @classmethod
    def setUpClass(cls):
        super().setUpClass()
        cls.path = released()
        cls.name = os.path.basename(cls.path)[: -len(".tar.xz")]
        room = tempfile.TemporaryDirectory(prefix="a b ")
        cls.addClassCleanup(room.cleanup)
        cls.unpacked = f"{room.name}/{cls.name}"
        cls.program = f"{cls.unpacked}/bin/basinmug"
        with tarfile.open(cls.path) as archive:
            cls.members = archive.getmembers()
            archive.extractall(room.name)


class Packed(Release):
    """What is in it."""

    def assertSums(self, folder):
        ran = ended(["sha256sum", "--strict", "-c", SUMS], cwd=folder, stderr=subprocess.STDOUT)
        self.assertEqual(ran.returncode, 0, ran.stdout.decode())

    def test_its_name(self):
        self.assertEqual(self.name, f"basinmug-{VERSION}-x86_64-linux")

    def test_the_sum_of_the_archive(self):
        self.assertSums(os.path.dirname(self.path))

    def test_what_is_packed_and_how(self):
        self.assertEqual({it.name.partition("/")[2] for it in self.members if it.isfile()}, {*FILES, *MADE, SUMS})
        self.assertEqual([(it.name.partition("/")[2], it.linkname) for it in self.members if it.issym()], [("lib/libbasinmug.so", "libbasinmug.so.0")])
        for it in self.members:
            mode = 0o755 if it.isdir() or EXECUTABLE.match(it.name) else 0o644
            self.assertEqual((it.name, it.uid, it.gid, it.mtime, it.mode & 0o777 if not it.issym() else mode), (it.name, 0, 0, 0, mode))
            self.assertTrue(f"{it.name}/".startswith(f"{self.name}/"), it.name)

    def test_the_sums_of_the_files(self):
        self.assertSums(self.unpacked)

    def test_each_file_has_a_sum(self):
        lines = read(f"{self.unpacked}/{SUMS}").decode().splitlines()
        self.assertEqual({line.split("  ", 1)[1] for line in lines}, {*FILES, *MADE})

    def test_each_file_is_the_one_of_its_source(self):
        for name, source in FILES.items():
            with self.subTest(name):
                self.assertSame(read(f"{self.unpacked}/{name}"), read(source))

    def test_the_wheel_is_the_one_of_tools_wheel(self):
        ended([f"{ROOT}/tools/wheel", self.folder], check=True)
        self.assertSame(read(f"{self.unpacked}/python/{WHEEL}"), read(f"{self.folder}/{WHEEL}"))

    def test_its_page_names_what_is_there(self):
        page = read(f"{self.unpacked}/README").decode()
        self.assertTrue(page.startswith(f"basinmug {VERSION}, "))
        for name in re.findall(r"(?:^| )(bin/basinmug|python|rust|examples|SHA256SUMS)\b", page, re.M):
            self.assertTrue(os.path.exists(f"{self.unpacked}/{name}"), name)

    @unittest.skipUnless(shutil.which("objdump"), "no objdump: what the programs need was not looked at")
    def test_the_programs_need_no_later_c_library_than_the_page_says(self):
        for name in ("bin/columns", "libexec/basinmug", "lib/libbasinmug.so.0"):
            with self.subTest(name):
                said = self.assertWell("objdump", "-p", f"{self.unpacked}/{name}").decode()
                versions = [(*map(int, it.split(".")),) for it in re.findall(r" GLIBC_([\d.]+)", said)]
                self.assertLessEqual(max(versions, default=(0,)), (2, 34))


class Used(Release):
    """What works from the folder where it is unpacked."""

    def test_columns_prints_in_an_empty_environment(self):
        ran = ended([f"{self.unpacked}/bin/columns"], read("examples/nightly.tsv"), cwd=self.folder, env={})
        self.assertEnds(ran, read("examples/nightly.table"))

    def test_basinmug_reports_its_version_in_an_empty_environment(self):
        ran = ended([f"{self.unpacked}/bin/basinmug", "--version"], cwd=self.folder, env={})
        self.assertEnds(ran, f"basinmug {VERSION}\n".encode())

    def test_the_launcher_hands_basinmug_the_file(self):
        wanted = read("examples/notes_cut.table")
        self.assertEnds(ended([self.program, "--width", "60", "--truncate", f"{self.unpacked}/examples/notes.csv"], cwd="/"), wanted)

    @unittest.skipUnless(shutil.which("cc") and shutil.which("c++"), "no C or C++ compiler: the examples were not run")
    def test_a_caller_in_c_and_one_in_cpp(self):
        for words, file in ((["cc", "-std=c11"], "c/report.c"), (["c++", "-std=c++11"], "cpp/report.cc")):
            with self.subTest(file):
                here = [f"-I{self.unpacked}/include", f"{self.unpacked}/examples/{file}", f"-L{self.unpacked}/lib", "-lbasinmug"]
                self.assertWell(*words, "-o", f"{self.folder}/report", *here)
                self.assertReport(f"{self.folder}/report", env=environment(LD_LIBRARY_PATH=f"{self.unpacked}/lib"))

    @unittest.skipUnless(shutil.which("pkg-config"), "no pkg-config: basinmug.pc was not read")
    def test_pkg_config_finds_it(self):
        found = environment(PKG_CONFIG_PATH=f"{self.unpacked}/lib/pkgconfig")
        self.assertEqual(self.assertWell("pkg-config", "--modversion", "basinmug", env=found).decode().strip(), VERSION)
        folder = self.assertWell("pkg-config", "--variable=includedir", "basinmug", env=found).decode().strip().replace("\\", "")
        self.assertTrue(os.path.samefile(folder, f"{self.unpacked}/include"))

    def test_a_caller_in_python(self):
        python = install(f"{self.unpacked}/python/{WHEEL}", f"{self.folder}/venv")
        self.assertReport(python, f"{self.unpacked}/examples/python/report.py", cwd=self.folder, env=alone())

    @unittest.skipUnless(shutil.which("cargo") and ended(["cargo", "--version"]).returncode == 0, "no cargo: the package for Rust was not run")
    def test_a_caller_in_rust(self):
        os.makedirs(f"{self.folder}/caller/src")
        shutil.copytree(f"{self.unpacked}/rust", f"{self.folder}/rust")
        shutil.copy(f"{self.unpacked}/rust/examples/report.rs", f"{self.folder}/caller/src/main.rs")
        with open(f"{self.folder}/caller/Cargo.toml", "w", encoding="utf-8") as it:
            it.write('[package]\nname = "caller"\nversion = "1.0.0"\nedition = "2021"\n')
        add = next(it for it in install_commands() if it.startswith("cargo add ")).replace("CRATE", "caller")
        self.assertWell("sh", "-c", add, cwd=self.folder, env=environment(CARGO_NET_OFFLINE="true"))
        found = environment(BASINMUG_LIB_DIR=f"{self.unpacked}/lib", CARGO_TARGET_DIR=f"{self.folder}/target")
        self.assertReport("cargo", "run", "--offline", "--quiet", cwd=f"{self.folder}/caller", env=found, timeout=900)


class Installs(Release):
    """`make install`, from the archive and from here."""

    def assertInstalled(self, folder):
        """All is there, and nothing else."""
        found = {os.path.relpath(f"{at}/{name}", folder) for at, _, names in os.walk(folder) for name in names}
        self.assertEqual(found, {*INSTALLED, "lib/libbasinmug.so", "lib/pkgconfig/basinmug.pc"})
        self.assertEqual(os.readlink(f"{folder}/lib/libbasinmug.so"), "libbasinmug.so.0")
        for name, source in INSTALLED.items():
            with self.subTest(name):
                self.assertSame(read(f"{folder}/{name}"), read(source))
                self.assertEqual(os.stat(f"{folder}/{name}").st_mode & 0o777, 0o755 if EXECUTABLE.match(f"{folder}/{name}") else 0o644)
        self.assertSame(read(f"{folder}/lib/pkgconfig/basinmug.pc").partition(b"\n")[0], b"prefix=/e f")

    def test_the_archive_takes_no_compiler(self):
        os.mkdir(f"{self.folder}/tools")
        for name in TOOLS:
            os.symlink(shutil.which(name), f"{self.folder}/tools/{name}")
        ran = ended(["make", "-s", "install", f"DESTDIR={self.folder}/c d", "PREFIX=/e f"], cwd=self.unpacked, env={"PATH": f"{self.folder}/tools"})
        self.assertEnds(ran)
        self.assertInstalled(f"{self.folder}/c d/e f")
        self.assertEnds(ended([f"{self.folder}/c d/e f/bin/basinmug", "--version"], env={}), f"basinmug {VERSION}\n".encode())

    def test_the_commands_of_the_first_page(self):
        """Those that unpack it and install; the package for Python is installed by `install`, and the one for Rust by a caller."""
        shown = install_commands()
        self.assertEqual([it.partition(" ")[0] for it in shown], ["tar", "cd", "make", "pip", "cargo"])
        shutil.copy(self.path, self.folder)
        self.assertWell("sh", "-e", "-c", "\n".join(shown[:3]).replace("DIR", "../DIR"), cwd=self.folder)
        wanted = f"basinmug {VERSION}\n".encode()
        self.assertEnds(ended([f"{self.folder}/DIR/bin/basinmug", "--version"], env={}), wanted)
        self.assertEqual(len(glob.glob(shown[3].rpartition(" ")[2], root_dir=self.unpacked)), 1)

    def test_this_repository_installs_the_same_files(self):
        ran = ended(["make", "-s", "install", f"DESTDIR={self.folder}/c d", "PREFIX=/e f"], cwd=ROOT, stderr=subprocess.STDOUT)
        self.assertEqual(ran.returncode, 0, ran.stdout.decode())
        self.assertInstalled(f"{self.folder}/c d/e f")
