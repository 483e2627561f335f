"""Builds the package for Rust over the built library, and runs its tests, its example and the lines of the pages.

`cargo` works offline: the package has no dependencies. Where it is missing, all of this is passed over.
"""
import os
import re
import shutil
import unittest

from common import ROOT, ended, environment, read
from test_clib import LIB, Built, shown_in_readme

# What a compiler may take on a machine that does much else.
MINUTES = 15


@unittest.skipUnless(shutil.which("cargo") and ended(["cargo", "--version"]).returncode == 0, "no cargo: the package for Rust was not run")
class Rust(Built):
    """A copy of the package, and a folder for what is built of it."""

    @classmethod
    def setUpClass(cls):
        super().setUpClass()
        folder = cls.shared_folder("a b ")
        cls.package, cls.target = f"{folder}/rust", f"{folder}/target"
        shutil.copytree(f"{ROOT}/bindings/rust", cls.package, ignore=shutil.ignore_patterns("target", "Cargo.lock"))

    def cargo(self, *words, **more):
        """What `cargo` reports with these arguments in the package, where warnings are errors."""
        kept = {name: value for name, value in environment().items() if name not in ("BASINMUG_LIB_DIR", "PKG_CONFIG_PATH")}
        env = {**kept, "CARGO_TARGET_DIR": self.target, "RUSTFLAGS": "-D warnings", **more}
        return ended(["cargo", *words, "--offline", "--quiet"], cwd=self.package, env=env, timeout=MINUTES * 60)

    def assertRuns(self, *words, **more):
        """What a command of `cargo` writes that ends well."""
        ran = self.cargo(*words, **{"BASINMUG_LIB_DIR": LIB, **more})
        self.assertEqual(ran.returncode, 0, (ran.stdout + ran.stderr).decode())
        return ran.stdout

    def example(self, lines):
        """What these lines of `main` print."""
        with open(f"{self.package}/examples/page.rs", "w", encoding="utf-8") as it:
            it.write(f"fn main() -> Result<(), Box<dyn std::error::Error>> {{\n{lines}Ok(())\n}}\n")
        shutil.copy(f"{ROOT}/examples/notes.csv", f"{self.package}/examples")
        return self.assertRuns("run", "--example", "page")

    def test_its_own_tests(self):
        """Those of its folder, and those of its documentation."""
        counts = [int(it) for it in re.findall(rb"^test result: ok\. (\d+) passed", self.assertRuns("test"), re.M)]
        self.assertEqual(len([it for it in counts if it]), 2, counts)

    def test_the_lines_of_the_readme(self):
        self.assertSame(self.example(shown_in_readme()["rust"]), read("examples/notes.table"))

    def test_the_lines_of_its_page(self):
        page = read("bindings/rust/README.md").decode()
        table = "".join(line[4:] + "\n" for line in page.splitlines() if line.startswith("    ")).encode()
        self.assertSame(self.example(re.search(r"^```rust\n(.*?)^```$", page, re.M | re.S)[1]), table)

    def test_a_missing_library_is_named(self):
        ran = self.cargo("build", BASINMUG_LIB_DIR="/none")
        self.assertEqual(ran.returncode, 101)
        self.assertIn("libbasinmug.a is not found: there is no /none/libbasinmug.a. BASINMUG_LIB_DIR may name its folder.\n", ran.stderr.decode())

    @unittest.skipUnless(shutil.which("pkg-config"), "no pkg-config: it did not find the library for Rust")
    def test_the_example_by_pkg_config(self):
        self.assertWell("make", "-s", "install-library", f"PREFIX={self.folder}", cwd=ROOT)
        ran = self.cargo("build", "--example", "report", PKG_CONFIG_PATH=f"{self.folder}/lib/pkgconfig")
        self.assertEqual(ran.returncode, 0, ran.stderr.decode())
        self.assertReport(f"{self.target}/debug/examples/report")
