"""The wheel and the source distribution, as others get them, and when the native library is built."""

from __future__ import annotations

import importlib.util
import os
import shutil
import subprocess
import sys
import tarfile
import tempfile
import unittest
import zipfile
from pathlib import Path
from types import ModuleType

import luffapricot

HERE = Path(__file__).resolve().parents[1]
PROGRAM = "import luffapricot; cache = luffapricot.Cache(5); cache.update(zip(range(9), range(9))); print(len(cache))"
PIP = [sys.executable, "-m", "pip", "--disable-pip-version-check", "install", "-q", "--no-deps", "--no-index", "--target"]


def run(*words: str, **how: object) -> str:
    done = subprocess.run(words, capture_output=True, text=True, timeout=300, check=False, **how)
    if done.returncode:
        raise AssertionError(done.stderr[-2000:])
    return done.stdout


def backend_of(folder: Path) -> ModuleType:
    spec = importlib.util.spec_from_file_location("backend", folder / "backend.py")
    module = importlib.util.module_from_spec(spec)
    spec.loader.exec_module(module)
    return module


@unittest.skipIf("ASAN_OPTIONS" in os.environ, "it compiles what has no checks")
@unittest.skipUnless(os.environ.get("LUFFAPRICOT_OUT"), "LUFFAPRICOT_OUT doesn't say where the native library is")
class Packages(unittest.TestCase):
    def setUp(self) -> None:
        self.folder = Path(tempfile.mkdtemp())
        self.addCleanup(shutil.rmtree, self.folder)
        self.alone = {name: value for name, value in os.environ.items() if name not in ("LUFFAPRICOT_OUT", "PYTHONPATH")}

    def install(self, package: str) -> str:
        """What a program writes that uses a package installed in a folder of its own, with no repository in sight."""
        target = self.folder / f"installed-{package}"
        run(*PIP, str(target), package, cwd=self.folder, env=self.alone)
        env = {**self.alone, "PYTHONPATH": str(target), "PYTHONDONTWRITEBYTECODE": "1"}
        for it in target.rglob("*"):
            if it.is_file() and it.name != "direct_url.json":
                self.assertNotIn(str(HERE.parents[1]).encode(), it.read_bytes(), it)
        return run(sys.executable, "-c", PROGRAM, cwd=self.folder, env=env)

    def test_versions(self) -> None:
        self.assertEqual(luffapricot.version.split()[0], backend_of(HERE).VERSION)

    def test_source_distribution(self) -> None:
        name = backend_of(HERE).build_sdist(str(self.folder))
        with tarfile.open(self.folder / name) as file:
            names = {it.split("/", 1)[1] for it in file.getnames()}
        self.assertLessEqual({"PKG-INFO", "LICENSE", "README.md", "native/libluffapricot.a", "extension/cache.h"}, names)
        self.assertEqual(self.install(name), "5\n")

    @unittest.skipIf(sys.version_info < (3, 10), "it is for CPython 3.10 and later")
    def test_wheel_for_several_versions(self) -> None:
        backend = backend_of(HERE)
        name = backend.build_wheel(str(self.folder), {"abi3": "yes"})
        self.assertIn("-cp310-abi3-", name)
        with zipfile.ZipFile(self.folder / name) as file:
            text = file.read(f"{backend.INFO}/METADATA").decode()
            record = file.read(f"{backend.INFO}/RECORD").decode()
            self.assertEqual(len(record.splitlines()), len(file.namelist()))
            self.assertIn(b"Apache License", file.read(f"{backend.INFO}/LICENSE"))
        for line in ("License: Apache-2.0", "Requires-Python: >=3.9", "# luffapricot: a cache of Python objects"):
            self.assertIn(f"{line}\n", text)
        self.assertEqual(self.install(name), "5\n")

    def repository(self) -> tuple[Path, Path]:
        """A repository whose build writes that it ran, and its log."""
        log, python = self.folder / "log", self.folder / "bindings" / "python"
        shutil.copytree(HERE, python, ignore=shutil.ignore_patterns("native"))
        shutil.copy(HERE.parents[1] / "LICENSE", self.folder)
        lines = ["import os, shutil", f"open({str(log)!r}, 'a').write('built\\n')"]
        lines += [f"shutil.copytree({os.environ['LUFFAPRICOT_OUT']!r}, {str(python.parent / 'out')!r}, dirs_exist_ok=True)"]
        (python.parent / "build").write_text("\n".join(lines), encoding="utf-8")
        return python, log

    def test_the_library_is_built_again_if_it_is_there(self) -> None:
        python, log = self.repository()
        given = os.environ.pop("LUFFAPRICOT_OUT")
        try:
            for turn in (1, 2):
                backend_of(python).build_wheel(str(self.folder))
                self.assertEqual(log.read_text(encoding="utf-8"), "built\n" * turn)
        finally:
            os.environ["LUFFAPRICOT_OUT"] = given
        backend_of(python).build_wheel(str(self.folder))
        self.assertEqual(log.read_text(encoding="utf-8"), "built\n" * 2)  # what is named is taken as it is

    def test_a_folder_without_a_library(self) -> None:
        given = os.environ["LUFFAPRICOT_OUT"]
        os.environ["LUFFAPRICOT_OUT"] = str(self.folder)
        try:
            with self.assertRaisesRegex(FileNotFoundError, "libluffapricot.a"):
                backend_of(HERE).build_wheel(str(self.folder))
        finally:
            os.environ["LUFFAPRICOT_OUT"] = given


if __name__ == "__main__":
    unittest.main()
