"""The tests of what bindings/build and bindings/dist install. bindings/tests runs them with its own."""
import glob
import os
import re
import shutil
import subprocess
import sys
import sysconfig
import tarfile
import tempfile
import zipfile

HERE = os.path.dirname(os.path.realpath(__file__))
sys.path.insert(0, f"{HERE}/../tools")
import common

HEADER = f"{HERE}/c/luffapricot.h"
PYTHON_TESTS = ["-m", "unittest", "discover", "-s", f"{HERE}/python/tests"]
PACKAGE = "luffapricot"
# The versions of Python that the package is tested with, if they are there, in PATH or by pyenv.
VERSIONS = range(9, 15)
CMAKE = """cmake_minimum_required(VERSION 3.10)
project(program {language})
find_package(luffapricot {version} REQUIRED)
add_executable(shared-by-cmake {program})
target_link_libraries(shared-by-cmake luffapricot::luffapricot)
add_executable(static-by-cmake {program})
target_link_libraries(static-by-cmake luffapricot::static)
"""


class Skipped(Exception):
    """What a test needs isn't there."""


class Room:
    """A folder with a library, in which tests run commands."""

    def __init__(self, room, is_proved):
        self.room, self.out, self.is_proved = room, f"{room}/out", is_proved
        self.env = {**os.environ, "LUFFAPRICOT_OUT": self.out}
        self.env |= {"LD_LIBRARY_PATH": self.out, "PKG_CONFIG_PATH": self.out, "PYTHONPATH": f"{room}/packages"}

    def run(self, *words, **how):
        """Runs a command that has to end well, and returns what it wrote."""
        if shutil.which(words[0]) is None:
            raise Skipped(f"there is no {words[0]}")
        how = {"env": self.env, "stdin": subprocess.DEVNULL, "timeout": 600, **how}
        done = subprocess.run(words, stdout=subprocess.PIPE, stderr=subprocess.STDOUT, text=True, check=False, **how)
        if done.returncode:
            raise RuntimeError(f"{' '.join(words)[:160]} ended with {done.returncode}:\n{done.stdout[-2000:]}")
        return done.stdout

    @staticmethod
    def fails(*words, **how):
        """Whether a command fails."""
        return subprocess.run(words, stdout=subprocess.PIPE, stderr=subprocess.STDOUT, check=False, **how).returncode != 0

    @staticmethod
    def same(wrote, wanted):
        if wrote != wanted:
            raise RuntimeError(f"it wrote\n{wrote}\nand not\n{wanted}")

    @staticmethod
    def readme(folder=HERE):
        """The programs of the page with what each is to write, by language."""
        blocks = re.findall(r"(?ms)^```(\w*)\n(.*?)^```$", common.read(f"{folder}/README.md"))
        return {kind: (text, blocks[at + 1][1]) for at, (kind, text) in enumerate(blocks) if kind}

    def kind(self):
        """The word that asks bindings/build and bindings/dist for the library that is tested."""
        return [] if self.is_proved else ["--unproved"]


class Installs(Room):
    def installed(self):
        """A prefix, which is moved before it is used, by pkg-config and by CMake."""
        first, prefix = f"{self.room}/first", f"{self.room}/a prefix"
        self.run(f"{HERE}/build", "--prefix", first, *self.kind())
        os.rename(first, prefix)
        self._use_prefix(prefix)
        self._check_paths(prefix)

    def _use_prefix(self, prefix):
        """Compiles and runs the program of the page, and one in C++, with what a prefix has, and nothing of this checkout."""
        text, wanted = self.readme()["c"]
        wanted, folder = re.sub(r"(?m)^\$ .*\n", "", wanted), tempfile.mkdtemp(dir=self.room)
        common.put(f"{folder}/program.c", text.encode())
        shutil.copy2(f"{HERE}/c/tests/cpp.cpp", folder)
        env = {"PATH": "/usr/bin:/bin", "HOME": folder, "PKG_CONFIG_PATH": f"{prefix}/lib/pkgconfig"}
        if not shutil.which("pkg-config") and not shutil.which("cmake"):
            raise Skipped("there is neither pkg-config nor cmake")
        if shutil.which("pkg-config"):
            self._use_pkg_config(folder, wanted, {**env, "LD_LIBRARY_PATH": f"{prefix}/lib"})
        if shutil.which("cmake"):
            self._use_cmake(folder, prefix, "program.c", wanted, env)
            self._use_cmake(folder, prefix, "cpp.cpp", "", env)
            if not self._cmake_fails(folder, prefix, env, program="program.c", language="C", version="1.0"):
                raise RuntimeError("CMake found a version 1.0")

    def _use_pkg_config(self, folder, wanted, env):
        flags = self.run("pkg-config", "--cflags", "--libs", "luffapricot >= 0.1", env=env).replace("\\ ", " ")
        version = re.search(r'#define LUFFA_VERSION "(.*)"', common.read(HEADER))[1]
        self.same(self.run("pkg-config", "--modversion", "luffapricot", env=env), f"{version}\n")
        flags = re.findall(r"-[IL].*?(?= -|\n)|-l\S+|-pthread", flags)
        for compiler, program, output in (("cc", "program.c", wanted), ("c++", "cpp.cpp", "")):
            self.run(compiler, "-Wall", "-Wextra", "-Werror", program, *flags, "-o", "shared", cwd=folder, env=env)
            self.same(self.run(f"{folder}/shared", cwd=folder, env=env), output)

    def _use_cmake(self, folder, prefix, program, wanted, env):
        language = "C" if program.endswith(".c") else "CXX"
        if self._cmake_fails(folder, prefix, env, program=program, language=language, version="0.1"):
            raise RuntimeError(f"CMake doesn't find the library for {language}")
        self.run("cmake", "--build", f"build-{language}", cwd=folder, env=env)
        for it in ("shared-by-cmake", "static-by-cmake"):
            self.same(self.run(f"{folder}/build-{language}/{it}", cwd=folder, env=env), wanted)

    def _cmake_fails(self, folder, prefix, env, **words):
        common.put(f"{folder}/CMakeLists.txt", CMAKE.format(**words).encode())
        build = f"build-{words['language']}" if words["version"] == "0.1" else "other"
        return self.fails("cmake", "-S", ".", "-B", build, f"-DCMAKE_PREFIX_PATH={prefix}", cwd=folder, env=env)

    def _check_paths(self, folder):
        """No file has the path of a folder of this machine, of this checkout, its kit or who made it."""
        paths = (common.ROOT, self.room, common.kit(), os.path.expanduser("~") + "/", tempfile.gettempdir() + "/")
        for path in common.files_below(folder):
            with open(path, "rb") as file:
                texts = [file.read()]
            if path.endswith(".whl"):
                with zipfile.ZipFile(path) as file:
                    texts += [file.read(it) for it in file.namelist()]
            if path.endswith(".tar.gz"):
                with tarfile.open(path) as file:
                    texts += [file.extractfile(it).read() for it in file if it.isfile()]
            found = {it for it in paths for text in texts if it.encode() in text}
            if found:
                raise RuntimeError(f"{os.path.basename(path)} has {', '.join(sorted(found))}")

    def archive(self):
        """The archive for machines without a kit, in a clean folder: its programs in C and Python run, and are removed."""
        self.run(f"{HERE}/dist", "--out", f"{self.room}/dist", *self.kind())
        (path,), clean = glob.glob(f"{self.room}/dist/*"), f"{self.room}/clean"
        os.makedirs(clean)
        self.run("tar", "xzf", path, "-C", clean)
        (folder,) = glob.glob(f"{clean}/*")
        self.same([os.path.basename(folder)], [os.path.basename(path)[: -len(".tar.gz")]])
        self._check_paths(folder)
        about = common.read(f"{folder}/BUILD.txt")
        if not re.search(rf"(?m)^library: {'' if self.is_proved else 'un'}proved$", about) or not re.search("(?m)^commit: ", about):
            raise RuntimeError(f"BUILD.txt says\n{about}")
        here = "cp%d%d" % sys.version_info[:2]
        wanted = {f"{here}-{here}", *(["cp310-abi3"] if sys.version_info >= (3, 10) else [])}
        self.same({re.search(r"-(cp\d+-\w+)-linux", it)[1] for it in glob.glob(f"{folder}/python/*.whl")}, wanted)
        self._follow_page(folder, clean)
        self._use_prefix(folder)
        self._use_package(folder, clean)
        shutil.rmtree(clean)

    def _follow_page(self, folder, clean):
        """Does what the archive's own page says of C, and follows its links. It has nothing that needs a kit."""
        text, wanted = self.readme(folder)["c"]
        common.put(f"{folder}/program.c", text.encode())
        script, env = "\n".join(re.findall(r"(?m)^\$ (.*)$", wanted)), {"PATH": "/usr/bin:/bin", "HOME": clean}
        if shutil.which("pkg-config"):
            self.same(self.run("sh", "-ec", script, cwd=folder, env=env), re.sub(r"(?m)^\$ .*\n", "", wanted))
        page = common.read(f"{folder}/README.md")
        links = re.findall(r"\]\(([^)]*)\)", page)
        self.same([it for it in links if not os.path.exists(f"{folder}/{it}")], [])
        self.same([it for it in page.splitlines() if it.startswith(("bindings/", "## With a kit"))], [])
        self.same({*re.findall(r"luffapricot-[\d.]+-linux-x86_64", page)}, {os.path.basename(folder)})
        for it in ("program.c", "program"):
            if os.path.exists(f"{folder}/{it}"):
                os.remove(f"{folder}/{it}")

    def _use_package(self, folder, clean):
        """Installs the package of an archive, runs the program of the page with it, and removes it."""
        text, wanted = self.readme(folder)["python"]
        common.put(f"{clean}/program.py", text.encode())
        env = {"PATH": "/usr/bin:/bin", "HOME": clean}
        self.run(sys.executable, "-m", "venv", f"{clean}/venv", env=env)
        python = f"{clean}/venv/bin/python"
        pip = [python, "-m", "pip", "--disable-pip-version-check", "-q"]
        self.run(*pip, "install", "--no-index", "--find-links", f"{folder}/python", PACKAGE, env=env, cwd=clean)
        self.same(self.run(python, "program.py", env=env, cwd=clean), wanted)
        named = {**env, "LUFFAPRICOT_OUT": folder, "PYTHONDONTWRITEBYTECODE": "1"}
        if os.path.exists(f"{sysconfig.get_path('include')}/Python.h"):  # the sources, over the archive's library
            self.run(*pip, "install", "--force-reinstall", "--no-index", f"{HERE}/python", env=named, cwd=clean)
            self.same(self.run(python, "program.py", env=env, cwd=clean), wanted)
        self.run(*pip, "uninstall", "-y", PACKAGE, env=env, cwd=clean)
        if not self.fails(python, "-c", f"import {PACKAGE}", env=env, cwd=clean):
            raise RuntimeError("the package is still there")

    def other_pythons(self):
        """The archive's package by other versions of Python that are here: its tests but those of sizes by the first and the
        last, and the program of the page by those between, which have the last one's wheel."""
        pythons = [it for it in map(self._python_of, VERSIONS) if it]
        if not pythons:
            raise Skipped("there is no other Python")
        self.run("tar", "xzf", *glob.glob(f"{self.room}/dist/*"), "-C", f"{self.room}/dist")
        (packages,) = glob.glob(f"{self.room}/dist/*/python")
        for it in {pythons[0], pythons[-1]}:
            self._test_package(it, packages)
        text, wanted = self.readme()["python"]
        common.put(f"{self.room}/page.py", text.encode())
        for wheel in glob.glob(f"{packages}/*-abi3-*.whl"):
            with zipfile.ZipFile(wheel) as file:
                file.extractall(f"{self.room}/abi3")
        for it in pythons[1:-1]:
            self.same(self.run(it, f"{self.room}/page.py", env={"PATH": "/usr/bin:/bin", "PYTHONPATH": f"{self.room}/abi3"}), wanted)

    def _test_package(self, interpreter, packages):
        venv = tempfile.mkdtemp(dir=self.room)
        env = {"PATH": "/usr/bin:/bin", "HOME": venv, "PYTHONDONTWRITEBYTECODE": "1"}
        self.run(interpreter, "-m", "venv", venv, env=env)
        python = f"{venv}/bin/python"
        pip = [python, "-m", "pip", "--disable-pip-version-check", "-q"]
        self.run(*pip, "install", "--no-index", "--find-links", packages, PACKAGE, env=env, cwd=venv)
        self.run(python, *PYTHON_TESTS, "-p", "test_[!s]*.py", env=env, cwd=venv)

    @staticmethod
    def _python_of(minor):
        """The interpreter of a version, unless it is that of these tests or can't install packages."""
        found = [shutil.which(f"python3.{minor}"), *glob.glob(os.path.expanduser(f"~/.pyenv/versions/3.{minor}.*/bin/python3"))]
        for it in filter(None, found):
            about = "import sys, venv, ensurepip; sys.exit(sys.version_info[1] != %d)" % minor
            if minor != sys.version_info[1] and not Room.fails(it, "-c", about):
                return it
        return None
