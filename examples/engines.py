"""What the tests of examples/sqlite and examples/rocksdb have in common: the library, compilers and the list of results."""
import os
import re
import shutil
import subprocess
import tempfile
import time

HERE = os.path.dirname(os.path.realpath(__file__))
BINDINGS = f"{os.path.dirname(HERE)}/bindings"
WARNINGS = ["-Wall", "-Wextra", "-Werror", "-g1", "-pthread"]
ADDRESSES = ["-fsanitize=address,undefined", "-fno-sanitize-recover=all"]
CHECKS = ",".join(
    ["-*", "bugprone-*", "cert-*", "clang-analyzer-*", "misc-*", "performance-*", "portability-*"]
    + [f"-{it}" for it in ("bugprone-easily-swappable-parameters", "bugprone-reserved-identifier", "bugprone-sizeof-expression")]
    + [f"-{it}" for it in ("cert-dcl37-c", "cert-dcl51-cpp", "cert-err34-c", "cert-msc32-c", "cert-msc51-cpp")]
    + [f"-clang-analyzer-{it}" for it in ("security.insecureAPI.*", "valist.Uninitialized")]
)


class Skipped(Exception):
    """What a test needs isn't there."""


def run(*words, **how):
    """Runs a command that has to end well, and returns what it wrote."""
    if shutil.which(words[0]) is None:
        raise Skipped(f"there is no {words[0]}")
    how = {"stdin": subprocess.DEVNULL, "timeout": 600, **how}
    done = subprocess.run(words, stdout=subprocess.PIPE, stderr=subprocess.STDOUT, text=True, check=False, **how)
    if done.returncode:
        raise RuntimeError(f"{' '.join(words)[:200]} ended with {done.returncode}:\n{done.stdout[-2000:]}")
    return done.stdout


def expect(is_so, what):
    if not is_so:
        raise RuntimeError(what)


def has_header(name, compiler="cc"):
    """Whether the compiler finds a header of the system."""
    how = {"input": f"#include <{name}>\n", "text": True, "capture_output": True, "check": False}
    return subprocess.run([compiler, "-x", "c++" if compiler == "c++" else "c", "-E", "-"], **how).returncode == 0


def instructions(room, *words, **how):
    """The instructions that a program runs, and what it writes."""
    said = run("valgrind", "--tool=callgrind", f"--callgrind-out-file={room}/callgrind.%p", *words, **how)
    return int(re.search(r"Collected : (\d+)", said)[1]), said


def library(room):
    """Builds the library, and returns its folder."""
    run(f"{BINDINGS}/build", "--unproved", "--out", f"{room}/library")
    return f"{room}/library"


def lint(files, *flags):
    """clang-format, cppcheck and, of C, clang-tidy have nothing to say."""
    run("clang-format", "--dry-run", "-Werror", f"--style=file:{BINDINGS}/.clang-format", *files)
    sources = [it for it in files if not it.endswith(".h")]
    in_c = [it for it in sources if it.endswith(".c")]  # RocksDB's headers take it minutes
    if in_c:
        run("clang-tidy", "--quiet", f"--checks={CHECKS}", "--warnings-as-errors=*", *in_c, "--", *flags)
    how = ["--enable=warning,performance,portability", "--error-exitcode=1", "-q", "--inline-suppr"]
    run("cppcheck", *how, "--suppress=missingIncludeSystem", *sources)


def all_of(tests):
    """Runs the tests, which are pairs of a name and a function, and returns the status."""
    passed = failed = 0
    for name, test in tests:
        began = time.monotonic()
        try:
            test()
            passed += 1
            print(f"ok  {name} ({time.monotonic() - began:.0f} s)", flush=True)
        except Skipped as why:
            print(f"skipped  {name}: {why}", flush=True)
        except (RuntimeError, OSError, subprocess.TimeoutExpired) as error:
            failed += 1
            print(f"FAILED  {name}: {error}", flush=True)
    print(f"{passed} passed, {failed} failed")
    return 1 if failed else 0


def room(prefix):
    """A folder of its own, in memory if there is a gigabyte for it: databases are written there."""
    shared = "/dev/shm"
    is_wide = os.access(shared, os.W_OK) and shutil.disk_usage(shared).free > 1 << 30
    return tempfile.TemporaryDirectory(prefix=prefix, dir=shared if is_wide else None)
