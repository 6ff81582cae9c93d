"""Makes the wheel and the source distribution of this package (PEP 517). It needs a C compiler and no other package, so
`pip install` works without a network.

The extension is linked with libluffapricot.a: that of the folder LUFFAPRICOT_OUT names (of a build, or an unpacked
archive), or that of a source distribution, or else that of the repository, where ../build first compiles what has
changed. With the setting abi3=yes
the wheel is for CPython 3.10 and all later ones, and calls of `cached` functions are a little slower."""

from __future__ import annotations

import base64
import gzip
import hashlib
import io
import os
import re
import shlex
import subprocess
import sys
import sysconfig
import tarfile
import tempfile
import zipfile
from pathlib import Path

HERE = Path(__file__).resolve().parent
PROJECT = (HERE / "pyproject.toml").read_text(encoding="utf-8")
LIMITED = "0x030A0000"  # what the abi3 wheel may call
NATIVE = ("libluffapricot.a", "luffapricot.h")
SOURCES = ("pyproject.toml", "backend.py", "README.md", "extension/*.[ch]", "src/luffapricot/*.*", "tests/*.py")


def field(name: str) -> str:
    """A text of pyproject.toml."""
    found = re.search(rf'(?m)^{name} = (?:{{ text = )?"(.*?)"', PROJECT)
    if found is None:
        raise KeyError(name)
    return found.group(1)


NAME, VERSION = field("name"), field("version")
INFO = f"{NAME}-{VERSION}.dist-info"


def native() -> dict[str, Path]:
    """The files of the native library."""
    given, build = os.environ.get("LUFFAPRICOT_OUT"), HERE.parent / "build"
    folder = Path(given) if given else HERE / "native"
    if not given and not folder.is_dir():
        subprocess.run([sys.executable, build], check=True)
        folder = HERE.parent / "out"
    return {name: found_in(folder, name) for name in NATIVE}


def found_in(folder: Path, name: str) -> Path:
    """A file of the folder of a build, or of an unpacked archive or another prefix."""
    for it in (folder / name, folder / "lib" / name, folder / "include" / name):
        if it.exists():
            return it
    raise FileNotFoundError(f"{folder.absolute()} has no {name}")


def compile_extension(folder: Path, is_limited: bool) -> Path:
    """Compiles the extension, and returns its file."""
    library, header = native().values()
    made = folder / f"_{NAME}{'.abi3.so' if is_limited else sysconfig.get_config_var('EXT_SUFFIX')}"
    compiler = shlex.split(os.environ.get("CC", "cc"))
    flags = ["-std=gnu11", "-O2", "-DNDEBUG", "-Wall", "-Wextra", "-fPIC", "-shared", "-pthread", "-fvisibility=hidden"]
    flags += ["-Wl,--exclude-libs,ALL"]  # no other library of the process answers its calls
    flags += [f"-DPy_LIMITED_API={LIMITED}"] if is_limited else []
    flags += shlex.split(os.environ.get("CFLAGS", ""))
    paths = [f"-I{sysconfig.get_path('include')}", f"-I{header.parent}"]
    sources = sorted((HERE / "extension").glob("*.c"))
    subprocess.run([*compiler, *flags, *paths, *sources, library, "-o", made], check=True)
    return made


def metadata() -> bytes:
    """What METADATA and PKG-INFO say."""
    lines = [f"Metadata-Version: 2.1\nName: {NAME}\nVersion: {VERSION}\nSummary: {field('description')}"]
    lines += [f"License: {field('license')}\nRequires-Python: {field('requires-python')}"]
    lines += [f"Classifier: {it}" for it in re.findall(r'(?m)^    "(.* :: .*)",$', PROJECT)]
    lines += ["Description-Content-Type: text/markdown", "", (HERE / "README.md").read_text(encoding="utf-8")]
    return "\n".join(lines).encode()


def licence() -> bytes:
    """The licence, which is beside this file in a source distribution."""
    return next(it for it in (HERE / "LICENSE", HERE.parents[1] / "LICENSE") if it.exists()).read_bytes()


def build_wheel(wheel_directory: str, config_settings: dict | None = None, metadata_directory: object = None) -> str:
    """The call that pip makes for a wheel."""
    is_limited = (config_settings or {}).get("abi3") == "yes"
    python = f"cp{sys.version_info.major}{sys.version_info.minor}"
    platform = sysconfig.get_platform().replace("-", "_").replace(".", "_")
    tag = f"cp310-abi3-{platform}" if is_limited else f"{python}-{python}-{platform}"
    with tempfile.TemporaryDirectory() as folder:
        sources = [it for it in (HERE / "src" / NAME).iterdir() if it.suffix in (".py", ".pyi", ".typed")]
        files = {f"{NAME}/{it.name}": it.read_bytes() for it in sorted(sources)}
        extension = compile_extension(Path(folder), is_limited)
        files[f"{NAME}/{extension.name}"] = extension.read_bytes()
    files[f"{INFO}/METADATA"] = metadata()
    files[f"{INFO}/LICENSE"] = licence()
    files[f"{INFO}/WHEEL"] = f"Wheel-Version: 1.0\nGenerator: {NAME}\nRoot-Is-Purelib: false\nTag: {tag}\n".encode()
    record = "".join(f"{name},{sum_of(data)},{len(data)}\n" for name, data in files.items())
    files[f"{INFO}/RECORD"] = f"{record}{INFO}/RECORD,,\n".encode()
    wheel = f"{NAME}-{VERSION}-{tag}.whl"
    with zipfile.ZipFile(Path(wheel_directory) / wheel, "w", zipfile.ZIP_DEFLATED) as file:
        for name, data in files.items():
            about = zipfile.ZipInfo(name)  # of 1980, so that the same sources make the same wheel
            about.external_attr = 0o644 << 16
            file.writestr(about, data, zipfile.ZIP_DEFLATED)
    return wheel


def build_sdist(sdist_directory: str, config_settings: dict | None = None) -> str:
    """The call that pip makes for a source distribution, which has the native library too: nobody needs the kit."""
    top = f"{NAME}-{VERSION}"
    files = {str(it.relative_to(HERE)): it.read_bytes() for pattern in SOURCES for it in sorted(HERE.glob(pattern))}
    files |= {f"native/{name}": path.read_bytes() for name, path in native().items()}
    files |= {"LICENSE": licence(), "PKG-INFO": metadata()}
    made = io.BytesIO()
    with tarfile.open(fileobj=made, mode="w", format=tarfile.PAX_FORMAT) as file:
        for name, data in files.items():
            about = tarfile.TarInfo(f"{top}/{name}")
            about.size = len(data)
            file.addfile(about, io.BytesIO(data))
    (Path(sdist_directory) / f"{top}.tar.gz").write_bytes(gzip.compress(made.getvalue(), mtime=0))
    return f"{top}.tar.gz"


def sum_of(data: bytes) -> str:
    """What RECORD says of a file."""
    return "sha256=" + base64.urlsafe_b64encode(hashlib.sha256(data).digest()).rstrip(b"=").decode()
