"""Builds the wheel, where pip asks for it (PEP 517). It takes no package but cffi, and that only where it is there.

The wheel has the shared library of C, and the declarations that ctypes takes. If the Python that it is built with has
cffi, the machine has a C compiler, and Python's headers are there, it also has the module that cffi calls the library
through: then it is for CPython 3.9 and all after it, or else for any Python 3.9 and after on this kind of machine.
"""
from __future__ import annotations

import ast
import base64
import hashlib
import os
import pathlib
import re
import shlex
import shutil
import site
import subprocess
import sys
import sysconfig
import tempfile
import zipfile
from typing import Any

import build_calls

HERE = pathlib.Path(__file__).resolve().parent
PACKAGE = HERE / "src/octseq"


def project() -> dict[str, Any]:
    """What pyproject.toml says of the project: texts, and lists of texts. Python 3.9 has no tomllib."""
    text = (HERE / "pyproject.toml").read_text(encoding="utf-8")
    return {**_table(text, "project"), "optional-dependencies": _table(text, "project.optional-dependencies")}


def _table(text: str, name: str) -> dict[str, Any]:
    table = text.partition(f"\n[{name}]\n")[2].partition("\n[")[0]
    rows = re.findall(r'^([\w-]+) = ("[^"\n]*"|\[[^\]]*\])$', table, flags=re.MULTILINE)
    return {key: ast.literal_eval(value) for key, value in rows}


def metadata() -> str:
    """The text METADATA of the wheel."""
    said = project()
    lines = [
        "Metadata-Version: 2.1",
        f"Name: {said['name']}",
        f"Version: {said['version']}",
        f"Summary: {said['description']}",
        f"License: {said['license']}",
        *(f"License-File: {name}" for name in said["license-files"]),
        *(f"Classifier: {one}" for one in said["classifiers"]),
        f"Requires-Python: {said['requires-python']}",
        *(f"Requires-Dist: {one}" for one in said["dependencies"]),
    ]
    for extra, needs in said["optional-dependencies"].items():
        lines += [f"Provides-Extra: {extra}", *(f'Requires-Dist: {one}; extra == "{extra}"' for one in needs)]
    readme = (HERE / said["readme"]).read_text(encoding="utf-8")
    return "\n".join([*lines, "Description-Content-Type: text/markdown", "", readme])


def information(tag: str) -> dict[str, bytes]:
    """What the wheel has of itself, by the paths in it, but for the list RECORD. `tag` says what it is for."""
    said = project()
    folder = f"{said['name']}-{said['version']}.dist-info"
    wheel = f"Wheel-Version: 1.0\nGenerator: octseq\nRoot-Is-Purelib: false\nTag: {tag}\n"
    licences = {f"{folder}/{name}": (HERE / name).read_bytes() for name in said["license-files"]}
    return {f"{folder}/METADATA": metadata().encode(), f"{folder}/WHEEL": wheel.encode(), **licences}


def finds_cffi() -> bool:
    """Whether the Python that builds has cffi. pip hides its packages from a build, so they are looked up."""
    sys.path += [folder for folder in site.getsitepackages() if folder not in sys.path]
    try:
        import cffi  # noqa: F401
    except ImportError:
        return False
    return True


def compiled(prefix: pathlib.Path) -> bytes | None:
    """The module octseq._c, or None where something isn't there that it takes."""
    compiler, python = shlex.split(os.environ.get("CC") or "cc"), sysconfig.get_path("include")
    if not (finds_cffi() and shutil.which(compiler[0]) and pathlib.Path(python, "Python.h").is_file()):
        print("octseq: without cffi, a C compiler or Python.h, calls will be made by ctypes")
        return None
    with tempfile.TemporaryDirectory() as work:
        source, module = os.path.join(work, "_c.c"), os.path.join(work, "_c.abi3.so")
        build_calls.make(prefix).emit_c_code(source)
        flags = ["-O2", "-fPIC", "-shared", "-DNDEBUG", f"-I{python}", f"-I{prefix / 'include'}"]
        # The module calls its own copy of the library, whatever else the process has loaded.
        library = [str(prefix / build_calls.ARCHIVE), "-Wl,--exclude-libs,ALL"]
        subprocess.run([*compiler, *flags, source, *library, "-o", module], check=True)
        return pathlib.Path(module).read_bytes()


def contents(prefix: pathlib.Path) -> tuple[str, dict[str, bytes]]:
    """What the wheel is for, and its files, by their paths in it, but for the list RECORD."""
    header = (prefix / build_calls.HEADER).read_text(encoding="utf-8")
    kept = [file for file in PACKAGE.rglob("*") if file.suffix in (".py", ".pyi", ".typed")]
    files = {f"octseq/{file.relative_to(PACKAGE).as_posix()}": file.read_bytes() for file in sorted(kept)}
    files["octseq/_declared.py"] = build_calls.module(header).encode()
    files["octseq/liboctseq.so"] = (prefix / build_calls.SHARED).read_bytes()
    machine = re.sub(r"[-.]", "_", sysconfig.get_platform())
    module = compiled(prefix)
    if module is None:
        return f"py3-none-{machine}", files
    return f"cp39-abi3-{machine}", {**files, "octseq/_c.abi3.so": module}


def write(wheel: pathlib.Path, files: dict[str, bytes], record: str) -> None:
    """Writes files to a wheel, with their list last. The same files make the same octets."""
    rows = []
    with zipfile.ZipFile(wheel, "w", zipfile.ZIP_DEFLATED) as to:

        def put(name: str, octets: bytes) -> None:
            entry = zipfile.ZipInfo(name, (1980, 1, 1, 0, 0, 0))
            entry.external_attr = (0o100755 if name.endswith(".so") else 0o100644) << 16
            to.writestr(entry, octets, zipfile.ZIP_DEFLATED)

        for name, octets in files.items():
            digest = base64.urlsafe_b64encode(hashlib.sha256(octets).digest()).rstrip(b"=").decode()
            rows.append(f"{name},sha256={digest},{len(octets)}\n")
            put(name, octets)
        put(record, "".join([*rows, f"{record},,\n"]).encode())


# ---- what pip calls ----


def get_requires_for_build_wheel(config_settings: Any = None) -> list[str]:
    """The packages that the build takes: none. It ends with a message where the C library isn't there."""
    build_calls.prefix()
    return []


def prepare_metadata_for_build_wheel(metadata_directory: str, config_settings: Any = None) -> str:
    """Writes what a wheel has of itself, and answers the name of its folder."""
    files = information("py3-none-any")
    for name, octets in files.items():
        file = pathlib.Path(metadata_directory, name)
        file.parent.mkdir(exist_ok=True)
        file.write_bytes(octets)
    return next(iter(files)).partition("/")[0]


def build_wheel(wheel_directory: str, config_settings: Any = None, metadata_directory: Any = None) -> str:
    """Builds the wheel in a folder, and answers its name."""
    tag, files = contents(build_calls.prefix())
    about = information(tag)
    folder = next(iter(about)).partition("/")[0]
    name = f"{folder.removesuffix('.dist-info')}-{tag}.whl"
    write(pathlib.Path(wheel_directory, name), {**files, **about}, f"{folder}/RECORD")
    return name
