"""The build tells what it lacks, and takes from octseq.h all that it declares."""
from __future__ import annotations

import contextlib
import email
import os
import pathlib
import sys
import tempfile
import unittest
import zipfile
from unittest import mock

FOLDER = pathlib.Path(__file__).resolve().parents[1]
TOP = FOLDER.parent
with mock.patch.object(sys, "path", [str(FOLDER), *sys.path]):
    import backend
    import build_calls
HEADER = (TOP / "c/octseq.h").read_text(encoding="utf-8")


class Prefix(unittest.TestCase):
    """Where the C library is looked for."""

    @contextlib.contextmanager
    def places(self, value: str | None):
        """An empty folder as the usual place, and OCTSEQ_PREFIX with this value, or none."""
        environment = {name: value for name, value in os.environ.items() if name != "OCTSEQ_PREFIX"}
        if value is not None:
            environment["OCTSEQ_PREFIX"] = value
        with tempfile.TemporaryDirectory() as folder, mock.patch.dict(os.environ, environment, clear=True):
            usual = pathlib.Path(folder).resolve() / "out/c"
            with mock.patch.object(build_calls, "USUAL", usual):
                yield usual

    def refused(self) -> str:
        with self.assertRaises(SystemExit) as raised:
            build_calls.prefix()
        self.assertEqual(len(str(raised.exception).splitlines()), 1)
        return str(raised.exception)

    def fill(self, folder: pathlib.Path) -> None:
        for name in ("include/octseq.h", "lib/liboctseq.a", "lib/liboctseq.so"):
            (folder / name).parent.mkdir(parents=True, exist_ok=True)
            (folder / name).touch()

    def test_no_library_is_there(self) -> None:
        for value in (None, ""):
            with self.places(value) as usual:
                message = self.refused()
                self.assertIn(f"OCTSEQ_PREFIX isn't set, and {usual} has no include/octseq.h", message)
                self.assertIn("Run bin/build-c", message)

    def test_the_prefix_has_none(self) -> None:
        with tempfile.TemporaryDirectory() as folder, self.places(folder):
            message = self.refused()
            self.assertIn("has no include/octseq.h and no lib/liboctseq.a and no lib/liboctseq.so", message)
            self.assertIn("Run bin/build-c", message)
            self.fill(pathlib.Path(folder))
            pathlib.Path(folder, "lib/liboctseq.so").unlink()
            self.assertIn("which has no lib/liboctseq.so.", self.refused())

    def test_the_prefix_comes_before_the_usual_place(self) -> None:
        with self.places(None) as usual:
            self.assertEqual(usual.parts[-2:], ("out", "c"))
            self.fill(usual)
            self.assertEqual(build_calls.prefix(), usual)
            with tempfile.TemporaryDirectory() as folder, mock.patch.dict(os.environ, OCTSEQ_PREFIX=folder):
                self.refused()
                self.fill(pathlib.Path(folder))
                self.assertEqual(build_calls.prefix(), pathlib.Path(folder).resolve())


class Header(unittest.TestCase):
    """What is taken of a header."""

    def test_all_that_it_declares(self) -> None:
        found = build_calls.declared(
            """
            /* uint32_t octseq_none(size_t a); */
            #ifndef A_H
            #define A_H
            #ifdef __cplusplus
            extern "C" {
            #endif
            #define A_VERSION "1"
            #define A_TEN 10u /* ten */
            #define A_HEX 0xFFu
            #define A_LOW(a) \\
                ((a) & 15u)
            typedef struct a_row {
                size_t at; /* where */
                uint8_t octets[3];
            } a_row;
            uint32_t a_call(const uint8_t *octets, size_t len,
                            a_row *out, int32_t *order);
            #endif
            """.replace("\n            ", "\n")
        )
        self.assertEqual(found.numbers, {"A_TEN": 10, "A_HEX": 255})
        self.assertEqual(found.structs, {"a_row": [("size_t", "at", None), ("uint8_t", "octets", 3)]})
        self.assertEqual(found.calls, {"a_call": ("uint32_t", ["const uint8_t *", "size_t", "a_row *", "int32_t *"])})

    def test_what_is_not_understood_is_refused(self) -> None:
        for text in (
            "#define A (1u << 3)",
            "uint32_t a(char b);",
            "uint32_t a(size_t **b);",
            "void a(size_t b);",
            "typedef struct a { float b; } a;",
            "typedef struct a { uint8_t b; } a; uint32_t c(a b);",
            "enum a { B };",
            "uint32_t a(size_t b)",
        ):
            with self.assertRaises(ValueError, msg=text):
                build_calls.declared(text)

    def test_octseq_h(self) -> None:
        found = build_calls.declared(HEADER)
        self.assertEqual(set(found.calls), {word for word in HEADER.replace("(", " ( ").split() if self.is_call(word)})
        self.assertEqual((found.numbers["OCTSEQ_NO_ROOM"], found.numbers["OCTSEQ_DNS_QR"]), (1, 0x8000))
        self.assertEqual(found.structs["octseq_lossy_state"], [("uint8_t", "octets", 3), ("uint8_t", "len", None)])
        parameters = ["const uint8_t *", "size_t", "size_t *", "size_t *"]
        self.assertEqual(found.calls["octseq_utf8_fault"], ("uint32_t", parameters))

    def is_call(self, word: str) -> bool:
        return f"\nuint32_t {word}(" in HEADER

    def test_the_module_has_the_same(self) -> None:
        made: dict = {}
        exec(build_calls.module(HEADER), made)
        self.assertEqual((made["NUMBERS"], made["STRUCTS"], made["CALLS"]), tuple(build_calls.declared(HEADER)))


class Wheel(unittest.TestCase):
    """What the wheel says of itself."""

    def test_the_project_is_that_of_pyproject(self) -> None:
        try:
            import tomllib
        except ImportError:
            self.skipTest("Python 3.9 and 3.10 have no tomllib")
        wanted = tomllib.loads((FOLDER / "pyproject.toml").read_text(encoding="utf-8"))["project"]
        self.assertEqual(backend.project(), wanted)

    def test_cffi_is_no_dependency(self) -> None:
        said = email.message_from_string(backend.metadata())
        self.assertEqual((said["Name"], said["License"]), ("octseq", "BSD-3-Clause"))
        self.assertEqual(said.get_all("Requires-Dist"), ['cffi>=1.15; extra == "cffi"'])
        self.assertEqual(said.get_payload(), (FOLDER / "README.md").read_text(encoding="utf-8"))

    def test_its_version_is_that_of_the_library(self) -> None:
        self.assertIn(f'#define OCTSEQ_VERSION "{backend.project()["version"]}"\n', HEADER)

    def test_files_are_listed(self) -> None:
        with tempfile.TemporaryDirectory() as folder:
            wheel = pathlib.Path(folder, "a.whl")
            backend.write(wheel, {"a/b.py": b"c\n", "a/d.so": b""}, "a.dist-info/RECORD")
            with zipfile.ZipFile(wheel) as made:
                rows = made.read("a.dist-info/RECORD").decode().splitlines()
                self.assertEqual(made.read("a/b.py"), b"c\n")
        # printf 'c\n' | openssl dgst -sha256 -binary | base64, and the same of nothing, in the letters for URLs.
        of_c, of_nothing = "o6XnFfDMV0pzw_m-u2vCTzL_1bZ7OHJEwskJ2neaFHg", "47DEQpj8HBSa-_TImW-5JCeuQeRkm5NMpJWZG3hSuFU"
        self.assertEqual(rows, [f"a/b.py,sha256={of_c},2", f"a/d.so,sha256={of_nothing},0", "a.dist-info/RECORD,,"])

    def test_the_licences_are_those_of_the_repository(self) -> None:
        for name in ("python/LICENSE", "python/NOTICE", "go/LICENSE", "rust/octseq-proved/LICENSE"):
            self.assertEqual((TOP / name).read_bytes(), (TOP / pathlib.Path(name).name).read_bytes())


if __name__ == "__main__":
    unittest.main()
