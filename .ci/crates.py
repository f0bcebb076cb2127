"""The crates of this repository as crates.txt lists them, and how the kit's `rattle` checks one over the libraries that
`rt` built."""
import dataclasses
import functools
import hashlib
import os
import pathlib
import shutil
import subprocess

KIT = pathlib.Path(shutil.which("rt")).resolve().parent.parent
RATTLE = KIT / "bin/rattle"
PARTS = ("src", "specs", "proofs")
TOP = pathlib.Path(__file__).resolve().parent.parent
# What was tried on this machine.
KEPT = pathlib.Path(os.environ.get("XDG_CACHE_HOME") or "~/.cache").expanduser() / "octseq"


@dataclasses.dataclass(eq=False)
class Crate:
    name: str
    folder: pathlib.Path
    is_static: bool
    kit: list  # the kit's libraries that it uses
    uses: list  # the crates of this repository that it uses

    @property
    def root(self):
        return next(file for file in ("src/main.rt", "src/lib.rt") if (self.folder / file).is_file())

    @property
    def rlib(self):
        return self.folder / f"out/rlib/{self.name}.rlib"

    @functools.cached_property
    def below(self):
        """The crates that it uses and those that they use, each after its own."""
        return list(dict.fromkeys(lower for used in self.uses for lower in [*used.below, used]))

    def files(self):
        return sorted(file for part in PARTS for file in (self.folder / part).rglob("*") if file.is_file())

    def sum(self):
        """A sum of all that a try of the crate's edits reads but the edits."""
        read = hashlib.sha256(sum_of_tools().encode())
        for crate in [*self.below, self]:
            read.update(repr((crate.name, crate.is_static, crate.kit, [used.name for used in crate.uses])).encode())
            for file in crate.files():
                read.update(repr((str(file.relative_to(crate.folder)), file.read_bytes())).encode())
        return read.hexdigest()

    def words(self):
        """The words of `rattle check` of this crate, or of a copy of its src/, specs/ and proofs/."""
        words = ["--crate-name", self.name, self.root, "--links", f"{self.name}=", "-L", f"dependency={KIT}/rlibs"]
        for name in self.kit:
            words += ["--extern", f"{name}={KIT}/rlibs/{name}.rlib"]
        for crate in self.uses:
            words += ["--extern", f"{crate.name}={crate.rlib}"]
        for crate in self.below:
            words += ["-L", f"dependency={crate.rlib.parent}"]
        words += ["--antt-project", f"{KIT}/rattle/logic/antt-project.json", "--logic-built", f"{KIT}/logic_built"]
        return [*words, *(["--crate-type", "staticlib"] if self.is_static else [])]


def sum_of_tools():
    """A sum of the scripts that try edits, and of the kit."""
    files = [KIT / "KIT-ID", *sorted(TOP.glob(".ci/*.py")), TOP / "bin/try-edits", TOP / ".ci/try-edits-test"]
    return hashlib.sha256(b"".join(file.read_bytes() for file in files)).hexdigest()


def read_crates(root):
    """Returns the crates of a repository by name, in the order of crates.txt."""
    lines = [line.partition("#")[0] for line in (root / "crates.txt").read_text().splitlines()]
    heads = {line.split(":")[0].split()[0]: line.partition(":") for line in lines if ":" in line}
    crates = {}
    for name, (head, _, used) in heads.items():
        kit = ["std", *[other for other in used.split() if other not in heads]]
        crates[name] = Crate(name, root / "crates" / name, "staticlib" in head.split(), kit, [])
    for name, (_, _, used) in heads.items():
        crates[name].uses = [crates[other] for other in used.split() if other in crates]
    return crates


def build_libraries(crates):
    """Has `rt lib` build each library below these crates, unless a run of `rt ci` has left all of them here, over the
    files as they are. (What it leaves has no stamp, and what `rt lib` builds isn't mixed with it.)"""
    lower = list(dict.fromkeys(below for crate in crates for below in crate.below))
    if not all(is_left_by_ci(crate) for crate in lower):
        for crate in lower:
            subprocess.run(["rt", "lib"], cwd=crate.folder, check=True, stdout=subprocess.DEVNULL)


def is_left_by_ci(crate):
    if not crate.rlib.is_dir() or (crate.rlib.parent / "stamp").exists():
        return False
    built = crate.rlib.stat().st_mtime
    return all(file.stat().st_mtime <= built for read in [*crate.below, crate] for file in read.files())
