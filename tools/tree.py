"""The files that are installed, and where they go: what tools/install and tools/dist share."""
from __future__ import annotations

import os
import re
import shutil
import subprocess
import zipfile
from dataclasses import dataclass
from pathlib import Path
from typing import Iterable, List, Tuple

TOP = Path(__file__).resolve().parent.parent
JNA = Path('/usr/share/java/jna.jar')

#: The pages that are installed.
PAGES = ("README.md", "CHANGELOG.md", "docs")

#: What a zip file can have as its oldest date.
OLDEST = (1980, 1, 1, 0, 0, 0)

#: A commit with no changes.
CLEAN = re.compile(r"[0-9a-f]{40,64}$")

PC = """# `pcfiledir` is the folder of this file, so the files may be moved together.
prefix={prefix}
includedir=${{prefix}}/include
libdir=${{prefix}}/{libdir}

Name: irs
Description: Schedules of interest rate swaps, and the audit of cash flows
Version: {version}
Cflags: -I${{includedir}}
Libs: -L${{libdir}} -lirs
"""


class Failed(Exception):
    """A step that can't be done, in a sentence."""


@dataclass(frozen=True)
class Built:
    """The built program and libraries, and whether they are proved."""

    program: Path
    archive: Path
    shared: Path
    proved: bool

    @property
    def version(self) -> str:
        """The version; that of an unproved build says so."""
        stated = (TOP / "VERSION").read_text().strip()
        return stated if self.proved else f"{stated}+unproved"


def built(proved: bool) -> Built:
    """The proved build, or the unproved one; Failed where it isn't there."""
    if proved:
        found = Built(TOP / "irs", TOP / "bindings" / "libirs.a", TOP / "bindings" / "libirs.so", True)
    else:
        folder = TOP / "build" / "unproved"
        found = Built(folder / "irs", folder / "libirs.a", folder / "libirs.so", False)
    for path in (found.program, found.archive, found.shared):
        if not path.is_file():
            how = "make irs library" if proved else "tools/unproved"
            raise Failed(f"there is no {path.relative_to(TOP)}: {how} builds it")
    return found


def output_of(words: List[str], **more: object) -> str:
    """What a command prints; Failed where it doesn't end with 0."""
    try:
        done = subprocess.run(words, stdout=subprocess.PIPE, stderr=subprocess.PIPE, text=True, check=False,
                              **more)  # type: ignore[call-overload]
    except OSError as error:
        raise Failed(f"{words[0]}: {error.strerror}") from error
    if done.returncode != 0:
        raise Failed(f"{' '.join(words)} ended with {done.returncode}: {done.stderr.strip()}")
    return str(done.stdout)


def commit() -> str:
    """The commit, and whether files differ from it; `unknown` outside a clone."""
    try:
        found = output_of(["git", "-C", str(TOP), "rev-parse", "HEAD"]).strip()
        changed = output_of(["git", "-C", str(TOP), "status", "--porcelain"]).strip()
    except Failed:
        return "unknown"
    return f"{found} with changes" if changed else found


def commit_time() -> int:
    """When the commit was made, in seconds since 1970, which each file of a package has as its time."""
    try:
        return int(output_of(["git", "-C", str(TOP), "log", "-1", "--format=%ct"]))
    except Failed:
        return 0


def gate(of_commit: str) -> str:
    """The last line that the gate printed over this very commit here (`make test` keeps it), or that there is none."""
    try:
        ran_on, kit, line = (TOP / "build" / "gate").read_text().splitlines()
    except (OSError, ValueError):
        return "not run here over this commit"
    return f"{line} ({kit})" if ran_on == of_commit and CLEAN.match(of_commit) else "not run here over this commit"


def kit_logic() -> str:
    """The kit's logic sum."""
    found = re.search(r"logic ([0-9a-f]+)", output_of(["rt", "version"]))
    return found[1] if found else "unknown"


def provenance(of: Built) -> str:
    """Where a package comes from: version, commit, kit, gate."""
    now = commit()
    proved = "yes" if of.proved else "NO: built from the sources without any proof, for tests"
    return (f"irs {of.version}\ncommit {now}\nkit logic {kit_logic()}\nproved {proved}\n"
            f"gate {gate(now) if of.proved else 'does not speak of this build'}\n")


def put(source: Path, to: Path, mode: int = 0o644) -> None:
    """Copies a file, with its mode."""
    to.parent.mkdir(parents=True, exist_ok=True)
    shutil.copyfile(source, to)
    to.chmod(mode)


def write(text: str, to: Path) -> None:
    """Writes a file."""
    to.parent.mkdir(parents=True, exist_ok=True)
    to.write_text(text)
    to.chmod(0o644)


def zipped(pairs: Iterable[Tuple[str, bytes]], to: Path) -> None:
    """Writes a zip file whose bytes depend on the names and the contents alone."""
    to.parent.mkdir(parents=True, exist_ok=True)
    with zipfile.ZipFile(to, "w", zipfile.ZIP_DEFLATED) as archive:
        for name, content in pairs:
            about = zipfile.ZipInfo(name, OLDEST)
            about.external_attr = 0o644 << 16
            about.compress_type = zipfile.ZIP_DEFLATED
            archive.writestr(about, content)


def jar(to: Path, room: Path) -> bool:
    """Compiles the Java package into a jar; False where javac or JNA isn't installed."""
    javac = shutil.which("javac")
    if javac is None or not JNA.is_file():
        return False
    classes = room / "classes"
    output_of([javac, "--release", "17", "-g:none", "-cp", str(JNA), "-d", str(classes),
               *map(str, sorted((TOP / "bindings" / "java" / "irs").glob("*.java")))])
    found = sorted(classes.rglob("*.class"))
    manifest = [("META-INF/MANIFEST.MF", b"Manifest-Version: 1.0\r\nClass-Path: jna.jar\r\n\r\n")]
    zipped(manifest + [(str(path.relative_to(classes)), path.read_bytes()) for path in found], to)
    return True


def lay(of: Built, root: Path, prefix: str, libdir: str, room: Path) -> List[str]:
    """Copies all that is installed below `root` + `prefix`; gives a line for each part that is left out."""
    base = root / prefix.lstrip("/")
    libraries = base / libdir
    put(of.program, base / "bin" / "irs", 0o755)
    put(TOP / "bindings" / "irs.h", base / "include" / "irs.h")
    put(TOP / "bindings" / "irs.hpp", base / "include" / "irs.hpp")
    put(of.archive, libraries / "libirs.a")
    put(of.shared, libraries / "libirs.so.1")
    link = libraries / "libirs.so"
    link.unlink(missing_ok=True)
    link.symlink_to("libirs.so.1")
    stated = PC.format(prefix=prefix or "${pcfiledir}/../..", libdir=libdir, version=of.version)
    write(stated, libraries / "pkgconfig" / "irs.pc")
    output_of([str(TOP / "tools" / "manual"), str(room / "manual")])
    put(room / "manual" / "irs.1", base / "share" / "man" / "man1" / "irs.1")
    put(room / "manual" / "irs.bash", base / "share" / "bash-completion" / "completions" / "irs")
    lay_pages(of, base / "share" / "doc" / "irs")
    if jar(base / "share" / "java" / "irs.jar", room):
        return []
    return ["without irs.jar: it needs javac and Debian's libjna-java"]


def lay_pages(of: Built, pages: Path) -> None:
    """Copies the pages and the examples, and writes where all of it comes from."""
    for source in [path for name in PAGES for path in files_of(TOP / name)] + licences():
        put(source, pages / source.relative_to(TOP))
    for source in files_of(TOP / "examples"):
        put(source, pages / source.relative_to(TOP), 0o755 if os.access(source, os.X_OK) else 0o644)
    write(provenance(of), pages / "PROVENANCE")


def files_of(path: Path) -> List[Path]:
    """A file alone, or all files of a folder in order."""
    return [path] if path.is_file() else sorted(it for it in path.rglob("*") if it.is_file())


def licences() -> List[Path]:
    """The licence texts of the repository, where it has any."""
    return sorted(path for pattern in ("LICENSE*", "LICENCE*", "COPYING*") for path in TOP.glob(pattern))
