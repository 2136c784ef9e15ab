"""Tries ./package and what it packs: the same bytes twice, each part from the packed files alone, and the tools of Debian.

usage: python3 tests/package.py [--parts FOLDER]

It needs a clone without changes to the files of the commit; ./package first proves what is not proved yet. With --parts it
packs the parts in that folder instead, and packs them a second time in another clone. Prints each try and whether it passed,
what was skipped, and at the end 'N passed, M failed'. Ends with status 0 if none failed.
"""

import argparse
import contextlib
import os
import re
import shutil
import subprocess
import sys
import tempfile
import urllib.request
from pathlib import Path
from typing import Callable, Iterator, NamedTuple, Optional

from trying import Skipped, Tally, expect

HOME = Path(__file__).resolve().parent.parent
sys.path.append(str(HOME / "tools"))
import manual  # noqa: E402

SAMPLE = HOME / "examples" / "archive.json"
QUERY = "blood count"
ROWS = "1 31 80138 80138\n2 10 38892 38892\n3 28 28252 28252\n"
LIMIT = 600  # the longest wait in seconds; proofs have no limit


class House(NamedTuple):
    """The words of ./package, and a folder to which the package is unpacked below root/."""

    words: "list[object]"
    folder: Path

    @property
    def root(self) -> Path:
        return self.folder / "root"

    @property
    def program(self) -> Path:
        return self.root / "usr/lib/ats/out/ats"

    @property
    def launcher(self) -> Path:
        return self.root / "usr/bin/ats"


def run(*words: object, limit: Optional[int] = LIMIT, **more: object) -> "subprocess.CompletedProcess[str]":
    return subprocess.run([str(word) for word in words], stdout=subprocess.PIPE, stderr=subprocess.STDOUT, text=True,
                          timeout=limit, check=False, **more)


def well(*words: object, **more: object) -> str:
    """What a command prints that must end with 0."""
    ran = run(*words, **more)
    expect(f"the status of {words[0]}, which said {ran.stdout[-300:]!r}", ran.returncode, 0)
    return ran.stdout


def need(*tools: str) -> None:
    for tool in tools:
        if shutil.which(tool) is None:
            raise Skipped(f"{tool} is not installed")


def package() -> Path:
    return next((HOME / "out" / "package").glob("*.deb"))


# What ./package does


def same_bytes_twice(house: House) -> None:
    """Again in another place, if it need not be proved there, and under another umask, zone and language."""
    with left_by_readme() as names:
        said = well(HOME / "package", *house.words, limit=None)
    first = digests(said)
    expect("the files that git does not know", [f"not in the package: {name!r}" in said for name in names], [True] * len(names))
    place = HOME
    if house.words:
        place = house.folder / "another place"
        well("git", "clone", "--quiet", HOME, place)
    other = {**os.environ, "TZ": "Asia/Tokyo", "LC_ALL": "C"}
    second = digests(well("sh", "-c", 'umask 077 && exec "$0" "$@"', place / "package", *house.words, limit=None, env=other))
    expect("the digests", second, first)
    well("dpkg-deb", "-x", package(), house.root)


@contextlib.contextmanager
def left_by_readme() -> "Iterator[list[str]]":
    """Files at the top that git does not know, as those that the lines of README.md leave, and one among the sources."""
    names = ["answer.proof.try", "a name\nof two lines", "owner/mine.py"]
    for name in names:
        (HOME / name).write_bytes(b"mine")
    try:
        yield names
    finally:
        for name in names:
            (HOME / name).unlink()


def digests(said: str) -> "list[str]":
    """The lines of ./package that name a file."""
    return re.findall("^[0-9a-f]{64}  .*$", said, re.M)


def no_place_is_named(house: House) -> None:
    """No file names the repository, the kit or a temporary folder."""
    places = [str(HOME), str(Path(well("rt", "doc").strip()).parent), f"{tempfile.gettempdir()}/tmp"]
    naming = [str(path) for path in house.root.rglob("*") if path.is_file()
              and any(place.encode() in path.read_bytes() for place in places)]
    expect(f"files that name one of {places}", naming, [])


# Each part, from the packed files alone


def index(house: House) -> "tuple[Path, str]":
    """An index of the sample, and its root."""
    made = house.folder / "archive.index"
    return made, well(house.program, "build", SAMPLE, made).strip()


def checks_as_the_program(house: House, *check: object) -> None:
    """A caller of the checks prints the rows of a proof, and the refusal of one that is cut."""
    source, root = index(house)
    proof, cut = house.folder / "answer.proof", house.folder / "cut.proof"
    well(house.program, "prove", source, "tnra", 3, QUERY, proof)
    cut.write_bytes(proof.read_bytes()[:-1])
    for file in (proof, cut):
        wanted, came = (run(*words, "verify", root, 3, QUERY, file) for words in ([house.program], check))
        expect(f"what a caller says of {file.name}", (came.returncode, came.stdout), (wanted.returncode, wanted.stdout))
        expect("the rows", wanted.stdout == ROWS, file == proof)


def library(house: House) -> None:
    """The static library, the shared one as pkg-config names it, and the class for Python."""
    need("gcc", "pkg-config")
    there = {"PKG_CONFIG_SYSROOT_DIR": str(house.root), "PKG_CONFIG_LIBDIR": str(house.root / "usr/lib/pkgconfig")}
    flags = well("pkg-config", "--cflags", "--libs", "ats_reader", env={**os.environ, **there}).split()
    source, lib, check = house.root / "usr/share/doc/ats/examples/check.c", house.root / "usr/lib", house.folder / "check"
    for words in ([*flags, f"-Wl,-rpath,{lib}"], [f"-I{house.root}/usr/include", lib / "libats_reader.a"]):
        well("gcc", "-std=c11", "-Wall", "-Werror", "-o", check, source, *words)
        checks_as_the_program(house, check)
    checks_as_the_program(house, sys.executable, source.parent / "ats_reader.py", lib / "libats_reader.so")


def portable(house: House) -> None:
    """The C of the checks, compiled as docs/service.md says."""
    need("gcc")
    sources, check = house.folder / "portable", house.folder / "check"
    shutil.copytree(house.root / "usr/src/ats_reader", sources)
    well("sh", "-c", "gcc @flags -c *.c", cwd=sources)
    caller = house.root / "usr/share/doc/ats/examples/check.c"
    well("gcc", "-std=c11", "-I", sources, "-o", check, caller, *sources.glob("*.o"), "-lm")
    checks_as_the_program(house, check)


def launcher(house: House) -> None:
    """What is typed names the package, has help, and says what a refusal means."""
    tried = r"\+tried, not proved" if house.words else ", proved by its packager"
    said = well(house.launcher, "--version")
    expect(f"the version {said!r} is one of the package", bool(re.match(rf"ats, [0-9]{{8}}\+[0-9a-f]{{12}}{tried}\n", said)), True)
    expect("help", well(house.launcher, "help", "verify").splitlines()[0], "ats verify ROOT R QUERY PROOF")
    refused = run(house.launcher, "verify", "0" * 64, 3, QUERY, SAMPLE, env={**os.environ, "ATS_QUIET": ""})
    expect(f"{refused.stdout!r} explains a refusal", (refused.returncode, "\nats: " in refused.stdout), (1, True))


def page(house: House) -> None:
    """The packed server makes the folder of an index by the packed program, and gives out the packed page beside it."""
    source, _ = index(house)
    place = house.root / "usr/lib/ats/web"
    with subprocess.Popen([place / "serve", source], stdout=subprocess.PIPE, text=True) as server:
        assert server.stdout is not None
        try:
            address, _, root = next(line for line in server.stdout if line.startswith("http")).strip().partition("#root=")
            wanted = {path.name: path for path in (place / "out").iterdir()}
            wanted[f"{root}-1/head"] = Path(f"{source}.folder") / f"{root}-1" / "head"
            for name, path in wanted.items():
                with urllib.request.urlopen(address + name, timeout=LIMIT) as reply:
                    expect(f"the bytes of {name}", reply.read() == path.read_bytes(), True)
        finally:
            server.terminate()


def owner_and_reader(house: House) -> None:
    """The packed commands publish a folder with the packed page, and follow it."""
    texts, public, bin_ = house.folder / "texts", house.folder / "public", house.root / "usr/bin"
    texts.mkdir()
    (texts / "fox.txt").write_text("red fox", encoding="utf-8")
    root = well(bin_ / "ats-publish", texts, public).strip().rpartition(" ")[2]
    expect("what a host has of it", [(public / name).is_file() for name in (f"{root}-1/head", "index.html", "page.wasm")], [True] * 3)
    followed = well(bin_ / "ats-follow", public, house.folder / "roots.log", "--root", root)
    expect("the root that a reader follows", followed.strip().splitlines()[-1], root)


# The manual page and the completions


def manual_page_is_well_formed(house: House) -> None:
    need("man")
    said = subprocess.run(["man", "--warnings", "-E", "UTF-8", "-l", house.root / "usr/share/man/man1/ats.1.gz"],
                          stdout=subprocess.DEVNULL, stderr=subprocess.PIPE, text=True, check=False,
                          env={**os.environ, "LC_ALL": "C.UTF-8", "MANPAGER": "cat"})
    expect("man --warnings", said.stderr, "")


def statuses_of_the_manual(_: House) -> None:
    """The statuses of each command are those of the table in docs/theorems.md, which leaves out 0, 2, 6 and 7."""
    text = (HOME / "docs" / "theorems.md").read_text(encoding="utf-8")
    own = {command.name: command for command in manual.commands(manual.FORMATS.read_text(encoding="utf-8"))}
    for typed, _, others in manual.table(text, "`INDEX` is the index of an archive"):
        name = typed.strip("`").split()[0]
        wanted = {0, 2, 6, 7, *map(int, re.findall(r"\b[0-9]\b", re.sub(r"\([^()]*\)", "", others)))}
        expect(f"the statuses of {name}", set(manual.ends(own[name])), wanted)


def examples_of_the_manual(house: House) -> None:
    """Each command of the manual has an example, and all of them, typed in order to the launcher, end with status 0."""
    names = [command.name for command in manual.commands(manual.FORMATS.read_text(encoding="utf-8"))]
    expect("commands with an example", sorted(manual.EXAMPLES), sorted(names))
    with tempfile.TemporaryDirectory() as room:
        shutil.copy(SAMPLE, room)
        path = {**os.environ, "PATH": f"{house.launcher.parent}:{os.environ['PATH']}"}
        well("bash", "-e", "-c", "\n".join([*manual.EXAMPLES.values(), "wait"]), cwd=room, env=path)


COMPLETIONS = {"bash": "usr/share/bash-completion/completions/ats", "zsh": "usr/share/zsh/vendor-completions/_ats",
               "fish": "usr/share/fish/vendor_completions.d/ats.fish"}


def completions(house: House) -> None:
    for shell, path in COMPLETIONS.items():
        if shutil.which(shell) is None:
            print(f"    not installed: {shell}")
        else:
            expect(f"the completion for {shell}", well(shell, "--no-execute" if shell == "fish" else "-n", house.root / path), "")


# The tools of Debian


def debian_finds_no_fault(_: House) -> None:
    """What lintian calls an error, apart from what the package cannot have: a maintainer, and a licence of its own."""
    need("lintian")
    known = ("bogus-mail-host", "copyright-", "unstripped-binary")
    said = run("lintian", "--tag-display-limit", "0", "--allow-root", package())
    errors = [line for line in said.stdout.splitlines() if line.startswith("E:")]
    expect("lintian", [line for line in errors if not any(it in line for it in known)], [])


def mirror() -> str:
    """Where this machine takes Debian's packages from. Without it, lists of updates are wanted too, which may be out of date."""
    places = run("apt-get", "indextargets", "--format", "$(REPO_URI)", "Origin: Debian", "Component: main").stdout.split()
    return next(place for place in places if "security" not in place)


def is_installed_and_purged(house: House) -> None:
    """In a system of its own, made of Debian's packages."""
    maker, system = shutil.which("mmdebstrap") or shutil.which("debootstrap"), house.folder / "system"
    if maker is None:
        raise Skipped("neither mmdebstrap nor debootstrap is installed")
    made = run(maker, "--variant=minbase", "stable", system, mirror(), limit=None)
    if made.returncode != 0:
        raise Skipped(f"{maker}: {made.stdout.splitlines()[-1:]}")
    names = {str(path) for path in system.glob("usr/**/*")}
    shutil.copy(package(), system / "ats.deb")
    shutil.copy(SAMPLE, system)
    well("chroot", system, "dpkg", "-i", "ats.deb")
    expect("the program", well("chroot", system, "ats", "rank", "archive.json", "3", QUERY), ROWS)
    expect("the library is found", "libats_reader.so.1" in well("chroot", system, "/sbin/ldconfig", "-p"), True)
    well("chroot", system, "dpkg", "--purge", "ats")
    expect("what is left", sorted({str(path) for path in system.glob("usr/**/*")} - names), [])


TRIES: "dict[str, Callable[[House], None]]" = {
    "the same bytes twice": same_bytes_twice,
    "no place is named": no_place_is_named,
    "the library": library,
    "the portable C": portable,
    "the launcher": launcher,
    "the page": page,
    "the owner's command and the reader's": owner_and_reader,
    "the manual page": manual_page_is_well_formed,
    "the statuses of the manual": statuses_of_the_manual,
    "the examples of the manual": examples_of_the_manual,
    "the completions": completions,
    "lintian": debian_finds_no_fault,
    "installed and purged": is_installed_and_purged,
}


def main() -> int:
    words = argparse.ArgumentParser(description=__doc__, formatter_class=argparse.RawDescriptionHelpFormatter)
    words.add_argument("--parts", metavar="FOLDER", type=Path)
    parts, tally = words.parse_args().parts, Tally()
    with tempfile.TemporaryDirectory() as name:
        house = House(["--parts", parts.resolve()] if parts else [], Path(name))
        for says, one in TRIES.items():
            tally.attempt(says, one, house)
    return tally.conclude()


if __name__ == "__main__":
    sys.exit(main())
