"""Runs the first commands of a fresh clone, and the comparison of a program with the one that is
kept in the repository.

    python3 -m checks.released

It clones the state that is committed here: release/ or release/dev must have been made from its
sources. It needs git, tar and xz; no toolchain is on the path. In the clone `bin/edfstore` and
`bin/edfruns` answer within SECONDS, and as the plain model does, and each program has the version
of the sources. Then a small script is the toolchain's command `rt`: it prints the build that
TOOLCHAIN names, and `rt ci` does nothing, or fails. With the kept programs where a build leaves
them `bin/compare` and `.ci/run` end with status 0. They end with another status where one byte of a
program is changed, and `.ci/run` where `rt ci` fails; where the sources or the toolchain are
others, or no program is there, a line says so. Where the machine says that it is one for arm64, the
scripts in `bin` take the programs for that, and none of release/dev.

Where dpkg-deb is here `bin/release` of released programs under a version of its own writes the same
release twice, a clone in another folder too, and `bin/release --documents`, also once it is
committed. With another word it is refused then, and written as the next revision; that of the
commit before is refused still. As it is committed here it is never written with other bytes; a line
tells what is done. None is written where a verdict does not name arm64, or where the sources have
another version. Of a version under development `bin/release --dev` writes the same release/dev
twice, and nothing else; `bin/release` writes nothing.
"""
import itertools
import os
import re
import shutil
import sys
from dataclasses import dataclass
from pathlib import Path

from checks.lib import arguments, measure, model, printed, runs
from checks.lib.checks import Checks

SECONDS = 2.0
REVISION = 901  # no release has it
TIMES = 3       # clones at most, since others may use the machine
EXAMPLES = ("examples/edflib.edf", "examples/one-record.edf")
PROGRAMS = ("edfstore", "edfruns", "edfserve", "edfmend")
PAGE, BUILT_PAGE = "edfstore.html", "crates/edf_page_exports/out"
MACHINES = {"x86_64": ("crates/{0}/out/{0}", 62), "aarch64": ("ports/arm64/out/{0}", 183)}
NAMED = "logic=proved main= target=aarch64-unknown-linux-gnu sum=0\n"
SAME = "{}: {}, as it was built here, has the same bytes\n"
OTHER = "{}: {}, as it was built here, does NOT have the same bytes\n"
NONE = ("{}: no {} lies here to compare: rt ci kept what an earlier run on this machine "
        "proved and ran\n")
OTHER_SOURCES = "release: neither it nor release/dev was made from these sources\n"
NO_TOOLCHAIN = ("bin/build: this takes the toolchain of release/TOOLCHAIN, whose command 'rt' is "
                "not on the path\n")
REFUSED = ("bin/release: release/edfstore-{}-x86_64-linux.tar.xz is committed with other bytes, "
           "and a version has one content: begin CHANGELOG with the next one, as {}\n")
COMMIT = ("git", "-c", "user.name=checks", "-c", "user.email=checks@example", "commit", "-qm", "_")
OTHER_MACHINE = "#!/bin/sh\necho {}\n"
STUB = """#!/bin/sh
case $1 in
  version) echo "{build}" ;;
  ci) exit {status} ;;
  *) echo "the toolchain was asked for: $*" >&2; exit 9 ;;
esac
"""


@dataclass(frozen=True)
class Kept:
    """Where the programs of the committed sources are, the machines that they are for, and what
    bin/compare compares."""
    place: str
    machines: tuple[str, ...]
    compared: tuple[str, ...]

    def lines(self, line: str, other: str = "", other_line: str = OTHER) -> str:
        """The line of each file, but for one that has another."""
        return "".join((other_line if name == other else line).format(self.place, name)
                       for name in self.compared)

    def toolchain(self) -> str:
        return (arguments.TOP / self.place / "TOOLCHAIN").read_text().strip()


RELEASE = Kept("release", tuple(MACHINES), (*PROGRAMS, PAGE))
DEV = Kept("release/dev", ("x86_64",), PROGRAMS)


class Clones:
    def __init__(self, folder: Path):
        self.folder, self.tools, self.stub = folder, folder / "tools", folder / "stub"
        self.count = 0
        self.tools.mkdir()
        self.stub.mkdir()
        for place in os.environ["PATH"].split(os.pathsep):
            for tool in Path(place).iterdir() if Path(place).is_dir() else ():
                if tool.name != "rt" and not (self.tools / tool.name).is_symlink():
                    (self.tools / tool.name).symlink_to(tool)

    def fresh(self) -> Path:
        """A clone in which nothing was run."""
        self.count += 1
        clone = self.folder / f"clone-{self.count}"
        measure.done("git", "clone", "-q", arguments.TOP, clone)
        return clone

    def toolchain(self, build: str, status: int = 0) -> None:
        """The command `rt` from here on, which prints this build."""
        (self.stub / "rt").write_text(STUB.format(build=build, status=status))
        (self.stub / "rt").chmod(0o755)

    def run(self, clone: Path, *words: str) -> measure.Ran:
        return measure.ran(*words, folder=clone, added={"PATH": f"{self.stub}:{self.tools}"})

    def told(self, clone: Path, line: str) -> str:
        """What a line of the shell prints that uses the functions of bin/common.sh."""
        return self.run(clone, "bash", "-c", f". bin/common.sh && {line}").out.decode().strip()

    def kept(self) -> "Kept | None":
        archive = Path("release") / self.told(self.fresh(), "kept_archive x86_64")
        return {it.place: it for it in (RELEASE, DEV)}.get(str(archive.parent))


def first_commands(checks: Checks, clones: Clones) -> None:
    """Each of these is the first command of its clone."""
    checks.begin("a fresh clone without the toolchain")
    checks.same("a toolchain on the path",
                clones.run(clones.folder, "bash", "-c", "command -v rt").out, b"")
    held = model.Store()
    files = [arguments.TOP.joinpath(name).read_bytes() for name in EXAMPLES]
    lines = printed.lines(*((name, held.take(data)) for name, data in zip(EXAMPLES, files)))
    listed = runs.lines(runs.read_runs(files[0]))
    taken = ("edfstore", "take", "night.db", *EXAMPLES), lines, ["night.db", "night.db-wal"]
    for words, out, made in (taken, (("edfruns", "list", EXAMPLES[0]), listed, [])):
        for _ in range(TIMES):
            clone = clones.fresh()
            ran = clones.run(clone, f"bin/{words[0]}", *words[1:])
            checks.compare(" ".join(words), ran, out, "", 0)
            if ran.seconds <= SECONDS:
                break
        print(f"bin/{words[0]}: {ran.seconds:.2f} s to the end of the first command")
        checks.same(f"bin/{words[0]} within {SECONDS} s", ran.seconds <= SECONDS, True)
        checks.compare("what git says of the clone", clones.run(clone, "git", "status", "--short"),
                       "".join(f"?? {name}\n" for name in made), "", 0)
    version = clones.told(clone, "source_version")
    for name in PROGRAMS:
        checks.compare(f"bin/{name} --version", clones.run(clone, f"bin/{name}", "--version"),
                       printed.version(name, version), "", 0)
    change_a_source(clone)
    checks.compare("bin/edfstore where a source is another",
                   clones.run(clone, "bin/edfstore", "--version"), "", others_first(clone), 3)


def others_first(clone: Path) -> str:
    """What is told before a build begins, and that it can't."""
    archive = next((clone / "release").glob("*-x86_64-linux.tar.xz"))
    return ("bin/edfstore: the programs in release/ are of other sources than these. To run them "
            f"all the same, stop this and unpack {archive}\n{NO_TOOLCHAIN}")


def change_a_source(clone: Path) -> None:
    with open(clone / "crates/edf_time/src/lib.rt", "a", encoding="utf-8") as source:
        source.write("// another\n")


def built(clones: Clones, kept: Kept) -> Path:
    """A clone with the kept programs, and the released page, where `rt ci`, ports/arm64/build and
    bin/page leave what they built."""
    clone = clones.fresh()
    for name, machine in itertools.product(PROGRAMS, kept.machines):
        target = clone / MACHINES[machine][0].format(name)
        target.parent.mkdir(exist_ok=True)
        kept_here = f'unpacked_program "$(kept_archive {machine})" {name}'
        shutil.copy(clones.told(clone, kept_here), target)
        target.with_suffix(".verdict").write_text(NAMED)
    (clone / BUILT_PAGE).mkdir()
    shutil.copy(clone / "release" / PAGE, clone / BUILT_PAGE)
    return clone


def on_machines(checks: Checks, clones: Clones, kept: Kept) -> None:
    """Which program the scripts take, by what the machine says of itself."""
    clone, uname = clones.fresh(), clones.stub / "uname"
    for machine, name in itertools.product((*MACHINES, "armv7l"), PROGRAMS):
        uname.write_text(OTHER_MACHINE.format(machine))
        uname.chmod(0o755)
        ran = clones.run(clone, "bash", "-c", f". bin/common.sh && chosen_program {name}")
        kinds = [MACHINES[machine][1]] if machine in kept.machines else []
        found = [kind_of(Path(line)) for line in ran.out.decode().splitlines()]
        checks.same(f"{name} on {machine}", (found, ran.status), (kinds, 0 if kinds else 3))
    uname.unlink()


def kind_of(program: Path) -> int:
    """The machine that a program is for, by its number in the header."""
    return int.from_bytes(program.read_bytes()[18:20], "little")


def compared(checks: Checks, clones: Clones, what: str, clone: Path, out: str) -> None:
    """`bin/compare` writes this, and `.ci/run` writes it last; both end with status 0."""
    checks.compare(f"bin/compare, {what}", clones.run(clone, "bin/compare"), out, "", 0)
    gate = clones.run(clone, ".ci/run")
    checks.same(f".ci/run, {what}: the status", gate.status, 0)
    checks.same(f".ci/run, {what}: the last lines", gate.out.decode()[-len(out):], out)


def release_of(clone: Path, place: str = RELEASE.place) -> dict:
    files = [path for path in (clone / place).iterdir() if path.is_file()]
    return {path.name: path.read_bytes() for path in files}


def refused(checks: Checks, clones: Clones, clone: Path, *words: str) -> None:
    """`bin/release` with these words, which leaves all as it is."""
    before = release_of(clone)
    ran = clones.run(clone, "bin/release", *words)
    checks.same(f"bin/release {' '.join(words)}: the status and how many lines",
                (ran.status, ran.err.count(b"\n")), (3, 1))
    checks.same("the release is as it was", release_of(clone) == before, True)


def of_another_version(checks: Checks, clones: Clones, clone: Path) -> None:
    """A heading of CHANGELOG that the sources do not have, which is put back."""
    committed, changelog = release_of(clone), clone / "CHANGELOG.md"
    before = changelog.read_text()
    changelog.write_text(re.sub("^## .*", "## 0.1.0, 2026-11-29", before, count=1, flags=re.M))
    said = f"CHANGELOG begins with 0.1.0, and the sources say {clones.told(clone, 'source_version')}"
    checks.compare("bin/release of another version", clones.run(clone, "bin/release"), "",
                   f"bin/release: {said}\n", 3)
    checks.same("the release is as it was", release_of(clone) == committed, True)
    changelog.write_text(before)


def dev_again(checks: Checks, clones: Clones, clone: Path) -> None:
    """What `bin/release --dev` writes, twice."""
    before, committed, written = release_of(clone), release_of(clone, DEV.place), []
    for _ in range(2):
        checks.same("bin/release --dev: the status",
                    clones.run(clone, "bin/release", "--dev").status, 0)
        written.append(release_of(clone, DEV.place))
    checks.same("release/dev has the committed bytes, twice", written == [committed] * 2, True)
    checks.same("its files", sorted(committed),
                ["SHA256SUMS", "SOURCES", "TOOLCHAIN", "programs.tar.xz"])
    checks.same("the release is as it was", release_of(clone) == before, True)


def not_named(checks: Checks, clones: Clones, clone: Path) -> None:
    """A verdict that names no machine, and one that is not there, which are put back."""
    committed = release_of(clone)
    verdict = clone / "ports/arm64/out/edfruns.verdict"
    for change in (lambda: verdict.write_text("logic=proved main= sum=0\n"), verdict.unlink):
        change()
        ran = clones.run(clone, "bin/release")
        checks.same("bin/release by another verdict", (ran.status, ran.err.splitlines()[-1:]),
                    (3, [b"bin/release: the verdict of edfruns does not name arm64"]))
        checks.same("the release is as it was", release_of(clone) == committed, True)
    verdict.write_text(NAMED)


def versioned(release: dict) -> dict:
    """The archives and the packages, whose names have the version."""
    return {name: data for name, data in release.items() if name.endswith((".xz", ".deb"))}


def as_committed(checks: Checks, clones: Clones, clone: Path) -> None:
    """The release of the state that is committed here, of which the documents may be others."""
    committed = release_of(clone)
    ran = clones.run(clone, "bin/release", "--documents")
    written = release_of(clone)
    checks.same("as it is committed here: the status", ran.status in (0, 3), True)
    checks.same("no name gets other bytes",
                [name for name, data in versioned(written).items()
                 if committed.get(name, data) != data], [])
    if ran.status:
        checks.same("the release is as it was", written == committed, True)
        print(ran.err.decode().splitlines()[-1])
    else:
        print("bin/release --documents writes "
              + ("the committed release" if written == committed else "one of another version"))


def begin_version(clone: Path, revision: int) -> str:
    """Gives CHANGELOG's newest heading this revision of the programs' version."""
    name = next((clone / "release").glob("*-x86_64-linux.tar.xz")).name
    version = f"{re.split('-', name)[1]}-{revision}"
    changelog = clone / "CHANGELOG.md"
    changelog.write_text(re.sub("^## .*", f"## {version}, 2026-11-29", changelog.read_text(),
                                count=1, flags=re.M))
    return version


def commit(checks: Checks, clones: Clones, clone: Path) -> None:
    for words in (("git", "add", "-A"), COMMIT):
        checks.same("git", clones.run(clone, *words).status, 0)


def change_a_word(clone: Path) -> None:
    page = clone / "docs/edfstore.1"
    page.write_text(page.read_text() + ".\\\" another\n")


def written_again(checks: Checks, clones: Clones, clone: Path, version: str) -> None:
    """The release of this version, written by the scripts of the clone from the same programs and
    documents."""
    before, written = release_of(clone), []
    for words in (("bin/release",), ("bin/release",), ("bin/release", "--documents")):
        checks.same(f"{' '.join(words)}: the status", clones.run(clone, *words).status, 0)
        written.append(release_of(clone))
    commit(checks, clones, clone)
    checks.same("once it is committed: the status",
                clones.run(clone, "bin/release", "--documents").status, 0)
    written.append(release_of(clone))
    elsewhere = built(clones, RELEASE)
    begin_version(elsewhere, REVISION)
    checks.same("in another folder: the status", clones.run(elsewhere, "bin/release").status, 0)
    written.append(release_of(elsewhere))
    checks.same("the release has the same bytes", written[1:] == written[:1] * 4, True)
    archives = [f"edfstore-{version}-{machine}-linux.tar.xz" for machine in sorted(MACHINES)]
    packages = [f"edfstore_{version}_{machine}.deb" for machine in ("amd64", "arm64")]
    packages.append(f"edfclinic_{version}_all.deb")
    checks.same("its files", sorted(written[0]),
                sorted(("SHA256SUMS", "SOURCES", "TOOLCHAIN", PAGE, *archives, *packages)))
    for name in ("SOURCES", "TOOLCHAIN"):
        checks.same(name, written[0][name], before[name])
    checks.same("the page says the version",
                f"\n<p>edfstore {version}. ".encode() in written[0][PAGE], True)
    checks.compare("bin/compare", clones.run(clone, "bin/compare"), RELEASE.lines(SAME), "", 0)


def one_content(checks: Checks, clones: Clones, clone: Path, version: str, revision: int) -> None:
    """With another word this version is refused, and the next is written; then this one still is,
    though it is committed before HEAD alone."""
    committed, after = release_of(clone), f"{version.partition('-')[0]}-{revision + 1}"
    change_a_word(clone)
    for words in (("bin/release",), ("bin/release", "--documents")):
        ran = clones.run(clone, *words)
        checks.same(f"{' '.join(words)} with another word", (ran.err.decode(), ran.status),
                    (REFUSED.format(version, after), 3))
        checks.same("the release is as it was", release_of(clone) == committed, True)
    begin_version(clone, revision + 1)
    checks.same("the next revision: the status",
                clones.run(clone, "bin/release", "--documents").status, 0)
    last = release_of(clone)
    checks.same("it has other names alone", set(versioned(last)) & set(versioned(committed)), set())
    commit(checks, clones, clone)
    begin_version(clone, revision)
    checks.compare("the revision before", clones.run(clone, "bin/release", "--documents"), "",
                   REFUSED.format(version, after), 3)
    checks.same("the release is as it was", release_of(clone) == last, True)


def changed(checks: Checks, clones: Clones, clone: Path, name: str, kept: Kept) -> None:
    """The comparison where one byte of a program is another, which is put back."""
    program = clone / "crates" / name / "out" / name
    data = bytearray(program.read_bytes())
    at = len(data) // 2
    data[at] ^= 1
    program.write_bytes(data)
    ran = clones.run(clone, "bin/compare")
    lines = ran.out.decode().splitlines(keepends=True)
    ours = "".join(line for line in lines if line.startswith(f"{kept.place}:"))
    others = [line for line in lines if not line.startswith(f"{kept.place}:")]
    case = f"a byte of {name} is changed"
    checks.same(f"bin/compare, {case}", (ours, ran.status), (kept.lines(SAME, name), 1))
    checks.same(f"which byte, {case}", [f" differ: byte {at + 1}," in line for line in others],
                [True])
    checks.same(f".ci/run, {case}", clones.run(clone, ".ci/run").status, 1)
    data[at] ^= 1
    program.write_bytes(data)


def comparison(checks: Checks, clones: Clones, kept: Kept) -> None:
    checks.begin("the comparison with what is kept")
    toolchain = kept.toolchain()
    clones.toolchain(toolchain)
    none = "".join(NONE.format(kept.place, name) for name in PROGRAMS)
    compared(checks, clones, "no programs", clones.fresh(), none)
    clone = built(clones, kept)
    compared(checks, clones, "what is kept", clone, kept.lines(SAME))
    if kept == DEV:
        refused(checks, clones, clone)
        dev_again(checks, clones, clone)
    elif shutil.which("dpkg-deb"):
        refused(checks, clones, clone, "--dev")
        as_committed(checks, clones, clone)
        of_another_version(checks, clones, clone)
        version = begin_version(clone, REVISION)
        not_named(checks, clones, clone)
        written_again(checks, clones, clone, version)
        one_content(checks, clones, clone, version, REVISION)
    for name in PROGRAMS:
        changed(checks, clones, clone, name, kept)
    clones.toolchain(f"{toolchain} and another")
    compared(checks, clones, "another toolchain", clone,
             f"{kept.place}: made by another toolchain: {toolchain}\n")
    clones.toolchain(toolchain, status=1)
    checks.same(".ci/run, a gate that fails", clones.run(clone, ".ci/run").status, 1)
    clones.toolchain(toolchain)
    change_a_source(clone)
    compared(checks, clones, "other sources", clone, OTHER_SOURCES)


def main() -> None:
    arguments.Parser(__doc__, programs=()).read()
    measure.need("git", "tar", "xz")
    with measure.scratch() as name:
        folder, cases = Path(name) / "clones", Path(name) / "cases"
        folder.mkdir()
        cases.mkdir()
        clones, checks = Clones(folder), Checks(Path("edfstore"), cases)
        kept = clones.kept()
        if kept is None:
            sys.exit("neither release/ nor release/dev is of the sources that are committed here: "
                     "bin/release makes the one, bin/release --dev the other")
        print(f"{kept.place} is of these sources")
        first_commands(checks, clones)
        on_machines(checks, clones, kept)
        comparison(checks, clones, kept)
    checks.end()


if __name__ == "__main__":
    main()
