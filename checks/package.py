"""Makes the Debian packages of the released programs and of edfclinic, looks at them, and installs
them on a bare Debian.

    python3 -m checks.package [--bare FOLDER] [--before PACKAGE] [--clinic PACKAGE] [PACKAGE]

bin/package and bin/package-clinic make each twice, in two places, times, time zones and languages,
and both must have the same bytes; PACKAGE is looked at instead of these where it is named. It has
the released programs, their man pages, the documents, the examples and the licences, and less than
MOST bytes. Its copyright file names whom the notices name, and each crate without a licence. No
link of its documents is dead, `lintian` finds no error, `man` no warning of the pages. As root and
with debootstrap it is installed by `dpkg -i` on a Debian of the least packages, run there, by the
commands that README, REFUSALS and examples/README show too, and removed again; where packages can
be had the examples that write by EDFlib run there, and edfclinic's package is installed: without
edfstore it is refused, and once both are purged the archive alone is left. FOLDER is such a Debian;
else one is made, which takes minutes and the network, and is gone at the end. With --before the
package of an earlier release is there first: a store that its README makes must be as it was.
Without root or debootstrap it is unpacked here, `ldd` says what it lacks, and it is run here: the
last lines say which of the ways was taken.

Three controls must fail: a package without its copyright file has an error by lintian, one that
needs a library that is not there and one with a byte changed are not installed. It needs dpkg-deb,
lintian, man and readelf.
"""
import os
import re
import shutil
from pathlib import Path

from checks.lib import (arguments, installed, links, measure, model, printed, runs, serving,
                        sessions, upgraded)
from checks.lib.checks import Checks

MOST = 2_400_000
SUITE = "bookworm"
PROGRAMS = ("edfstore", "edfruns", "edfserve", "edfmend")
SHARED = "usr/share/doc/edfstore"
SERVICES = ("usr/lib/edfstore", "usr/lib/systemd", "lib/systemd", "etc")      # none has a file
EXAMPLES = ("edflib.edf", "one-record.edf")
LICENCES = ("LICENSE-MIT", "LICENSE-APACHE", "THIRD-PARTY.md")
DOCUMENTS = ("README.md", "copyright", *LICENCES, "docs/GUIDE.md", "docs/REFUSALS.md",
             "docs/FORMAT.md", "docs/GLOSSARY.md", "docs/ASSURANCE.md", "docs/PROMISES.md",
             "examples/witness.py",
             *(f"examples/{name}" for name in EXAMPLES))
PLACE = ("PATH=/usr/sbin:/usr/bin:/sbin:/bin", "DEBIAN_FRONTEND=noninteractive")
EARLIER = 946_684_800       # a time of files, which must not be seen


def text(*words, **options) -> str:
    """What a program wrote, as text; the script ends where it failed."""
    return measure.done(*words, **options).out.decode()


def programs(folder: Path) -> Path:
    """A folder with the released programs."""
    folder.mkdir()
    for name in PROGRAMS:
        shutil.copy(arguments.chosen(name), folder)
    return folder


def made(checks: Checks, folder: Path, script: str, *given: Path) -> Path:
    """The package that this script of `bin` makes, of these folders, made twice."""
    packages = []
    places = ({"TZ": "UTC", "LC_ALL": "C"},
              {"TZ": "Pacific/Auckland", "LANG": "de_DE.UTF-8", "LC_ALL": ""})
    for nth, added in enumerate(places):
        target = folder / f"{script}-{nth}"
        for path in (path for it in given for path in it.iterdir()):
            os.utime(path, (EARLIER * (nth + 1), EARLIER))
        line, mask = 'umask "$1"; shift; "$0" "$@"', ("022", "077")[nth]
        measure.done("bash", "-c", line, arguments.TOP / "bin" / script, mask, *given, target,
                     added=added, folder=(folder, "/")[nth])
        packages += list(target.iterdir())
    checks.begin(f"the package of bin/{script}")
    checks.same("it is made twice, with the same name", packages[1].name, packages[0].name)
    checks.same("it has the same bytes, made twice",
                packages[1].read_bytes() == packages[0].read_bytes(), True)
    released = arguments.TOP / "release" / packages[0].name
    same = released.is_file() and released.read_bytes() == packages[0].read_bytes()
    has = "has" if same else "does NOT have"
    print(f"release/{released.name} {has} the bytes of the one made here")
    return packages[0]


def rendered(checks: Checks, name: str, root: Path) -> None:
    """The man page below that folder, as `man` shows it."""
    read = measure.ran("man", "--warnings", "-l", root / f"usr/share/man/man1/{name}.1.gz")
    checks.same(f"man {name}: status and warnings", (read.status, read.err), (0, b""))
    is_headed = read.out.startswith(f"{name.upper()}(1)".encode())
    checks.same(f"man {name}: its head and size", (is_headed, len(read.out) > 1000), (True, True))


def contents(checks: Checks, package: Path, folder: Path) -> Path:
    """The package, unpacked."""
    root = folder / "unpacked"
    measure.done("dpkg-deb", "-x", package, root)
    size = package.stat().st_size
    needs = text("dpkg-deb", "-f", package, "Depends").strip()
    print(f"{package.name}: {size:,} bytes, needs {needs}")
    checks.begin("what the package has")
    checks.same(f"less than {MOST:,} bytes", size < MOST, True)
    version = text("dpkg-deb", "-f", package, "Version").strip()
    for name in PROGRAMS:
        program = root / "usr/bin" / name
        checks.same(f"{name} has the released bytes",
                    program.read_bytes() == arguments.chosen(name).read_bytes(), True)
        checks.same(f"{name} --version", text(program, "--version"),
                    printed.version(name, version.partition("-")[0].replace("~", "-")))
        page = text("zcat", root / f"usr/share/man/man1/{name}.1.gz")
        checks.same(f"{name}.1", page == (arguments.TOP / f"docs/{name}.1").read_text(), True)
        rendered(checks, name, root)
    checks.same("what runs by itself", [it for it in SERVICES if (root / it).exists()], [])
    missing = [name for name in DOCUMENTS if not (root / SHARED / name).is_file()]
    checks.same("documents that it lacks", missing, [])
    checks.same("dead links", links.dead(sorted((root / SHARED).rglob("*.md")), root / SHARED), [])
    news = "changelog.Debian.gz" if "-" in version else "changelog.gz"
    changelog = text("zcat", root / SHARED / news)
    checks.same("the changelog's version", changelog.split(")")[0], f"edfstore ({version}")
    licences(checks, root / SHARED)
    return root


def licences(checks: Checks, shared: Path) -> None:
    """The licences, and the copyright file in the form of DEP-5."""
    for name in LICENCES:
        checks.same(name, (shared / name).read_bytes(), (arguments.TOP / name).read_bytes())
    notices, said = (shared / "THIRD-PARTY.md").read_text(), (shared / "copyright").read_text()
    checks.same("the copyright file's form", said.splitlines()[0],
                "Format: https://www.debian.org/doc/packaging-manuals/copyright-format/1.0/")
    checks.same("its licences", re.findall("^License: (.*)$", said, re.M),
                ["Expat or Apache-2.0", "Expat or Apache-2.0, and third-party-notices", "Expat",
                 "Apache-2.0", "third-party-notices"])
    holders = re.findall(r"^Copyright (?:\([cC]\)|©) (.*)$", notices, re.M)
    checks.same("whom it does not name", [it for it in holders if f" {it}\n" not in said], [])
    without = re.findall(r"^\| `(\w+)` \| no licence file \|", notices, re.M)
    words = set(re.findall(r"\w+", said[said.rindex("License: "):]))
    checks.same("the crates without a licence that it does not name", set(without) - words, set())
    checks.same("there are holders and such crates", (len(holders) > 3, len(without) > 3),
                (True, True))


def tags(package: Path) -> list:
    """What lintian prints, but notes; `E:` is an error."""
    lines = text("lintian", "--fail-on", "none", package).splitlines()
    return [line for line in lines if not line.startswith("N:")]


def errors(lines: list) -> list:
    return [line for line in lines if line.startswith("E:")]


def changed(name: str, change, package: Path, folder: Path) -> Path:
    """The package of that name, which is this one after `change` of its folder."""
    root = folder / name
    measure.done("dpkg-deb", "-R", package, root)
    change(root)
    target = folder / f"{name}.deb"
    measure.done("dpkg-deb", "--root-owner-group", "--build", root, target)
    return target


def without_copyright(root: Path) -> None:
    (root / SHARED / "copyright").unlink()


def of_another_library(root: Path) -> None:
    control = root / "DEBIAN/control"
    control.write_text(control.read_text().replace("Depends: ", "Depends: edfstore-of-no-name, "))


def with_a_byte_changed(package: Path, folder: Path) -> Path:
    data = bytearray(package.read_bytes())
    data[len(data) // 2] ^= 1
    target = folder / "with-a-byte-changed.deb"
    target.write_bytes(data)
    return target


def by_lintian(checks: Checks, package: Path, clinic: Path, folder: Path) -> None:
    checks.begin("lintian")
    for it in (package, clinic):
        lines = tags(it)
        print(f"lintian of {it.name}: {len(errors(lines))} errors",
              *(f"  {line}" for line in lines), sep="\n")
        checks.same(f"errors of {it.name}", errors(lines), [])
    wrong = errors(tags(changed("without-copyright", without_copyright, package, folder)))
    checks.same("control: the errors of a package without its copyright file have this one",
                "E: edfstore: no-copyright-file" in wrong, True)


def run_there(checks: Checks, where: str, run, folder: Path) -> None:
    """Both programs on the examples, by `run`, which runs words in a folder of that place."""
    checks.begin(where)
    held, examples = model.Store(), arguments.TOP / "examples"
    files = [(examples / name).read_bytes() for name in EXAMPLES]
    there = examples if where == "here" else f"/{SHARED}/examples"
    paths = [f"{there}/{name}" for name in EXAMPLES]
    lines = printed.lines(*((path, held.take(data)) for path, data in zip(paths, files)))
    checks.compare("edfstore take", run("edfstore", "take", "night.db", *paths), lines, "", 0)
    checks.compare("edfstore list", run("edfstore", "list", "night.db"), held.lines(), "", 0)
    for place in range(1, len(held.held) + 1):
        export = run("edfstore", "export", "night.db", str(place))
        checks.compare(f"edfstore export {place}", export, held.export(place), "", 0)
    made_of = runs.read_runs(files[0])
    checks.compare("edfruns list", run("edfruns", "list", paths[0]), runs.lines(made_of), "", 0)
    checks.compare("edfruns split", run("edfruns", "split", paths[0], "part"),
                   runs.split_lines("part", made_of), "", 0)
    checks.same("the file of split", (folder / "part-1.edf").read_bytes(), made_of[0].to_bytes())
    picture = run("edfruns", "picture", paths[0])
    checks.same("edfruns picture", (picture.out[:4], picture.err, picture.status),
                (b"<svg", b"", 0))


class Bare:
    """A Debian of the least packages, in a folder of its own."""

    def __init__(self, folder: Path, given):
        self.root = folder
        if given:
            measure.done("cp", "-a", given, folder)
        else:
            measure.done("debootstrap", "--variant=minbase", SUITE, folder)

    def run(self, *words) -> measure.Ran:
        """Runs words there, with the variables of a bare system."""
        return measure.ran("chroot", self.root, "env", "-i", *PLACE, *words)

    def at_home(self, *words) -> measure.Ran:
        return self.run("sh", "-c", 'cd /root/night && exec "$@"', "sh", *words)

    def shown(self, script: str, folder: str) -> measure.Ran:
        """Runs a script in that folder."""
        return self.run("sh", "-c", 'cd "$1" && eval "$2"', "sh", folder, script)

    def install(self, path: Path) -> int:
        shutil.copy(path, self.root / "tmp/given.deb")
        return self.run("dpkg", "-i", "/tmp/given.deb").status

    def installed(self) -> list:
        """What of the package is there."""
        paths = (*(f"usr/bin/{name}" for name in PROGRAMS), SHARED)
        return [path for path in paths if (self.root / path).exists()]


def as_shown(checks: Checks, bare: Bare) -> None:
    """The commands that the documents show, with what they say that these print."""
    checks.begin("the documents' commands")
    readme, examples = f"/{SHARED}/README.md", f"/{SHARED}/examples/README.md"
    for document in (readme, examples):
        for shown in sessions.sessions(bare.root / document[1:]):
            written = bare.shown(shown.script, os.path.dirname(document)).out.decode()
            checks.same(f"{document}: what is printed", shown.differences(written), [])
    for lines in sessions.commands(bare.root / readme[1:], PROGRAMS):
        script = f"set -e; mkdir /tmp/first; cp -r examples /tmp/first; cd /tmp/first\n{lines}"
        checks.same("README: its first commands",
                    bare.shown(script, f"/{SHARED}").outcome()[1:], (b"", 0))
    in_sentences(checks, bare)


def in_sentences(checks: Checks, bare: Bare) -> None:
    """The commands that GUIDE names in its sentences, and those of REFUSALS for a cut file."""
    checks.begin("the documents' other commands")
    place = bare.root / "tmp/other"
    place.mkdir()
    whole = (arguments.TOP / "examples/oximeter/part1.edf").read_bytes()
    (place / "part7.edf").write_bytes(whole)
    (place / "cut.edf").write_bytes(whole[:10_000])
    (place / "in.edf").write_bytes(whole[:192] + b" " * 44 + whole[236:])

    def run(line: str) -> tuple:
        return bare.shown(line, "/tmp/other").outcome()

    held = model.Store()
    taken = printed.lines(("part7.edf", held.take(whole)))
    asked = "printf 'take part7.edf\\nlist\\n' | edfserve night.db"
    wanted = taken + serving.status(0) + held.lines() + serving.status(0)
    checks.same("edfserve", run(asked), (wanted.encode(), b"", 0))
    shown = sessions.sessions(bare.root / SHARED / "docs/REFUSALS.md")
    checks.same("REFUSALS: a cut file", [run(it.script)[1:] for it in shown],
                [(b"", 0)])
    checks.same("REFUSALS: what there is of it", run("edfstore take :memory: front.edf")[0],
                b"front.edf accepted new=59 known=0\n")
    checks.same("edfmend --dry-run", run("edfmend --dry-run in.edf")[2], 0)
    checks.same("edfmend", run("edfmend in.edf out.edf")[2], 0)
    listed = run("edfruns list *.edf > runs; cat runs")
    refused = [b"cut.edf refused E21 CutRecord record=60", b"in.edf refused E9 NotPlus"]
    checks.same("edfruns list *.edf",
                (listed[0].count(b"\n") > 2, listed[1].splitlines(), listed[2]),
                (True, refused, 0))


def on_a_bare_debian(checks: Checks, package: Path, clinic: Path, folder: Path, given) -> None:
    bare = Bare(folder / "system", given.bare)
    release = (bare.root / "etc/debian_version").read_text().strip()
    count = bare.run("dpkg-query", "-W").out.count(b"\n")
    checks.begin("a bare Debian")
    for other in (changed("of-another-library", of_another_library, package, folder),
                  with_a_byte_changed(package, folder)):
        checks.same(f"control: {other.stem} is refused", bare.install(other) != 0, True)
        bare.run("dpkg", "--purge", "--force-all", "edfstore")
    checks.same("nothing is there", bare.installed(), [])
    if given.before:
        upgraded.make_store(checks, bare, given.before)
    checks.same("dpkg -i", bare.install(package), 0)
    checks.same("dpkg --verify", bare.run("dpkg", "--verify", "edfstore").out, b"")
    if given.before:
        upgraded.open_store(checks, bare)
    (bare.root / "root/night").mkdir()
    run_there(checks, "a bare Debian", bare.at_home, bare.root / "root/night")
    as_shown(checks, bare)
    installed.tried(checks, bare.root)
    for name in PROGRAMS:
        rendered(checks, name, bare.root)
    checks.same("dpkg -P", bare.run("dpkg", "-P", "edfstore").status, 0)
    checks.same("what is left", bare.installed(), [])
    upgraded.tried(checks, bare, package, clinic)
    print(f"installed by dpkg -i on a bare Debian {release} of {count} packages "
          f"({'given' if given.bare else 'made by debootstrap'}), run there and removed")


def here(checks: Checks, root: Path, folder: Path) -> None:
    place = folder / "here"
    place.mkdir()

    def run(name, *words) -> measure.Ran:
        return measure.ran(root / "usr/bin" / name, *words, folder=place)

    checks.begin("here")
    for name in PROGRAMS:
        needed = text("ldd", root / "usr/bin" / name)
        checks.same(f"ldd {name}", ("libc.so.6" in needed, "not found" in needed), (True, False))
    run_there(checks, "here", run, place)
    print("unpacked and run here, with this system's libraries; not installed on a bare Debian")


def main() -> None:
    parser = arguments.Parser(__doc__, programs=())
    parser.add_argument("--bare", type=arguments.path, metavar="FOLDER", help="a bare Debian")
    parser.add_argument("--before", type=arguments.path, metavar="PACKAGE",
                        help="that of an earlier release")
    parser.add_argument("--clinic", type=arguments.path, metavar="PACKAGE",
                        help="that of edfclinic; made here if left out")
    parser.add_argument("package", nargs="?", type=arguments.path, help="made here if left out")
    given = parser.read()
    measure.need("dpkg-deb", "lintian", "man", "readelf")
    with measure.scratch() as name:
        folder, cases = Path(name), Path(name) / "cases"
        cases.mkdir()
        checks = Checks(Path("edfstore"), cases)
        package = given.package or made(checks, folder, "package", programs(folder / "programs"))
        clinic = given.clinic or made(checks, folder, "package-clinic")
        root = contents(checks, package, folder)
        by_lintian(checks, package, clinic, folder)
        if os.geteuid() == 0 and (given.bare or shutil.which("debootstrap")):
            on_a_bare_debian(checks, package, clinic, folder, given)
        else:
            here(checks, root, folder)
    checks.end()


if __name__ == "__main__":
    main()
