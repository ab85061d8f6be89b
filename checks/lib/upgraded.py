"""A bare Debian that has the package of an earlier release, and then the newer one; and edfclinic's
package beside that. `bare` is one of checks.package."""
import os
from pathlib import Path

from checks.lib import measure, model, printed, sessions
from checks.lib.arguments import TOP
from checks.lib.checks import Checks

SHARED = "/usr/share/doc/edfstore"
NIGHT, CARD = "/root/before/night.db", f"{SHARED}/examples/oximeter/card.edf"
DATA = (TOP / "examples/oximeter/card.edf").read_bytes()
TREES = ("/srv/inbox", "/srv/edfclinic", "/srv/nights")
KEPT = "/srv/nights/r01/2026-11-26/night.edf"
# What dpkg, apt and useradd write for themselves, and the copy that was installed
OTHERS = ("/var/lib/dpkg", "/var/log", "/var/cache", "/tmp", "/proc", "/etc/.pwd.lock",
          "/etc/passwd-", "/etc/shadow-", "/etc/group-", "/etc/gshadow-", "/etc/subuid-",
          "/etc/subgid-")


def version(package: Path) -> str:
    return measure.done("dpkg-deb", "-f", package, "Version").out.decode().strip()


def make_store(checks: Checks, bare, package: Path) -> None:
    """Installs the earlier package, and makes a store by the ten minutes of its README."""
    checks.begin(f"edfstore {version(package)}, before")
    checks.same("dpkg -i", bare.install(package), 0)
    shown, = sessions.sessions(bare.root / f"{SHARED}/README.md"[1:])
    ran = bare.shown(f"{shown.script}cp -r $night /root/before\n", SHARED)
    checks.same("README: what is printed", shown.differences(ran.out.decode()), [])


def open_store(checks: Checks, bare) -> None:
    """The same store, by the newer programs; and no file of the earlier package is left over."""
    checks.begin("the store of the version before")
    held = model.Store()
    held.take(DATA)
    checks.compare("edfstore list", bare.run("edfstore", "list", NIGHT), held.lines(), "", 0)
    checks.compare("edfstore take", bare.run("edfstore", "take", NIGHT, CARD),
                   printed.lines((CARD, held.take(DATA))), "", 0)
    checks.compare("edfstore export", bare.run("edfstore", "export", NIGHT, "1"), held.export(1),
                   "", 0)
    listed = set(bare.run("dpkg", "-L", "edfstore").out.decode().splitlines())
    checks.same("what is left over", sorted(below(bare, SHARED) - listed), [])


def below(bare, folder: str) -> set:
    paths = bare.run("find", folder, "-xdev").out.decode().splitlines()
    return {path for path in paths if not path.startswith(OTHERS)}


def tried(checks: Checks, bare, edfstore: Path, edfclinic: Path) -> None:
    """edfclinic beside edfstore; then neither, of which the archive is left."""
    if bare.run("python3", "-c", "").status:
        print("edfclinic was NOT installed: no Python there")
        return
    checks.begin("edfclinic's package")
    before = below(bare, "/")
    checks.same("without edfstore it is refused", bare.install(edfclinic) != 0, True)
    bare.run("dpkg", "--purge", "--force-all", "edfclinic")
    checks.same("nothing is there of it", sorted(below(bare, "/") - before), [])
    checks.same("dpkg -i", (bare.install(edfstore), bare.install(edfclinic)), (0, 0))
    checks.same("dpkg --verify", bare.run("dpkg", "--verify", "edfclinic").out, b"")
    checks.compare("edfclinic --version", bare.run("edfclinic", "--version"),
                   f"edfclinic {version(edfclinic)}\n", "", 0)
    checks.same("edfclinic help", bare.run("edfclinic", "help").status, 0)
    checks.same("edfstore may not go", bare.run("dpkg", "-P", "edfstore").status != 0, True)
    bare.run("install", "-D", CARD, KEPT)
    for words in (("-r", "edfclinic"), ("-P", "edfclinic", "edfstore")):
        checks.same(f"dpkg {' '.join(words)}", bare.run("dpkg", *words).status, 0)
    archive = {KEPT, os.path.dirname(KEPT), os.path.dirname(os.path.dirname(KEPT))}
    checks.same("what is left", below(bare, "/") ^ before, {*TREES, *archive})
