"""OpenSSH's server, Samba, sudo and systemd in a Debian of their own, by the lines of README.

It wants root and namespaces. The Debian is this one, or the one of --bare FOLDER, below an overlay
in memory that is gone at the end: it has openssh-server, samba, smbclient, sudo, python3 and, for
the second test, systemd and systemd-container. The packages are those of --packages FOLDER, else
they are made of the programs that are named."""
import shutil
import subprocess
import tempfile
import time
from collections.abc import Iterator
from pathlib import Path
from typing import Any

import pytest

from checks.clinic.recordings import Recording
from checks.lib.arguments import TOP
from checks.lib.measure import ran

NIGHT, BOOT = Recording(records=80), 180
WANTED = ("usr/sbin/sshd", "usr/sbin/smbd", "usr/bin/smbclient", "usr/bin/sudo", "usr/bin/python3")
NAMESPACES = ("unshare", "--mount", "--net", "--pid", "--ipc", "--uts", "--fork", "--kill-child")


@pytest.fixture
def root(request: Any, programs: Path) -> Iterator[Path]:
    """The Debian, with what is tried in /tried, and no config of this machine."""
    lower = Path(request.config.option.bare or "/")
    lacks = [name for name in WANTED if not (lower / name).exists()]
    if lacks or ran(*NAMESPACES, "true").status:
        pytest.skip(f"no namespaces here, or no {', '.join(lacks)} in {lower}")
    with tempfile.TemporaryDirectory(prefix="clinic-real-") as name:
        folder = Path(name)
        subprocess.run(["mount", "-t", "tmpfs", "clinic", folder], check=True)
        try:
            for part in ("upper", "work", "root"):
                (folder / part).mkdir()
            given = f"lowerdir={lower},upperdir={folder}/upper,workdir={folder}/work"
            subprocess.run(["mount", "-t", "overlay", "clinic", "-o", given, folder / "root"],
                           check=True)
            prepare(folder / "root/tried", programs, request.config.option.packages)
            yield folder / "root"
        finally:
            for place in (folder / "root", folder):
                subprocess.run(["umount", "-l", place], check=False)


def blocks() -> dict[str, str]:
    """The lines of README, by their heading, without what this Debian does by itself."""
    found = {}
    for section in (TOP / "clinic/README.md").read_text().split("\n## ")[1:]:
        name, _, text = section.partition("\n")
        lines = [*text.split("```\n"), ""][1].split("\n")
        found[name] = "\n".join(it for it in lines if not it.startswith("apt install"))
    return found


def prepare(tried: Path, programs: Path, packages: str | None) -> None:
    tried.mkdir()
    for name in ("edfclinic", "r01", "r02", "r03", "tech"):     # where it is set up here, too
        ran("chroot", tried.parent, "userdel", name)
        ran("chroot", tried.parent, "groupdel", name)
    ran("chroot", tried.parent, "groupdel", "edfstaff")
    if not packages:
        for words in ((TOP / "bin/package", programs), (TOP / "bin/package-clinic",)):
            made = ran(*words, tried)
            assert made.status == 0, made
    machine = ran("dpkg", "--print-architecture").out.decode().strip()
    for name, kind in (("edfstore", machine), ("edfclinic", "all")):
        package, = Path(packages or tried).glob(f"{name}_*_{kind}.deb")
        shutil.copy(package, tried / f"{name}.deb")
    shutil.copy(Path(__file__).with_name("real.sh"), tried)
    for name, heading in (("install", "Install"), ("recorder", "A new recorder"),
                          ("samba", "Samba")):
        (tried / f"{name}.sh").write_text(blocks()[heading])
    for name, data in (("a", NIGHT.piece(0, 20)), ("b", NIGHT.piece(20, 40)),
                       ("c", NIGHT.later(start=NIGHT.at(100)).piece()), ("card", NIGHT.piece()),
                       ("d", NIGHT.piece())):
        (tried / f"{name}.edf").write_bytes(data)


def told(said: str) -> None:
    lines = [line for line in said.splitlines() if line.startswith(("ok ", "no "))]
    assert lines and lines[-1] == "ok end", said[-3000:]
    assert [line for line in lines if line.startswith("no ")] == [], said[-3000:]


def test_the_package_has_no_errors_by_lintian(scratch: Path) -> None:
    made = ran(TOP / "bin/package-clinic", scratch)
    assert made.status == 0, made
    if not shutil.which("lintian"):
        pytest.skip("no lintian here")
    said = ran("lintian", "--allow-root", made.out.decode().strip()).out.decode()
    assert {line.split(": ")[2].split()[0] for line in said.splitlines() if line[:2] in ("E:", "W:")
            } == {"maintainer-script-calls-systemctl"}


def test_sftp_samba_and_sudo_by_the_lines_of_readme(root: Path) -> None:
    script = 'mount -t proc proc "$0/proc" && ' \
        'mount -t tmpfs tmpfs "$0/run" && mount -t devtmpfs dev "$0/dev" 2>/dev/null; ' \
        'mount -t devpts devpts "$0/dev/pts" 2>/dev/null; exec chroot "$0" bash /tried/real.sh'
    it = ran(*NAMESPACES, "bash", "-c", script, root, most=500)
    told(it.out.decode(errors="replace"))


def test_the_same_with_systemd_as_the_first_process(root: Path) -> None:
    if not shutil.which("systemd-nspawn"):
        pytest.skip("no systemd-nspawn here")
    unit = root / "etc/systemd/system/tried.service"
    unit.write_text("[Unit]\nAfter=multi-user.target ssh.service smbd.service\n[Service]\n"
                    "Type=oneshot\nExecStart=/bin/bash -c 'bash /tried/real.sh >/tried/said 2>&1; "
                    "systemctl poweroff'\n[Install]\nWantedBy=multi-user.target\n")
    wanted = root / "etc/systemd/system/multi-user.target.wants/tried.service"
    wanted.symlink_to("/etc/systemd/system/tried.service")
    said = root / "tried/said"
    child = subprocess.Popen(["systemd-nspawn", "--quiet", "--boot", "--private-network",
                              "--register=no", "--keep-unit", "--directory", root],
                             stdin=subprocess.DEVNULL, stdout=subprocess.DEVNULL)
    try:
        end = time.monotonic() + BOOT
        while not said.exists() and child.poll() is None:
            if time.monotonic() > end:
                pytest.skip(f"systemd does not boot here within {BOOT} s")
            time.sleep(0.5)
        child.wait(500)
    finally:
        child.kill()
        child.wait()
    told(said.read_text(errors="replace"))
