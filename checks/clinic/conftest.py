"""The programs and the counts of these checks, and a clinic for each test."""
import os
import shutil
import tempfile
from collections.abc import Iterator
from pathlib import Path
from typing import Any

import pytest

from checks.clinic.clinic import Clinic, laid
from checks.lib import arguments


def pytest_addoption(parser: Any) -> None:
    group = parser.getgroup("clinic")
    for name, option in arguments.OPTIONS.items():
        group.addoption(f"--{option}", metavar="PATH",
                        help=f"{name}; the one of PATH, else the one that bin/{name} runs")
    group.addoption("--bare", metavar="FOLDER", help="a Debian for test_real.py")
    group.addoption("--packages", metavar="FOLDER", help="the packages for test_real.py")
    group.addoption("--long", action="store_true", help="the counts of docs/EVIDENCE.md")


def pytest_collection_modifyitems(items: Any) -> None:
    if os.geteuid() != 0:
        for item in items:
            item.add_marker(pytest.mark.skip(reason="root gives files to uploaders"))


@pytest.fixture(scope="session")
def programs(request: Any) -> Iterator[Path]:
    """A folder with the four programs under their names."""
    paths = {name: Path(getattr(request.config.option, option) or shutil.which(name)
                        or arguments.chosen(name)) for name, option in arguments.OPTIONS.items()}
    with tempfile.TemporaryDirectory(prefix="clinic-programs-") as folder:
        yield laid(Path(folder), paths)


@pytest.fixture
def is_long(request: Any) -> Any:
    return request.config.option.long


@pytest.fixture
def scratch() -> Iterator[Path]:
    """A folder that every user may enter; it goes with the test."""
    folder = tempfile.mkdtemp(prefix="clinic-")
    os.chmod(folder, 0o755)
    yield Path(folder)
    shutil.rmtree(folder, ignore_errors=True)


@pytest.fixture
def clinic(request: Any, scratch: Path, programs: Path) -> Iterator[Clinic]:
    """One of r01, or of the RECORDERS of a module. Each receive that a test begins runs till the
    test stops it, or ends."""
    made = Clinic(scratch, programs, recorders=getattr(request.module, "RECORDERS", ("r01",)))
    yield made
    ended = [it.args for it in made.receiving if it.poll() is not None]
    made.end()
    assert not ended, "a receive ended by itself"
