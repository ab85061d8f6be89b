"""What the checks need to run under pytest: the words of `checks/run`, the programs, and a table of
what was tried at the end."""
import os
from pathlib import Path

import pytest

from checks.lib import arguments, measure
from checks.table import CHECKS

WRONG = """#!/bin/bash
export LC_ALL=C
"{program}" "$@" | stdbuf -oL tr 1 2
status=${{PIPESTATUS[0]}}
wrong() {{ if [ -f "$1" ]; then tr 1 2 < "$1" > "$1.wrong" && mv "$1.wrong" "$1"; fi; }}
if [ "${{1:-}}" = split ]; then
  for made in "$3"-*.edf; do wrong "$made"; done
elif [ {name} = edfmend ]; then
  wrong "${{2:-}}"
fi
exit "$status"
"""
QUICK, LONG = 900, 6 * 3600     # seconds that a check may take


def pytest_addoption(parser):
    group = parser.getgroup("checks")
    for name, option in arguments.OPTIONS.items():
        group.addoption(f"--{option}", metavar="PATH",
                        help=f"{name}; the one that bin/{name} runs if left out")
    group.addoption("--long", action="store_true", help="the counts of docs/EVIDENCE.md")
    group.addoption("--only", action="append", default=[], metavar="NAME", help="this check")
    group.addoption("--control", action="store_true",
                    help="programs that write a 2 for each 1: each check must fail")


def is_worker(config) -> bool:
    return hasattr(config, "workerinput")


def chosen(config) -> list:
    """The checks that the words ask for."""
    given = config.option
    unknown = set(given.only) - {check.name for check in CHECKS}
    if unknown:
        raise pytest.UsageError(f"no check has the name {', '.join(sorted(unknown))}")
    return [check for check in CHECKS
            if (check.name in given.only if given.only else given.long or not check.is_for_long)
            and (check.programs or not given.control)]


def pytest_configure(config):
    """Finds the programs, once for all workers: where one is stale it is proved and built first."""
    if is_worker(config):
        vars(config.option).update(config.workerinput["programs"])
        return
    if config.option.help or config.option.collectonly:
        return
    options = {option for check in chosen(config) for option in check.programs}
    for name, option in arguments.OPTIONS.items():
        if option in options or not config.option.only:
            path = getattr(config.option, option) or arguments.chosen(name)
            setattr(config.option, option, str(Path(path).resolve()))


@pytest.hookimpl(optionalhook=True)
def pytest_configure_node(node):
    """Tells a worker which programs were found: of the options it gets the words alone."""
    node.workerinput["programs"] = {option: getattr(node.config.option, option)
                                    for option in arguments.OPTIONS.values()}


def pytest_report_header(config):
    found = [getattr(config.option, option) for option in arguments.OPTIONS.values()]
    return [path for path in found if path] + [measure.machine()]


def pytest_generate_tests(metafunc):
    given = metafunc.config.option
    listed = []
    for check in chosen(metafunc.config):
        lacks = check.missing()
        # A worker takes one check after the other, and not a row of neighbours at once.
        marks = [pytest.mark.xdist_group(check.name),
                 pytest.mark.timeout(LONG if given.long else QUICK)]
        if lacks:
            marks.append(pytest.mark.skip(reason=f"{check.name}: no {', '.join(lacks)} here"))
        listed.append(pytest.param(check, id=check.name, marks=marks))
    metafunc.parametrize("check", listed)


@pytest.fixture
def programs(request, check, tmp_path) -> dict:
    """The programs that the check takes, by their options; with --control wrong ones."""
    found = {option: getattr(request.config.option, option) for option in check.programs}
    if request.config.option.control:
        names = {option: name for name, option in arguments.OPTIONS.items()}
        for option, program in found.items():
            wrong = tmp_path / names[option]
            wrong.write_text(WRONG.format(program=program, name=names[option]))
            wrong.chmod(0o755)
            found[option] = str(wrong)
    return found


def pytest_terminal_summary(terminalreporter):
    """A line for each check that ran to its end."""
    lines = []
    for kind in ("passed", "failed"):
        for report in terminalreporter.getreports(kind):
            said = dict(report.user_properties)
            if report.when == "call" and said:
                lines.append(f"{said['name']:<18} {said['what']:<44} {said['tried']:>9,} "
                             f"{report.duration:>6.0f} s  {kind}")
    if lines:
        terminalreporter.section("tried")
        terminalreporter.write_line("\n".join(sorted(lines)))
        spent = os.times()
        terminalreporter.write_line(f"{spent.children_user:.0f} s user, "
                                    f"{spent.children_system:.0f} s system")
