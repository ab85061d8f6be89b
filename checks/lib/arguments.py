"""The words of a check or a bench: the programs to run, and how often.

    given = arguments.Parser(__doc__, count=1_000).read()
    given.program, given.count

One whose words are more than these adds them before `read`, by `add_argument`.
"""
import argparse
import subprocess
import sys
from pathlib import Path

TOP = Path(__file__).resolve().parents[2]
# The option that names each program
OPTIONS = {"edfstore": "program", "edfruns": "edfruns", "edfserve": "edfserve",
           "edfmend": "edfmend"}
PROGRAMS, BOTH = tuple(OPTIONS), ("edfstore", "edfruns")


def path(word: str) -> Path:
    return Path(word).resolve()


def chosen(name: str, machine: str = "") -> Path:
    """The program that the script bin/NAME runs, which proves and builds it where it is stale; or
    the one that it runs on that machine."""
    script = '. "$0/bin/common.sh" && chosen_program "$1" "$2"'
    ran = subprocess.run(["bash", "-c", script, TOP, name, machine], stdout=subprocess.PIPE,
                         text=True, check=False)
    if ran.returncode:
        sys.exit(f"bin/{name} has no program to run")
    return Path(ran.stdout.strip())


def found(given: argparse.Namespace, names) -> dict:
    """Each of these programs by its option: the one that the words name, else the one that its
    script runs."""
    return {OPTIONS[name]: getattr(given, OPTIONS[name]) or chosen(name) for name in names}


class Parser(argparse.ArgumentParser):
    """Takes --program, which names edfstore, or --edfruns, or both, by the programs that the script
    runs; and a count, where the script has one. Its help is the text at the script's head."""

    def __init__(self, text: str, programs: tuple = ("edfstore",), count: int = 0):
        super().__init__(prog=f"python3 -m {sys.modules['__main__'].__spec__.name}",
                         description=text, allow_abbrev=False,
                         formatter_class=argparse.RawDescriptionHelpFormatter)
        self.programs = programs
        for name in programs:
            self.add_argument(f"--{OPTIONS[name]}", metavar="PATH", type=path,
                              help=f"{name}; the one that bin/{name} runs if left out")
        if count:
            self.add_argument("count", nargs="?", metavar="COUNT", type=int, default=count,
                              help=f"how often, {count:,} if left out")

    def read(self) -> argparse.Namespace:
        """The words, with a program where none was named."""
        given = self.parse_args()
        vars(given).update(found(given, self.programs))
        return given
