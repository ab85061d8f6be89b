"""Every refusal that the programs print: its number, its name and its details, read from
docs/REFUSALS.md, which says what each one means. A name there as `CutRecord` is `cut_record` here.

    from checks.lib import faults
    faults.tal(1, 5)                'E22 Tal record=1 offset=5'
    faults.tal.number               'E22'
"""
import re

from .arguments import TOP

LINE = re.compile(r"^- \*\*(E\d+)\*\* `(\w+)((?: \w+=)*)`", re.MULTILINE)


class Fault:
    """A kind of refusal; a call with the values of its details gives its text."""

    def __init__(self, number: str, name: str, *details: str):
        self.number, self.name, self.details = number, name, details

    def __call__(self, *values) -> str:
        pairs = zip(self.details, values, strict=True)
        return " ".join((self.number, self.name, *(f"{name}={value}" for name, value in pairs)))


def _listed(text: str) -> dict[str, Fault]:
    """The refusals of the list by their names here."""
    return {re.sub(r"(?<=.)([A-Z])", r"_\1", name).lower():
            Fault(number, name, *details.replace("=", "").split())
            for number, name, details in LINE.findall(text)}


globals().update(_listed((TOP / "docs/REFUSALS.md").read_text()))
