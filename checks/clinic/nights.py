"""What must be so after a morning, by the own reader."""
from collections import Counter
from pathlib import Path

from checks.clinic.clinic import facts
from checks.clinic.recordings import codes_in, records_in

ALWAYS = {"night.edf", "view.edf", "night.svg", "report.txt", "night.json", "SHA256SUMS"}
Whose = tuple[str, int, bytes]      # a data record: the patient's code, its start, its samples


def exported(night: Path) -> Counter[Whose]:
    """How often each data record of whom is in the exports of a night."""
    found: Counter[Whose] = Counter()
    for path in [night / "night.edf", *sorted(night.glob("pieces*.edf"))]:
        data = path.read_bytes()
        found.update((codes_in(data), *it) for it in set(records_in(data)))
        assert len(records_in(data)) == len(set(records_in(data))), f"{path}: twice"
    return found


def came(night: Path) -> set[Whose]:
    """Each data record of the files that a night took."""
    refused = {it["name"] for it in facts(night)["card"] if not it["answer"].startswith("acc")}
    found = set()
    for path in [*sorted((night / "taken").iterdir()), *sorted(night.glob("card-*.edf"))]:
        if path.name.startswith("card-") and refused:
            continue
        data = path.read_bytes()
        found |= {(codes_in(data), *it) for it in records_in(data)}
    return found


def assert_all_is_there(nights: list[Path], *truths: tuple[str, dict[int, bytes]]) -> None:
    """Each data record that the nights took is in an export, and in one night; that is all that was
    recorded, and no more: `truths` are pairs of a patient's code and the samples by start."""
    found = Counter(it for night in nights for it in exported(night))
    assert set().union(*map(came, nights)) == set(found), \
        "an accepted data record is in no export, or another one is"
    assert set(found.values()) == {1}, "a data record is in two nights, or none is in any"
    assert set(found) == {(code, *it) for code, truth in truths for it in truth.items()}


def starts(night: Path) -> list[int]:
    """Those of the export, in order."""
    return [start for start, _ in records_in((night / "night.edf").read_bytes())]
