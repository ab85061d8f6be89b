"""What was recorded, what of it came, and where it lies: known before any program sees it. Exports
are read by the own reader, files that came are known by their bytes."""
import hashlib
import json
import re
from collections import Counter
from collections.abc import Callable, Iterator
from dataclasses import dataclass
from pathlib import Path
from typing import Any

from checks.clinic.clinic import Clinic
from checks.clinic.recordings import Held, Recording, codes_in, records_in

MADE = "night", "view", "pieces"        # how names of what is no file that came begin
PERHAPS = "perhaps "                    # before the owner of a file without a code


@dataclass(frozen=True)
class Piece:
    """A file as somebody may see it: the code in its head, and the samples of whole records. And
    whose it is."""
    code: str
    owner: str
    records: frozenset[bytes]


def quoted_away(text: str) -> str:
    return re.sub(r'"[^"\n]*"', '""', text)


def summed(data: bytes) -> bytes:
    return hashlib.sha256(data).digest()


class Truth:
    def __init__(self, clinic: Clinic):
        self.clinic = clinic
        self.recorded: dict[bytes, tuple[str, int]] = {}    # whose and of when, by the samples
        self.pieces: dict[bytes, Piece] = {}                # by their sums, as these
        self.read: dict[bytes, list[Held]] = {}
        # What a night that was recoded is made of, in `replaced`; and the code that each got.
        self.made_of: dict[Path, list[Path]] = {}
        self.meant: dict[Path, str] = {}
        self.mornings: dict[tuple[str, str], int] = {}      # that made it, by a folder's key
        # What came to a recorder, and is in no night, and was not told.
        self.came: dict[str, set[bytes]] = {it: set() for it in clinic.recorders}

    def file(self, night: Recording, numbers: list[int] | None = None,
             changed: dict[int, bytes] | None = None, count: str = "",
             spoil: Callable[[bytes], bytes] = bytes) -> bytes:
        """A file of these data records, else of all, as it is spoilt; what it has is known then."""
        numbers = numbers or list(range(night.records))
        data = spoil(night.piece(numbers[0], numbers[-1] + 1, count, changed=changed))
        width, head = night.header(0, "1").record_bytes(), 256 * (len(night.samples) + 2)
        samples = {nth: (changed or {}).get(nth, night.samples_of(nth))
                   for nth in numbers[:max(0, len(data) - head) // width]}
        owner = night.patient.split()[0]
        self.recorded |= {it: (owner, night.instant(nth)) for nth, it in samples.items()}
        is_head = data[:8] == b"0       " and len(data) >= 88
        self.pieces[summed(data)] = Piece(codes_in(data) if is_head else "", owner,
                                          frozenset(samples.values()))
        return data

    def known(self, path: Path) -> Piece:
        data = path.read_bytes()
        found = self.pieces.get(summed(data))
        assert found, f"{path} is no file that came: {len(data)} bytes, {data[:88]!r}"
        return found

    def records(self, paths: list[Path]) -> set[bytes]:
        return {samples for it in paths for samples in self.known(it).records}

    def export(self, path: Path) -> list[Held]:
        data = path.read_bytes()
        if summed(data) not in self.read:
            self.read[summed(data)] = records_in(data)
        return self.read[summed(data)]

    def folders(self, is_all: bool = True) -> list[Path]:
        return sorted(it for bed in self.came for above in ("", "replaced")[:1 + is_all]
                      for it in (self.clinic.nights / bed / above).glob("[0-9]*"))

    def facts(self, folder: Path) -> Any:
        path = folder / "night.json"
        return json.loads(path.read_text()) if path.exists() else {}

    def exports(self, folder: Path) -> list[Path]:
        return [*folder.glob("night.edf"), *folder.glob("pieces*.edf")]

    def raw(self, folder: Path) -> list[Path]:
        """The files of a folder that came: uploads and cards."""
        return sorted(it for it in folder.rglob("*.edf") if not it.name.startswith(MADE))

    def held(self) -> set[bytes]:
        """What a night's night.edf has."""
        return {samples for it in self.folders(False) for path in it.glob("night.edf")
                for _, samples in self.export(path)}

    def put_away(self) -> set[bytes]:
        return self.records([it for folder in self.folders() for it in self.raw(folder)])

    def pending(self, *kinds: str) -> set[bytes]:
        """What lies in inboxes, in tonight, in a morning that is unfinished."""
        paths = [it for kind in kinds or ("taken", "refused", "cards")
                 for it in self.clinic.data.glob(f"*/*/{kind}/*.edf")]
        return self.records([*paths, *self.clinic.inboxes.glob("*/[!.]*")])

    def recoded(self, folder: Path, made: Path, code: str) -> None:
        old = folder.parent / "replaced" / folder.name
        self.made_of[made] = [old, *self.made_of.pop(folder, []), *self.made_of.get(made, [])]
        self.meant |= {it: code for it in self.made_of[made]}

    def key(self, folder: Path) -> tuple[str, str]:
        """Its recorder and its name, which it has in `replaced`, too."""
        return folder.relative_to(self.clinic.nights).parts[0], folder.name

    def codes(self) -> Iterator[tuple[Path, str, Path]]:
        """Of each file that came, and each export of the archive its code and its folder. What has
        no code is perhaps its owner's, where a night of theirs and of its morning is there."""
        nights = {(self.mornings[self.key(it)], self.facts(it)["patient"])
                  for it in self.folders(False) if self.key(it) in self.mornings}
        for folder in self.folders():
            for path in self.raw(folder):
                of = self.known(path)
                is_there = (self.mornings.get(self.key(folder)), of.owner) in nights
                yield path, of.code or f"{PERHAPS}{of.owner}" * is_there, folder
            yield from ((it, codes_in(it.read_bytes()), folder) for it in self.exports(folder))

    def belongings(self) -> dict[Path, tuple[str, bytes]]:
        """Of each of these files whose it is."""
        found = {}
        for path, code, folder in self.codes():
            told = self.facts(folder).get("patient")
            owner = self.meant.get(folder, code) if code == told else code
            found[path] = owner, path.read_bytes()
        return found

    def assert_owners(self) -> None:
        """Nobody's file lies in another's night."""
        for path, code, folder in self.codes():
            told = self.facts(folder).get("patient", "")
            assert told or folder.parent.name == "replaced", f"{folder} has no night.json"
            assert code in (told, "") or not told or code.startswith(PERHAPS), \
                f"{path} is of {code}, and lies in a night of {told}"

    def assert_exports(self, before: list[Path]) -> None:
        """Of the nights of a morning: each export has what was recorded, and once; and each data
        record that was taken is in one."""
        held, exported, taken = Counter[bytes](), set[bytes](), list[Path]()
        nth = len(self.mornings)
        self.mornings |= {self.key(it): nth for it in self.folders() if it not in before}
        for folder in [it for it in self.folders(False) if it not in before]:
            patient = self.facts(folder)["patient"]
            for path in self.exports(folder):
                found = self.export(path)
                assert [start for start, _ in found] == sorted({start for start, _ in found}), path
                for start, samples in found:
                    assert self.recorded.get(samples) == (patient, start), \
                        f"{path} of {patient} has at {start} {self.recorded.get(samples)}"
                held.update([samples for _, samples in found if path.name == "night.edf"])
                exported |= {samples for _, samples in found}
            taken += folder.glob("taken/*.edf")
        lost = self.records(taken) - exported
        assert not lost, f"{len(lost)} data records were taken, and are in no export"
        assert max(held.values(), default=1) == 1, "a data record is in two nights of a morning"
