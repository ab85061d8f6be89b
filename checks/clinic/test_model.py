"""Wrong programs, each of which must be found in a week that is directed at it."""
from pathlib import Path
from typing import Any

import pytest

from checks.clinic.test_wrong import WRONG as OTHERS
from checks.clinic.test_wrong import wrong_source
from checks.clinic.weeks import FOUND, played

TRIES = 4       # weeks in which a wrong one must be found
# Of each: what it does, the changes of its sources, and what of a week is not by chance.
WRONG: dict[str, tuple[list[tuple[str, str, str]], dict[str, Any]]] = {
    "believes that a name has come again": (
        [*OTHERS["believes a name"][:-1]],
        {"faults": ["one name"], "damage": "half", "part": 0, "pause": 150, "cards": 0}),
    "does not look at the inbox": ([
        ("morning.py", "waits = in_inbox(self.place)", "waits = []")],
        {"faults": ["left"], "cards": 0}),
    "does not tell that receive is stopped": ([
        ("morning.py", "if not is_receiving(self.place):", "if False:")],
        {"faults": ["stopped"], "stops": 0, "starts": False}),
    "does not see that a writer goes on": (
        [*OTHERS["keeps nothing open of what it took"][:-1]],
        {"faults": ["pauses"], "kind": "", "count": "right", "ends": True, "pause": 150,
         "cards": 0}),
    "gives a refused file to the first night": ([
        ("giving.py", "return self.rest if is_strange else own[0]",
         "return (own or self.parts)[0]")], {"faults": ["other person"], "lacks": -3}),
    "forgets by folder": (
        [*OTHERS["forgets what is another's"][:-1]],
        {"faults": ["other person", "wrong piece"], "lacks": None, "hours": -3,
         "damage": "no head"}),
    "lays each card with the first night": ([
        ("giving.py", "        own = self.owners(file)\n        nth =",
         "        own = self.parts[:1]\n        nth ="),
        ("giving.py", "return self.rest if is_strange else own[0]",
         "return own[0] if own else self.rest")],
        {"faults": ["other person", "other card"], "lacks": None, "hours": 2,
         "night": -1}),
    "says that all is well whatever else must be looked at": ([
        ("morning.py", "said = making.told(made, (), not self.looks)",
         "said = making.told(made, (), True)")], {"faults": ["other person"], "lacks": -3}),
    "drops what a late card has": ([
        ("morning.py", "for night in plan[\"nights\"]:", "for night in "
         "[it for it in plan[\"nights\"] if it[\"facts\"][\"night\"][-2:] != \".2\"]:")],
        {"faults": ["late card"], "one never comes": True}),
    "exports all but the last file": ([
        ("plan.py", "            for file in given:\n                is_fit",
         "            for file in given[:-1] or given:\n                is_fit"),
        ("plan.py", "            for file in given:\n                if accepted",
         "            for file in given[:-1]:\n                if accepted")],
        {"faults": [], "cards": 0}),
    "drops what was refused and is written over": ([
        ("tonight.py", "if before and files.exists(old) and begun_by([before], line, path):",
         "if before and files.exists(old):")],
        {"faults": ["one name"], "damage": "cut", "part": 0, "pause": 150, "cards": 0}),
    "recodes a night, and keeps the code in its files": ([
        ("recode.py", "words = [\"edfmend\", join(old, it), it, \"--set-patient\", code]",
         "words = [\"cp\", join(old, it), it]")],
        {"faults": [], "recodes": 2})}


@pytest.mark.parametrize("what", WRONG)
def test_a_wrong_one_is_found(what: str, scratch: Path, programs: Path) -> None:
    changes, wanted = WRONG[what]
    source = wrong_source(scratch, changes)
    for seed in range(TRIES):
        if found := played(seed, programs, source, wanted):
            break
    assert found.startswith(FOUND), found or "no week found it"
    assert not played(seed, programs, wanted=wanted), "the right one fails in that week, too"
