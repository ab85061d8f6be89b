"""thin: of old nights it leaves the export, and what a person reads and wrote."""
import os
import re
from datetime import datetime, timedelta

from . import files, making, nights
from .config import Config
from .files import join
from .nights import (FACTS, NIGHT, REPLACES, REPORT, SEEN, SUMS, THINNED, WHOSE, card_sums,
                     read_facts, sums, write_sums)
from .place import LOG, places
from .text import DONE, LOOK, Wrong

KEPT = {NIGHT, REPORT, FACTS, SEEN, REPLACES, SUMS}
SHARED = {WHOSE, LOG}       # for forget, where something may be another's


def thin(config: Config, older: str) -> int:
    age = re.fullmatch(r"([1-9]\d{0,3})([dy])", older)
    if not age:
        raise Wrong("--older wants days or years, as 400d or 1y")
    days = timedelta(days=int(age[1]) * {"d": 1, "y": 365.25}[age[2]])
    before, status = (datetime.now() - days).isoformat(), DONE
    for place in places(config):
        with open(place.lock_nights()):
            for folder in nights.folders(place):
                there = {*files.names(folder)}
                more = there - KEPT - (SHARED if WHOSE in there else set())
                if more and read_facts(folder).get("last", before) < before:
                    if why := why_not(folder):
                        status = LOOK
                    else:
                        thin_one(folder, more)
                    print(f"{folder} stays: {why}" if why else f"thinned {folder}")
    return status


def why_not(folder: str) -> str:
    known = sums(folder)
    if read_facts(folder)["look"] and not nights.answers(folder):
        return "a look at it is not answered: read its report, then edfclinic seen"
    is_good = NIGHT in known and files.sum_of_file(join(folder, NIGHT)) == known[NIGHT]
    return "" if is_good else f"{nights.NONE} {NIGHT}, or another one: edfclinic verify"


def thin_one(folder: str, more: set[str]) -> None:
    """What it tells and its sums are written first: after a kill the next call removes the rest."""
    facts, known = read_facts(folder), sums(folder)
    if THINNED not in facts:
        making.write_facts(folder, {**facts, THINNED: card_sums(folder)})
    write_sums(folder, {it: known[it] for it in known if it.split("/")[0] not in more},
               FACTS, REPORT)
    for name in sorted(more):
        path = join(folder, name)
        files.remove_tree(path) if os.path.isdir(path) else files.remove(path)
