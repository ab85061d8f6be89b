"""recode: a night anew under another code. The old one goes to `replaced`, with all that came."""
import os
from typing import Any

from . import files, making, nights, programs
from .config import Config
from .files import join
from .nights import NIGHT, PIECES, check_code, find, free_name, name_of, used_names
from .place import check
from .text import DONE, Trouble, Wrong, spell


def recode(config: Config, night: str, code: str) -> int:
    check_code(code)
    check(config.data, config.nights)
    place, old = find(config, night)
    name = os.path.basename(old)
    place.lock_nights()
    if files.exists(place.morning):
        raise Trouble(f"a morning is unfinished: call edfclinic morning {place.name} first")
    before: dict[str, Any] = {"look": [], **nights.read_facts(old)}
    before.pop(nights.THINNED, None)        # the new one has its view and picture
    if before.get("patient") == spell(code):
        raise Wrong(f"{night} has this code already")
    if not files.exists(join(old, NIGHT)):
        raise Wrong(f"{night} has no {NIGHT}, which would get the code")
    with making.new_folder(place) as new:
        others = files.from_json(join(old, nights.WHOSE)) or {}
        for it in files.names(old):
            if it == NIGHT or it.startswith(PIECES) and it not in others:
                words = ["edfmend", join(old, it), it, "--set-patient", code]
                ran = programs.run(words, new, join(old, it), (0, 1))
                if ran.status:
                    raise Wrong(f"{name}: {ran.why}")
        wanted = files.sum_of_file(join(new, NIGHT))
        there = [it for it in nights.folders(place, False) if nights.sums(it).get(NIGHT) == wanted
                 and files.read(join(it, nights.REPLACES)) == f"{name}\n"]
        told = {**before, "patient": spell(code), "card": [], "refused": [], "differs": [],
                "look": [it for it in before["look"] if not it.startswith(nights.NONE)],
                "night": free_name(name_of(name[:10], spell(code)), used_names(place)),
                "recoded": True}
        files.replace(join(new, nights.REPLACES), f"{name}\n".encode())
        made = nights.read_facts(there[0]) if there else making.finish(place, new, told)
    files.remove_tree(new)
    making.tell_others(place, made)
    making.tell_others(place, before, False)
    print(nights.line(made))
    files.make_folder(place.replaced)
    files.rename(old, join(place.replaced, name))
    return DONE
