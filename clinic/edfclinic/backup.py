"""backup: copies the nights that the backup lacks, and compares all that are there."""
import os

from . import files, text
from .config import Config
from .files import join
from .nights import FACTS, NIGHT, REPORT, SEEN, differing, folders, sums, write_sums
from .place import Place, places
from .text import DONE, LOOK, Trouble


ANEW = (FACTS, REPORT, SEEN)    # looks are answered, and nights of an evening tell of each other


def keep(place: Place, folder: str, root: str) -> list[str]:
    """Copies a night that is not there, while nobody forgets it; whole, it gets its name."""
    target = join(root, os.path.relpath(folder, place.archive))
    if files.exists(target):
        with open(place.lock_nights()):
            wanted, there = sums(folder), sums(target)
            anew = [it for it in ANEW if it in wanted and wanted[it] != there.get(it)]
            for name in anew if wanted.get(NIGHT) == there.get(NIGHT) else []:
                files.replace(join(target, name), (files.read(join(folder, name)) or "").encode())
                write_sums(target, sums(target), name)
        return differing(target, folder)
    new = join(os.path.dirname(target), ".new")
    with open(place.lock_nights()), files.whole_or_none(new):
        files.remove_tree(new)
        for above in (root, os.path.dirname(target), new):
            files.make_folder(above)
        for name in files.below(folder):
            files.make_folder(os.path.dirname(join(new, name)))
            files.copy_file(join(folder, name), join(new, name))
        wrong = differing(new, folder)
        if not wrong:
            files.sync_tree(new)
            files.rename(new, target)
            print(f"copied {folder}")
    return wrong


def backup(config: Config) -> int:
    failed = "it was broken off"
    try:
        if not os.path.ismount(config.backup or "/dev/null"):
            raise Trouble(f"the backup {config.backup!r} is not mounted; nothing was copied")
        wrong = [said for place in places(config) for folder in folders(place)
                 for said in keep(place, folder, join(config.backup, place.name))]
        print("".join(f"{said}\n" for said in wrong), end="")
        failed = f"{len(wrong)} files of the backup differ" if wrong else ""
        return LOOK if wrong else DONE
    except (Trouble, OSError) as why:
        # Kept, and told to everybody, without the name of a file, which has the patient's code.
        failed = why.strerror or "trouble" if isinstance(why, OSError) else text.why(why)
        raise Trouble(text.why(why)) from None
    finally:
        told = {"at": text.now(), "failed": failed}
        files.replace(join(config.data, "backup.json"), files.as_json(told))
