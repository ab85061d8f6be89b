"""What `edfmend` made of a file, looked at without it: by the plain model, and by what signals and
annotations mean."""
from pathlib import Path

from . import meaning, measure, model
from .checks import Lost


class Mender:
    """The program, over files of one folder."""

    def __init__(self, program: Path, folder: Path):
        self.program, self.folder = program, folder
        self.given, self.made = folder / "in.edf", folder / "out.edf"

    def mend(self, data: bytes, *words: str) -> measure.Ran:
        self.made.unlink(missing_ok=True)
        self.given.write_bytes(data)
        return measure.ran(self.program, "in.edf", "out.edf", *words, folder=self.folder)

    def left(self) -> list[str]:
        """What is in the folder but the file that was given."""
        return sorted(path.name for path in self.folder.iterdir() if path != self.given)

    def look(self, data: bytes, ran: measure.Ran) -> bytes:
        """What was made of that file; it must be a fragment with the same samples, or nothing must
        be left."""
        if self.given.read_bytes() != data:
            raise Lost("the file that was given is another")
        if ran.status != 0:
            if ran.status != 1 or self.left():
                raise Lost(f"{ran}, and {self.left()} is left")
            return b""
        if self.left() != ["out.edf"]:
            raise Lost(f"{self.left()} is left")
        made = self.made.read_bytes()
        refused = model.refusal(made)
        if refused:
            raise Lost(f"what was made is refused: {refused}")
        meaning.look(data, made)
        return made
