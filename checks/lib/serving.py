"""A client of `edfserve`, and the lines that it prints of its own."""
import os
import subprocess
from pathlib import Path
from subprocess import PIPE

NO_COMMAND = "no such command\n"


def status(number: int) -> str:
    return f"status {number}\n"


def is_outside(name: str) -> str:
    return f"{name} is outside of the folder\n"


class Client:
    """A session over a pipe, that waits for each answer."""

    def __init__(self, program: Path, folder: Path, *words, added: dict = None):
        self.child = subprocess.Popen([program, *words, "s.db"], cwd=folder, stdin=PIPE,
                                      stdout=PIPE, stderr=PIPE,
                                      env={**os.environ, **(added or {})})

    def send(self, line: str) -> None:
        self.child.stdin.write(line.encode() + b"\n")
        self.child.stdin.flush()

    def answer(self) -> str:
        """The lines of one answer, its status among them; what came, where the session ended."""
        lines = []
        while True:
            line = self.child.stdout.readline().decode()
            lines.append(line)
            if not line or line.startswith("status "):
                return "".join(lines)

    def ask(self, line: str) -> str:
        self.send(line)
        return self.answer()

    def try_to_ask(self, line: str) -> str:
        """An answer, or none where the session has ended."""
        try:
            return self.ask(line)
        except BrokenPipeError:
            return ""

    def memory(self, name: str) -> int:
        """A line of the system's on its memory, in bytes."""
        text = Path(f"/proc/{self.child.pid}/status").read_text()
        return 1024 * int(text.split(f"{name}:")[1].split()[0])

    def peak(self) -> int:
        """The most memory that it had."""
        return self.memory("VmHWM")

    def held(self) -> int:
        """The memory that it has now."""
        return self.memory("VmRSS")

    def end(self) -> tuple:
        """Ends its input, if it has not ended itself: its status, and what else it wrote."""
        try:
            out, err = self.child.communicate()
        except BrokenPipeError:
            out, err = self.child.stdout.read(), self.child.stderr.read()
            self.child.wait()
        return self.child.returncode, out.decode(), err.decode()
