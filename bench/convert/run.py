"""Converts a night of about 195 MB by `edfstore`, by `cat` and by the plain C program, and prints
ratios.

    python3 -m bench.convert.run [COUNT]         best of COUNT runs of each, 7 if left out

Each is run twice: from a file to a file, and from a pipe to a pipe. From file to file `cat` lets
the kernel copy, and no byte passes through it; from pipe to pipe all three read and write. The
outputs of both converters are compared byte for byte. It needs cc and the built program
(bin/edfstore builds it).
"""
import filecmp
import os
import sys
from pathlib import Path

from checks.lib import arguments, measure

HERE = Path(__file__).resolve().parent


def report(title: str, best: dict) -> None:
    print(title)
    for name, seconds in best.items():
        print(f"  {name:10} {seconds:6.3f} s   {seconds / best['cat']:5.2f} x cat   "
              f"{seconds / best['plain C']:5.2f} x plain C")


def main() -> None:
    given = arguments.Parser(__doc__, programs=(), count=7).read()
    measure.need("cc", "cat", "/usr/bin/time")
    with measure.scratch() as name:
        folder = Path(name)
        night = folder / "night.edf"
        measure.done(measure.compiled(HERE / "night.c", folder), out=night)
        commands = {"cat": "cat", "plain C": measure.compiled(HERE / "plain.c", folder),
                    "edfstore": arguments.TOP / "bin/edfstore"}
        outputs = {name: folder / f"{name}.out" for name in commands}
        files, pipes = (dict.fromkeys(commands, float("inf")) for _ in range(2))
        memory = {}
        for _ in range(given.count + 1):    # the first round warms the caches up
            for name, command in commands.items():
                done = measure.timed(command, given=night, out=outputs[name])
                files[name], memory[name] = min(files[name], done.seconds), done.peak
                pipes[name] = min(pipes[name], measure.piped(command, source=night))
        if not filecmp.cmp(outputs["plain C"], outputs["edfstore"], shallow=False):
            sys.exit("the two converters wrote different files")
        size = night.stat().st_size
    print(f"a night of {size / 1e6:.0f} MB, best of {given.count} runs, {os.cpu_count()} "
          "processors")
    report("file to file", files)
    report("pipe to pipe", pipes)
    print("peak memory, by the file's size")
    for name in ("plain C", "edfstore"):
        print(f"  {name:10} {memory[name] / size:5.2f}")


if __name__ == "__main__":
    main()
