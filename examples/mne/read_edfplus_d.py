"""Reads an EDF+D night, such as an export with gaps, as one Raw of MNE, each sample at its instant.

    from read_edfplus_d import read_edfplus_d
    raw = read_edfplus_d("night.edf")       # zeros in the gaps; missing=float("nan"): NaN there

    python3 read_edfplus_d.py night.edf     # shows what it has

It needs edfruns: in PATH, or where EDFRUNS says. README.md has the rest.
"""
import os
import re
import subprocess
import sys
import tempfile
from datetime import datetime, timedelta, timezone
from fractions import Fraction

import mne
import numpy as np

EPOCH = datetime(1970, 1, 1, tzinfo=timezone.utc)
LINE = re.compile(r"(run-\d+\.edf) \d+ records=\d+ first=(\S{19})(\S*) seconds=(\S+)")
NOTE = re.compile(rb"([+-][\d.]+)(?:\x15([\d.]+))?\x14([^\0\x14]+)\x14\0")


def runs_of(path, folder) -> list:
    """Each run of a night: its file, the instant of its first sample and its seconds, exactly."""
    edfruns, whole = os.environ.get("EDFRUNS", "edfruns"), os.path.join(folder, "by-onset.edf")
    with open(whole, "wb") as out:
        subprocess.run([edfruns, "canonical", "--by-onset", os.path.abspath(path)], stdout=out,
                       check=True)
    told = subprocess.run([edfruns, "split", whole, "run"], cwd=folder, stdout=subprocess.PIPE,
                          check=True).stdout
    return [(os.path.join(folder, name),
             int(datetime.fromisoformat(f"{second}+00:00").timestamp()) + Fraction(rest or 0),
             Fraction(seconds)) for name, second, rest, seconds in LINE.findall(told.decode())]


def notes_of(path) -> list:
    """The annotations of a run's file, from its last signal, since MNE cuts those that reach out of
    the run. Their onsets count from the second in which the run begins."""
    with open(path, "rb") as file:
        count = int(file.read(256)[252:])
        head = file.read(256 * count)
    sizes = [int(head[at:at + 8]) for at in range(216 * count, 224 * count, 8)]
    data = np.memmap(path, "<i2", "r", 256 * (count + 1)).reshape(-1, sum(sizes))
    return [(Fraction(onset.decode()), float(seconds or 0), text.decode())
            for onset, seconds, text in NOTE.findall(data[:, -sizes[-1]:].tobytes())]


def read_edfplus_d(path, missing: float = 0.0) -> mne.io.RawArray:
    with tempfile.TemporaryDirectory() as folder:
        files, firsts, seconds = zip(*runs_of(path, folder))
        raws = [mne.io.read_raw_edf(file, verbose="error") for file in files]
        rate = Fraction(raws[0].n_times) / seconds[0]
        begins = [((first - firsts[0]) * rate + Fraction(1, 2)) // 1 for first in firsts]
        ends = [begin + raw.n_times for begin, raw in zip(begins, raws)]
        data = np.full((len(raws[0].ch_names), ends[-1]), missing)
        for begin, end, raw in zip(begins, ends, raws):
            data[:, begin:end] = raw.get_data()
        notes = [(float(first // 1 + onset - firsts[0]), lasts, text)
                 for file, first in zip(files, firsts) for onset, lasts, text in notes_of(file)]
    notes += [(float(end / rate), float((begin - end) / rate), "BAD_ACQ_SKIP")
              for end, begin in zip(ends, begins[1:]) if begin > end]
    raw = mne.io.RawArray(data, raws[0].info, verbose="error")
    raw.set_meas_date(EPOCH + timedelta(microseconds=round(firsts[0] * 10**6)))
    return raw.set_annotations(mne.Annotations(*zip(*notes), orig_time=raw.info["meas_date"])
                               if notes else None)


if __name__ == "__main__":
    night = read_edfplus_d(sys.argv[1])
    print(night.info, night, night.annotations, sep="\n")
