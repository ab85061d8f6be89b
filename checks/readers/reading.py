"""What other programs read of a file: MNE, BioSig and EDFlib. The signals are of 16 bits and a
tenth of a microvolt a step."""
import json
import sys
import warnings
from dataclasses import dataclass, field
from datetime import datetime, timedelta
from pathlib import Path

from checks.lib import measure

try:
    import mne
    import numpy
except ImportError:
    sys.exit("this needs python3-mne, and Debian's own python3 (/usr/bin/python3) to run it")

LOW, HIGH = -3276.8, 3276.7
LIMITS = (str(LOW), str(HIGH), "-32768", "32767")
EPOCH = datetime(1985, 1, 1)
MNE = "MNE " + mne.__version__


@dataclass
class Content:
    """What a reader reads of a file: digital samples by signal, when it begins, the start of each
    data record, and each annotation's onset, duration and text. Times are seconds; all but `start`
    count from there."""
    start: float                # from 1985-01-01 00:00:00
    signals: list
    times: list
    notes: list
    warned: list = field(default_factory=list)


def digital(physical) -> numpy.ndarray:
    return numpy.rint((physical - LOW) / (HIGH - LOW) * 65535 - 32768).astype(int)


def since_epoch(moment: datetime) -> float:
    return (moment - EPOCH).total_seconds()


def written_by(*words, **options) -> str:
    """What a reader writes of a file; a fault where it refuses it."""
    ran = measure.ran(*words, **options)
    if ran.status:
        raise ValueError(ran.err.decode().strip() or f"status {ran.status}")
    return ran.out.decode(errors="replace")     # BioSig writes on behind a transducer's 80 bytes


def by_mne(path: Path, samples: tuple) -> Content:
    """A signal at a time, since MNE brings signals of several rates to the highest."""
    signals, warned = [], set()
    with warnings.catch_warnings(record=True) as caught:
        warnings.simplefilter("always")
        for n in range(len(samples)):
            raw = mne.io.read_raw_edf(path, include=[f"EEG channel {n + 1}"], preload=True,
                                      verbose="warning")
            signals.append(digital(raw.get_data()[0] * 1e6))
        warned.update(str(each.message) for each in caught)
    count = len(signals[0]) // samples[0]
    times = [raw.times[n * samples[-1]] for n in range(count)]
    notes = [(note["onset"], note["duration"], note["description"]) for note in raw.annotations]
    return Content(since_epoch(raw.info["meas_date"].replace(tzinfo=None)), signals, times, notes,
                sorted(warned))


def stamp(text: str) -> datetime:
    """A time as BioSig writes it: seconds may be 60."""
    minute, seconds = text.rsplit(":", 1)
    return datetime.strptime(minute, "%Y-%m-%d %H:%M") + timedelta(seconds=float(seconds))


def by_biosig(path: Path, folder: Path, samples: tuple) -> Content:
    """The same by `save2gdf`: samples as text, events as JSON. Where no event has the start of
    each data record, they follow each other from the start of the recording on."""
    made = folder / "ascii.asc"
    written_by("save2gdf", "-f=ASCII", path, made)
    signals = [digital(numpy.fromstring((folder / f"ascii.a{n + 1:02}").read_text(), sep="\n"))
               for n in range(len(samples))]
    written = written_by("save2gdf", "-JSON", path)
    said = json.loads(written[written.index("{"):], strict=False)
    begun, times, notes = stamp(said["StartOfRecording"]), [], []
    for event in said.get("EVENT", []):
        at = (stamp(event["TimeStamp"]) - begun).total_seconds()
        if event["TYP"] == "0x7ffe":
            times.append(at)
        else:
            notes.append((at, event["DUR"], event["Description"]))
    if not times:
        seconds = said["NumberOfSamples"] / said["Samplingrate"] / said["NumberOfRecords"]
        times = [n * seconds for n in range(said["NumberOfRecords"])]
    return Content(since_epoch(begun), signals, times, notes)


def by_edflib(path: Path, folder: Path, samples: tuple, dump: Path) -> Content:
    """The same by dump.c, which is compiled to `dump`."""
    made = folder / "samples"
    head, *lines = written_by(dump, path, made).splitlines()
    count, begun, fraction, lasts = head.split(" ")
    edges = numpy.cumsum([int(count) * size for size in samples])
    parts = numpy.split(numpy.fromfile(made, numpy.int32), edges)
    if parts.pop().size:
        raise ValueError("there are more samples than the data records have")
    notes = [line.split("\t", 2) for line in lines]
    return Content(since_epoch(datetime.fromisoformat(begun)) + int(fraction) / 1e7, parts,
                [n * int(lasts) / 1e7 for n in range(int(count))],
                [(int(onset) / 1e7, float(duration or 0), text) for onset, duration, text in notes])
