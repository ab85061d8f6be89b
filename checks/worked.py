"""Answers worked out by hand for small files, compared with the plain model, and with a program
where one is named.

    python3 -m checks.worked [--program PATH]

Each file is built field by field and byte by byte; what stands beside it was worked out on paper
from the rules (answers/). Files whose number of data records is unknown (a count of -1), files
with several annotations signals and startdates have the most answers. A program is not asked where
the answer needs a store of a few records only, or a part of the model.
"""
from checks.answers import counts, dates, records, signals
from checks.lib import arguments
from checks.lib.by_hand import Worked
from checks.lib.checks import end


def main() -> None:
    given = arguments.Parser(__doc__).parse_args()      # where none is named, none is chosen
    worked = Worked(given.program)
    for part in (counts, signals, records, dates):
        for answers in part.ALL:
            answers(worked)
    end(worked.done, worked.failed)


if __name__ == "__main__":
    main()
