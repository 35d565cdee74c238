#!/usr/bin/env python3
"""What rtnl-record makes of captures that are made by hand, whole and damaged: the tables of
made_pcap.py, made_rtmon.py, made_dumps.py, made_traces.py and made_requests.py, and the long lines
of made_long.py. The last line is 'N passed, M failed', and the status is 1 where a case failed.
"""
import os
import sys
from typing import Iterator, List, Tuple

sys.dont_write_bytecode = True
sys.path.insert(0, f"{os.path.dirname(os.path.realpath(__file__))}/../helpers")
import made_dumps
import made_long
import made_pcap
import made_requests
import made_rtmon
import made_traces
from case import judged
from counting import counted, whole

# The page reads these too; long lines take more time.
TABLES = [made_pcap.cases, made_rtmon.cases, made_dumps.cases, made_traces.cases,
          made_requests.cases]


SECONDS_OF_LONG = 30


def judgements() -> Iterator[Tuple[str, List[str]]]:
    """Each case is a run of the program, most of which is Python's start."""
    is_whole = whole("two of three captures that are made by hand, and long lines")
    for table in TABLES:
        for case in [*table()][::1 if is_whole else 3]:
            yield case.name, judged(case)
    for case in made_long.cases() if is_whole else ():
        yield case.name, judged(case, SECONDS_OF_LONG)


def main() -> int:
    return counted(judgements())


if __name__ == "__main__":
    sys.exit(main())
