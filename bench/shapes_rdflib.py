#!/usr/bin/env python3
"""Times rdflib on what shapes_catalogue.py wrote: shapes_rdflib.py FOLDER NAME..

It prints a line for each query: its name, the processor seconds of Dataset.query up to the last row, the best of three, and how many rows there are (of
ASK one); dashes where it takes over two minutes.
"""
import pathlib
import signal
import sys
import time

from rdflib import Dataset

LIMIT = 120
GRAPH = " <http://example.org/graph/"


class Late(Exception):
    """A query takes too long."""


def stop(*signal_of):
    raise Late


def seconds(data, text):
    """The time for a query, and how many rows there are."""
    begun = time.process_time()
    rows = len(list(data.query(text)))
    return time.process_time() - begun, rows


def loaded(text):
    """The dataset of these lines. (The reader of N-Quads puts lines without a graph into one of its own.)"""
    data, lines = Dataset(), text.splitlines(True)
    data.default_context.parse(data="".join(it for it in lines if GRAPH not in it), format="nt")
    data.parse(data="".join(it for it in lines if GRAPH in it), format="nquads")
    return data


def main(folder, *names):
    folder = pathlib.Path(folder)
    data = loaded((folder / "data").read_text())
    signal.signal(signal.SIGALRM, stop)
    for name in names:
        text = (folder / f"{name}.rq").read_text()
        signal.alarm(LIMIT)
        try:
            first = seconds(data, text)
            print(name, *min([first, *(seconds(data, text) for _ in range(2 if first[0] < 20 else 0))]), flush=True)
        except (Late, MemoryError):
            print(name, "- -", flush=True)
        finally:
            signal.alarm(0)


if __name__ == "__main__":
    main(*sys.argv[1:])
