#!/usr/bin/env python3
"""Times rdflib on what query_catalogue.py wrote: query_rdflib.py FOLDER NAME..

It prints a line for each query: its name, the processor seconds of Graph.query up to the last row, the best of three, or of one
that takes over five, and how many rows there are.
"""
import pathlib
import sys
import time

from rdflib import Graph


def main(folder, *names):
    folder, graph = pathlib.Path(folder), Graph()
    graph.parse(str(folder / "data"), format="nt")
    for name in names:
        text, rounds = (folder / f"{name}.rq").read_text(), []
        while len(rounds) < 3 and sum(rounds) < 5:
            begun = time.process_time()
            rows = len(list(graph.query(text)))
            rounds.append(time.process_time() - begun)
        print(name, min(rounds), rows)


main(*sys.argv[1:])
