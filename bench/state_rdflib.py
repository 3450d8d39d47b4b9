#!/usr/bin/env python3
"""Times rdflib's parse and serialize of N-Quads on what bench/state.sh wrote: state_rdflib.py FOLDER

It prints a line for each: user seconds, wall seconds, and the most memory of the process so far, in kibibytes.
"""
import pathlib
import resource
import sys
import time

from rdflib import ConjunctiveGraph


def measured(name, work):
    begun, used = time.perf_counter(), time.process_time()
    work()
    spent, used = time.perf_counter() - begun, time.process_time() - used
    print(name, used, spent, resource.getrusage(resource.RUSAGE_SELF).ru_maxrss)


def main(folder):
    folder, graph = pathlib.Path(folder), ConjunctiveGraph()
    measured("load", lambda: graph.parse(str(folder / "data"), format="nquads"))
    measured("save", lambda: graph.serialize(str(folder / "rdflib.nq"), format="nquads"))


main(sys.argv[1])
