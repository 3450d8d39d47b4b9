#!/usr/bin/env python3
"""Times rdflib on what update_catalogue.py wrote: update_rdflib.py FOLDER

Its time grows with the square of a text's length, so it is given each change in requests of 500 quads. For each
change it prints the seconds of ConjunctiveGraph.update, then, over an AuditableStore, those of the update and of its
rollback, and how many quads there are before, between and behind. The texts are parsed within these times.
"""
import pathlib
import sys
import time

from rdflib import ConjunctiveGraph
from rdflib.plugins.stores.auditable import AuditableStore
from rdflib.plugins.stores.memory import Memory


def seconds(work):
    begun = time.perf_counter()
    work()
    return time.perf_counter() - begun


def all_of(graph, texts):
    for text in texts:
        graph.update(text)


def main(folder):
    folder = pathlib.Path(folder)
    for change in ("insert", "delete"):
        texts = [part.read_text() for part in sorted(folder.glob(change + "-[0-9]*"))]
        plain = ConjunctiveGraph()
        plain.parse(str(folder / "data"), format="nquads")
        update = seconds(lambda: all_of(plain, texts))
        store = Memory()
        there, audited = ConjunctiveGraph(store), ConjunctiveGraph(AuditableStore(store))
        there.parse(str(folder / "data"), format="nquads")
        before = len(there)
        kept = seconds(lambda: all_of(audited, texts))
        between = len(there)
        rollback = seconds(audited.rollback)
        print("%s %.3f %.3f %.3f %d %d %d" % (change, update, kept, rollback, before, between, len(there)), flush=True)


main(sys.argv[1])
