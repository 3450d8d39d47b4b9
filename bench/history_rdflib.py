#!/usr/bin/env python3
"""Times the rollback of rdflib's AuditableStore over what bench/history.sh does: history_rdflib.py FOLDER [COUNT..]

It prints lines as history_session.py does. The quads of the load and of the updates are added one by one, with no text of SPARQL
read, over a store that begins empty. Each operation is looked for in the list of those before it, so that their time grows with
the square of their number; what is timed is the rollback.
"""
import pathlib
import sys
import time

from rdflib import ConjunctiveGraph, Literal, URIRef
from rdflib.plugins.stores.auditable import AuditableStore
from rdflib.plugins.stores.memory import Memory

NAME = URIRef("http://purl.org/goodrelations/v1#name")


def seconds(work):
    begun = time.perf_counter()
    work()
    return time.perf_counter() - begun


def add(graph, number):
    graph.add((URIRef(f"http://example.org/more/{number}"), NAME, Literal(str(number))))


def main(folder, *counts):
    for count in map(int, counts):
        store = Memory()
        audited = ConjunctiveGraph(AuditableStore(store))
        for number in range(count):
            add(audited, number)
        took = seconds(audited.rollback)
        if len(ConjunctiveGraph(store)):
            raise SystemExit("rdflib: the rollback left quads")
        print(f"{count} updates: %rollback, s", took, flush=True)


main(*sys.argv[1:])
