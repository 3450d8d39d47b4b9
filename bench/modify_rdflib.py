#!/usr/bin/env python3
"""Times rdflib on what modify_catalogue.py wrote: modify_rdflib.py FOLDER

It prints the seconds of Graph.update, then, over an AuditableStore, those of the update, of its rollback, and of the update
made again, each the best of five, and how many subjects the class has before, behind the update, behind the rollback and
behind the update that is made again.
"""
import pathlib
import sys
import time

from rdflib import Graph, URIRef
from rdflib.namespace import RDF
from rdflib.plugins.stores.auditable import AuditableStore
from rdflib.plugins.stores.memory import Memory

CLASS = "http://shop.example.org/class/"


def seconds(work):
    begun = time.perf_counter()
    work()
    return time.perf_counter() - begun


def renamed(graph):
    return sum(1 for _ in graph.subjects(RDF.type, URIRef(CLASS + "A")))


def main(folder):
    folder = pathlib.Path(folder)
    rename, back = (folder / "rename").read_text(), (folder / "back").read_text()
    plain = Graph()
    plain.parse(str(folder / "data"), format="nt")
    rounds = []
    for _ in range(5):
        rounds.append([seconds(lambda: plain.update(rename))])
        plain.update(back)
    store, name = Memory(), URIRef("http://example.org/data")
    there, audited = Graph(store, name), Graph(AuditableStore(store), name)
    there.parse(str(folder / "data"), format="nt")
    for times in rounds:
        counts = [renamed(there)]
        for work in (lambda: audited.update(rename), audited.rollback, lambda: audited.update(rename)):
            times.append(seconds(work))
            counts.append(renamed(there))
        audited.rollback()
    print(*(min(times) for times in zip(*rounds)), *counts)


main(sys.argv[1])
