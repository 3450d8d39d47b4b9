#!/usr/bin/env python3
"""Times rdflib on what bench/load.sh wrote: load_rdflib.py FOLDER

It prints what load_session.py does where rdflib has its like: the load, a fiftieth more over an AuditableStore, its rollback.
"""
import pathlib
import resource
import sys
import time

from rdflib import ConjunctiveGraph
from rdflib.plugins.stores.auditable import AuditableStore
from rdflib.plugins.stores.memory import Memory


def seconds(work):
    begun = time.perf_counter()
    work()
    return time.perf_counter() - begun


def main(folder):
    folder, store = pathlib.Path(folder), Memory()
    there, audited = ConjunctiveGraph(store), ConjunctiveGraph(AuditableStore(store))
    print("load, s", seconds(lambda: there.parse(str(folder / "data"), format="nquads")))
    print("memory behind the load, MB", resource.getrusage(resource.RUSAGE_SELF).ru_maxrss * 1024 / 1e6)
    print("load of 2 %, s", seconds(lambda: audited.parse(str(folder / "more"), format="nquads")))
    print("its undo again, s", seconds(audited.rollback))


main(sys.argv[1])
