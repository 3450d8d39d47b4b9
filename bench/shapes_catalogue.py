#!/usr/bin/env python3
"""Writes what bench/shapes.sh measures into a folder: shapes_catalogue.py FOLDER COUNT SEED

    data       about COUNT quads as N-Quads: nine tenths those of query_catalogue.py, besides a seat of each person but the first, and reviews of
               some documents, in 1,000 graphs
    NAME.rq    the queries, by the names of SHAPES
"""
import pathlib
import random
import sys

from query_catalogue import DOCUMENT, PEOPLE, PREFIXES, QUERIES, TERM, WORDS, iri, quads

GRAPHS = 1000
SHAPES = {
    **QUERIES,
    "nested": "SELECT * WHERE { { ?d t:subject s:7 . ?d t:author ?p } { ?d t:title ?n . ?p t:name ?m } }",
    "behind": "SELECT * WHERE { ?d t:subject s:7 { ?d t:author ?p . ?p t:name ?n } }",
    "optional-union": "SELECT * WHERE { ?d t:subject s:7 OPTIONAL { { ?d t:title ?x } UNION { ?d t:year ?x } } }",
    "optional-twice": "SELECT * WHERE { ?d t:subject s:7 . ?d t:author ?p OPTIONAL { ?p t:knows ?q OPTIONAL { ?q t:mail ?m } } }",
    "union-groups": "SELECT * WHERE { ?d t:subject s:7 . ?d t:author ?p { ?p t:mail ?x } UNION { ?p t:knows ?q . ?q t:mail ?x } }",
    "optional-join": "SELECT * WHERE { { ?p t:name ?n OPTIONAL { ?p t:mail ?m } } { ?p t:knows ?q OPTIONAL { ?p t:mail ?m } } }",
    "optional-alone": "SELECT * WHERE { { ?p t:name ?n OPTIONAL { ?p t:seat ?x } } { ?q t:seat ?x } }",
    "graph-bound": "SELECT * WHERE { GRAPH ?g { d:7 t:review ?x } }",
    "graph-behind": "SELECT * WHERE { ?d t:subject s:7 GRAPH ?g { ?d t:review ?x } }",
    "unlinked": "SELECT * WHERE { ?d t:subject s:7 . ?p t:name ?n . ?d t:author ?p }",
    "ask-all": "ASK { ?s ?p ?o }",
    "ask-join": "ASK { ?d t:author ?p . ?p t:knows ?q . ?q t:mail ?m }",
}


def seats(source, count):
    for number in range(1, count // 20):
        yield iri(PEOPLE % number), iri(TERM % "seat"), '"%d"' % number


def reviews(source, count):
    """A twentieth of the quads, of documents of which each stands in some graphs."""
    documents = max(count // 100, 10)
    for number in range(count // 20):
        words = " ".join(source.choice(WORDS) for _ in range(3))
        graph = iri("http://example.org/graph/%d" % (number % GRAPHS))
        yield iri(DOCUMENT % source.randrange(documents)), iri(TERM % "review"), '"%s %d"' % (words, number), graph


def main(folder, count, seed):
    source, folder = random.Random(int(seed)), pathlib.Path(folder)
    lines = [" ".join(it) + " .\n" for quads_of in (quads, seats, reviews) for it in quads_of(source, int(count))]
    source.shuffle(lines)
    (folder / "data").write_text("".join(lines))
    (folder / "names").write_text(" ".join(SHAPES) + "\n")
    for name, text in SHAPES.items():
        (folder / f"{name}.rq").write_text(PREFIXES + "PREFIX d: <http://example.org/document/>\n" + text + "\n")


if __name__ == "__main__":
    main(*sys.argv[1:])
