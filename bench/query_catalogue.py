#!/usr/bin/env python3
"""Writes what bench/query.sh measures into a folder: query_catalogue.py FOLDER COUNT SEED

    data       about COUNT quads of the default graph as N-Triples, without blank nodes: people, documents and subjects
    NAME.rq    the queries, by the names of QUERIES
"""
import pathlib
import random
import sys

PEOPLE, DOCUMENT, SUBJECT = "http://example.org/person/%d", "http://example.org/document/%d", "http://example.org/subject/%d"
TERM = "http://example.org/terms#%s"
INTEGER = "http://www.w3.org/2001/XMLSchema#integer"
TYPE = "http://www.w3.org/1999/02/22-rdf-syntax-ns#type"
WORDS = "blue green small large oak steel lamp table chair clock cotton woollen light round".split()
PREFIXES = "PREFIX t: <http://example.org/terms#>\nPREFIX s: <http://example.org/subject/>\nPREFIX p: <http://example.org/person/>\n"
QUERIES = {
    "star": "SELECT ?d ?title ?year ?person WHERE { ?d t:subject s:7 . ?d t:title ?title . ?d t:year ?year . ?d t:author ?person }",
    "path": "SELECT ?d ?person ?other WHERE { ?d t:subject s:11 . ?d t:author ?person . ?person t:knows ?other }",
    "optional": "SELECT ?person ?name ?mail WHERE { ?person a t:Editor . ?person t:name ?name OPTIONAL { ?person t:mail ?mail } }",
    "filter": "SELECT ?d ?year WHERE { ?d t:year ?year FILTER(?year >= 1990 && ?year < 1992) }",
    "union": "SELECT ?d WHERE { { ?d t:author p:5 } UNION { ?d t:author p:6 } UNION { ?d t:subject s:9 } }",
    "distinct": "SELECT DISTINCT ?field WHERE { ?d t:subject ?subject . ?subject t:broader ?field }",
    "groups": "SELECT ?d ?title ?field WHERE { { ?d t:subject ?s . ?s t:broader s:1 } { ?d t:title ?title . ?d t:year 1995 } }",
    # two thirds of the people have an address
    "minus": "SELECT ?person ?name WHERE { ?person t:name ?name MINUS { ?person t:mail ?mail } }",
    # what they share is unbound in a third of the rows
    "unbound": "SELECT ?person ?mail WHERE { ?person t:name ?name OPTIONAL { ?person t:mail ?mail } MINUS { ?other t:mail ?mail . ?other a t:Person } }",
}


def iri(text):
    return f"<{text}>"


def whole(number):
    return f'"{number}"^^<{INTEGER}>'


def quads(source, count):
    people, documents, subjects = count // 20, count // 7, 200
    name = lambda number: '"%s %d"' % (" ".join(source.choice(WORDS) for _ in range(3)), number)
    for number in range(people):
        person = iri(PEOPLE % number)
        yield person, iri(TYPE), iri(TERM % ("Editor" if number % 20 == 0 else "Person"))
        yield person, iri(TERM % "name"), name(number)
        yield person, iri(TERM % "knows"), iri(PEOPLE % source.randrange(people))
        if number % 3:
            yield person, iri(TERM % "mail"), '"%d@example.org"' % number
    for number in range(subjects):
        subject = iri(SUBJECT % number)
        yield subject, iri(TERM % "broader"), iri(SUBJECT % (number // 10))
        yield subject, iri(TERM % "label"), name(number)
    for number in range(documents):
        document = iri(DOCUMENT % number)
        yield document, iri(TYPE), iri(TERM % "Document")
        yield document, iri(TERM % "title"), name(number)
        yield document, iri(TERM % "year"), whole(1950 + source.randrange(75))
        yield document, iri(TERM % "author"), iri(PEOPLE % source.randrange(people))
        yield document, iri(TERM % "subject"), iri(SUBJECT % source.randrange(subjects))


def main(folder, count, seed):
    source, folder = random.Random(int(seed)), pathlib.Path(folder)
    lines = ["%s %s %s .\n" % it for it in quads(source, int(count))]
    source.shuffle(lines)
    (folder / "data").write_text("".join(lines))
    for name, text in QUERIES.items():
        (folder / f"{name}.rq").write_text(PREFIXES + text + "\n")


if __name__ == "__main__":
    main(*sys.argv[1:])
