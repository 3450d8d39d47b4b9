#!/usr/bin/env python3
"""Writes N-Quads, or N-Triples, as a catalogue of things for sale has them: python3 catalogue.py LINES SEED [triples] > FILE"""
import random
import sys

LINES = int(sys.argv[1]) if len(sys.argv) > 1 else 1_000_000
SEED = int(sys.argv[2]) if len(sys.argv) > 2 else 1
HAS_GRAPHS = sys.argv[3:] != ["triples"]

ITEM = "<http://example.org/item/%d>"
GRAPH = "<http://shop.example.org/%d>"
TERM = "<http://purl.org/goodrelations/v1#%s>"
XSD = "<http://www.w3.org/2001/XMLSchema#%s>"
WORDS = ("blue green small large oak steel lamp table chair clock cotton woollen caf\u00e9 "
         "stra\u00dfe \\\"best\\\" new old\\nand\\tworn heavy light round").split(" ")
TAGS = ("en", "de", "fr", "en-GB", "pt-BR")


def text(source):
    return " ".join(source.choice(WORDS) for _ in range(source.randint(1, 4)))


def fields(source, item):
    """The predicate and the object of one statement."""
    kind = source.randrange(8)
    if kind == 0:
        return TERM % "name", '"%s"@%s' % (text(source), source.choice(TAGS))
    if kind == 1:
        return TERM % "description", '"%s"' % text(source)
    if kind == 2:
        return TERM % "hasCurrencyValue", '"%d.%02d"^^%s' % (source.randint(1, 999), source.randint(0, 99), XSD % "decimal")
    if kind == 3:
        return TERM % "amountOfThisGood", '"%d"^^%s' % (source.randint(0, 5000), XSD % "integer")
    if kind == 4:
        return TERM % "isSimilarTo", ITEM % source.randint(1, 200_000)
    if kind == 5:
        return TERM % "offers", "_:offer%d" % source.randint(1, 100_000)
    if kind == 6:
        return TERM % "validFrom", '"20%02d-%02d-%02d"^^%s' % (
            source.randint(0, 25), source.randint(1, 12), source.randint(1, 28), XSD % "date")
    return "<http://www.w3.org/1999/02/22-rdf-syntax-ns#type>", TERM % "ProductOrServiceModel"


def main():
    source = random.Random(SEED)
    out = open(sys.stdout.fileno(), "w", encoding="utf-8", newline="\n", closefd=False)
    for line in range(LINES):
        item = line // 8 + 1
        subject = ITEM % item if source.randrange(10) else "_:offer%d" % source.randint(1, 100_000)
        predicate, value = fields(source, item)
        if HAS_GRAPHS and source.randrange(2):
            out.write("%s %s %s %s .\n" % (subject, predicate, value, GRAPH % source.randint(1, 50)))
        else:
            out.write("%s %s %s .\n" % (subject, predicate, value))
    out.flush()


main()
