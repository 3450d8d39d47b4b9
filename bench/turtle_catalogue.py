#!/usr/bin/env python3
"""Writes Turtle as a catalogue of things for sale has it: python3 turtle_catalogue.py TRIPLES SEED > FILE"""
import random
import sys

TRIPLES = int(sys.argv[1]) if len(sys.argv) > 1 else 1_000_000
SEED = int(sys.argv[2]) if len(sys.argv) > 2 else 1

HEAD = """@prefix rdf: <http://www.w3.org/1999/02/22-rdf-syntax-ns#> .
@prefix gr: <http://purl.org/goodrelations/v1#> .
@prefix xsd: <http://www.w3.org/2001/XMLSchema#> .
@prefix item: <http://example.org/item/> .
@prefix shop: <http://shop.example.org/> .

"""
WORDS = ("blue green small large oak steel lamp table chair clock cotton woollen caf\u00e9 "
         "stra\u00dfe \\\"best\\\" new old\\nand\\tworn heavy light round").split(" ")
TAGS = ("en", "de", "fr", "en-GB", "pt-BR")


def text(source):
    return " ".join(source.choice(WORDS) for _ in range(source.randint(1, 4)))


def names(source):
    """A label in several languages, and how many triples it is."""
    tags = source.sample(TAGS, source.randint(1, 3))
    return "gr:name " + ", ".join('"%s"@%s' % (text(source), tag) for tag in tags), len(tags)


def similar(source):
    others = [source.randint(1, 200_000) for _ in range(source.randint(1, 3))]
    return "gr:isSimilarTo " + ", ".join("item:%d" % other for other in others), len(others)


def price(source):
    """A node without a name: the triple that points at it, and its own."""
    return ("gr:hasPriceSpecification [ a gr:UnitPriceSpecification ; gr:hasCurrencyValue %d.%02d ;\n"
            "        gr:hasCurrency \"EUR\" ]" % (source.randint(1, 999), source.randint(0, 99))), 4


def parts(source):
    """A list: the triple that points at it, and two for each cell."""
    length = source.randint(0, 4)
    return "gr:hasParts ( %s)" % "".join("item:%d " % source.randint(1, 200_000) for _ in range(length)), 1 + 2 * length


def field(source):
    kind = source.randrange(10)
    if kind <= 1:
        return names(source)
    if kind == 2:
        return 'gr:description """%s\n%s"""' % (text(source), text(source)), 1
    if kind == 3:
        return "gr:amountOfThisGood %d" % source.randint(0, 5000), 1
    if kind == 4:
        return "gr:weight %d.%dE%d" % (source.randint(1, 9), source.randint(0, 999), source.randint(-3, 3)), 1
    if kind == 5:
        return "gr:isUsed %s" % source.choice(("true", "false")), 1
    if kind == 6:
        return similar(source)
    if kind == 7:
        return price(source)
    if kind == 8:
        return parts(source)
    return 'gr:validFrom "20%02d-%02d-%02d"^^xsd:date' % (source.randint(0, 25), source.randint(1, 12), source.randint(1, 28)), 1


def subject(source, number):
    kind = source.randrange(10)
    if kind == 0:
        return "_:offer%d" % source.randint(1, 100_000)
    if kind == 1:
        return "<http://example.org/other/item?id=%d>" % number
    return "item:%d" % number


def main():
    source = random.Random(SEED)
    out = open(sys.stdout.fileno(), "w", encoding="utf-8", newline="\n", closefd=False)
    out.write(HEAD)
    written = 0
    number = 0
    while written < TRIPLES:
        number += 1
        lines = ["%s a gr:ProductOrServiceModel" % subject(source, number)]
        written += 1
        for _ in range(source.randint(2, 8)):
            line, count = field(source)
            if written + count > TRIPLES:
                break
            lines.append(line)
            written += count
        out.write(" ;\n    ".join(lines) + " .\n")
        if number % 1000 == 0:
            out.write("\n# ---- %d things\n" % number)
    out.flush()


main()
