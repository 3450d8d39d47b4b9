#!/usr/bin/env python3
"""Writes what bench/update.sh measures into a folder: update_catalogue.py FOLDER COUNT SEED

    data          COUNT quads as N-Quads, without blank nodes
    insert        INSERT DATA of COUNT other quads
    delete        DELETE DATA of the quads of data
    insert-000 .. delete-000 ..    the same in requests of 500 quads each, for those whom a long text takes hours
"""
import pathlib
import random
import sys

ITEM = "<http://example.org/item/%d>"
GRAPH = "<http://shop.example.org/%d>"
TERM = "<http://purl.org/goodrelations/v1#%s>"
WORDS = "blue green small large oak steel lamp table chair clock cotton woollen light round".split()


def quads(source, count, first):
    """Quads by graph, no two of them alike: their texts have numbers."""
    graphs = {}
    for number in range(first, first + count):
        subject = ITEM % (number // 8)
        name = '"%s %d"@en' % (" ".join(source.choice(WORDS) for _ in range(3)), number)
        value = source.choice([name, '"%d"' % number, ITEM % number])
        graph = GRAPH % source.randint(1, 50) if source.randrange(2) else ""
        graphs.setdefault(graph, []).append("%s %s %s" % (subject, TERM % source.choice(["name", "offers", "isSimilarTo"]), value))
    return graphs


def operation(words, graphs):
    """The quads as data of an operation."""
    blocks = []
    for graph, triples in sorted(graphs.items()):
        text = " .\n".join(triples)
        blocks.append("GRAPH %s {\n%s }" % (graph, text) if graph else text + " .")
    return "%s {\n%s\n}\n" % (words, "\n".join(blocks))


def write(folder, name, words, graphs):
    (folder / name).write_text(operation(words, graphs))
    alone = [(graph, triple) for graph, triples in sorted(graphs.items()) for triple in triples]
    for start in range(0, len(alone), 500):
        part = {}
        for graph, triple in alone[start : start + 500]:
            part.setdefault(graph, []).append(triple)
        (folder / ("%s-%03d" % (name, start // 500))).write_text(operation(words, part))


def main(folder, count, seed):
    source, folder, count = random.Random(int(seed)), pathlib.Path(folder), int(count)
    there = quads(source, count, 0)
    lines = ["%s %s.\n" % (triple, graph + " " if graph else "") for graph, triples in there.items() for triple in triples]
    source.shuffle(lines)
    (folder / "data").write_text("".join(lines))
    write(folder, "insert", "INSERT DATA", quads(source, count, count))
    write(folder, "delete", "DELETE DATA", there)


main(*sys.argv[1:])
