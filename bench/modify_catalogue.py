#!/usr/bin/env python3
"""Writes what bench/modify.sh measures into a folder: modify_catalogue.py FOLDER COUNT SEED

    data       COUNT quads of the default graph as N-Quads, without blank nodes: eight for each subject, one of these its class
    rename     an update that gives all of one class, every fiftieth subject, another class
    back       the same the other way
    renamed    the number of these
"""
import pathlib
import random
import sys

ITEM = "<http://example.org/item/%d>"
TERM = "<http://purl.org/goodrelations/v1#%s>"
TYPE = "<http://www.w3.org/1999/02/22-rdf-syntax-ns#type>"
CLASS = "<http://shop.example.org/class/%s>"
WORDS = "blue green small large oak steel lamp table chair clock cotton woollen light round".split()


def quads(source, count):
    """The lines, no two of them alike: their texts have numbers."""
    for number in range(count):
        subject = ITEM % (number // 8)
        if number % 8 == 0:
            name = "A" if number // 8 % 50 == 0 else "C%d" % source.randrange(20)
            yield "%s %s %s .\n" % (subject, TYPE, CLASS % name)
        else:
            name = '"%s %d"@en' % (" ".join(source.choice(WORDS) for _ in range(3)), number)
            value = source.choice([name, '"%d"' % number, ITEM % number])
            yield "%s %s %s .\n" % (subject, TERM % source.choice(["name", "offers", "isSimilarTo"]), value)


def main(folder, count, seed):
    source, folder = random.Random(int(seed)), pathlib.Path(folder)
    lines = list(quads(source, int(count)))
    renamed = sum(line.endswith("%s %s .\n" % (TYPE, CLASS % "A")) for line in lines)
    source.shuffle(lines)
    (folder / "data").write_text("".join(lines))
    (folder / "renamed").write_text("%d\n" % renamed)
    for name, old, new in (("rename", "A", "B"), ("back", "B", "A")):
        words = (CLASS % old, CLASS % new, CLASS % old)
        (folder / name).write_text("DELETE { ?s a %s } INSERT { ?s a %s } WHERE { ?s a %s }\n" % words)


main(*sys.argv[1:])
