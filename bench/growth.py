#!/usr/bin/env python3
"""Prints how the time of some queries grows: growth.py [RDFKEEP [N]], where RDFKEEP is the built program and N is 1000 if not given.

First GRAPH in GRAPH, 4, 8, 12 and so on to 48 deep, over two graphs of one quad. Then queries over N subjects, twice and four times as many. Behind each
time stands how many times that of the row before, or of the column before, it is; a query may take two minutes and 8 GB, else it is a dash.
"""
import pathlib
import sys
import tempfile

from shapes_session import Session

IRI = "<http://example.org/%s>"
DEPTHS = range(4, 52, 4)
SHAPES = {
    "two groups, linked": "SELECT * WHERE { { ?a e:p ?b } { ?b e:q ?c } }",
    "a product, cut by the left": "SELECT * WHERE { { e:a1 e:p ?b . ?b e:q ?c } { ?b e:q ?x . ?c e:r ?y } }",
    "a column unbound in one row": "SELECT * WHERE { { ?a e:p ?b OPTIONAL { ?a e:m ?x } } { ?c e:m ?x } }",
    "linked by the last triple": "SELECT * WHERE { ?a e:p ?b . ?c e:r ?d . ?b e:q ?c }",
    "as many graphs as rows": "SELECT * WHERE { ?a e:p ?b GRAPH ?g { ?a e:n ?x } }",
    "ASK of all": "ASK { ?s ?p ?o }",
    "MINUS that shares a variable": "SELECT * WHERE { ?a e:p ?b MINUS { ?a e:m ?x } }",
    "MINUS behind OPTIONAL": "SELECT * WHERE { ?a e:p ?b OPTIONAL { ?a e:m ?x } MINUS { ?c e:m ?x } }",
    "MINUS that shares none": "SELECT * WHERE { ?a e:p ?b MINUS { ?c e:q ?d } }",
    "MINUS over all graphs": "SELECT * WHERE { ?a e:p ?b MINUS { GRAPH ?g { ?a e:n ?x } } }",
}


def quads(count):
    """Chains a p b, b q c, c r d, with a value of each a but the first, and a graph for each."""
    for number in range(count):
        a, b, c, d, graph = (IRI % f"{it}{number}" for it in "abcdg")
        terms = [(a, "p", b), (b, "q", c), (c, "r", d), (a, "n", '"n"', graph)] + [(a, "m", f'"{number}"')] * (number > 0)
        for subject, predicate, *others in terms:
            yield " ".join([subject, IRI % predicate, *others, ".\n"])


def seconds(session, text):
    found = session.best("PREFIX e: <http://example.org/>\n" + text)
    return found and found[0]


def shown(now, before):
    """A time, and how many times the one before it is."""
    return "%10s %7s" % ("-" if now is None else "%.6f" % now, "" if None in (now, before) else "%.1f" % (now / before))


def deep(rdfkeep):
    before = None
    with tempfile.TemporaryDirectory() as folder:
        data = pathlib.Path(folder, "data")
        data.write_text("".join(f"{IRI % 's'} {IRI % 'p'} {IRI % 'o'} {IRI % graph} .\n" for graph in "gh"))
        for depth in DEPTHS:
            graphs = "".join(f"GRAPH ?g{it} {{ " for it in range(depth))
            with Session(rdfkeep, "--data", str(data)) as session:
                now = seconds(session, "ASK { " + graphs + "?s e:p 'x'" + " }" * (depth + 1))
            print("%-28s %s" % (f"GRAPH, {depth} deep", shown(now, before)), flush=True)
            if now is None:
                break
            before = now


def wide(rdfkeep, count):
    print("%-28s" % "", *("%18d" % (count * times) for times in (1, 2, 4)))
    with tempfile.TemporaryDirectory() as folder:
        for name, text in SHAPES.items():
            times = [None]
            for size in (count, 2 * count, 4 * count):
                data = pathlib.Path(folder, str(size))
                if not data.is_file():
                    data.write_text("".join(quads(size)))
                with Session(rdfkeep, "--data", str(data)) as session:
                    times.append(seconds(session, text))
            print("%-28s" % name, *(shown(now, before) for before, now in zip(times, times[1:])), flush=True)


def main(rdfkeep=str(pathlib.Path(__file__).resolve().parent.parent / "rdfkeep"), count="1000"):
    deep(rdfkeep)
    wide(rdfkeep, int(count))


if __name__ == "__main__":
    main(*sys.argv[1:])
