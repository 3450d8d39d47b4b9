#!/usr/bin/env python3
"""Writes large documents into the current folder, with what the program has to make of them, known by construction.

    large.py nquads|ntriples|turtle|update convert|print|load|save|restore
    large.py lines|faulty|long-line|cr-lf|objects|statements|terms|brackets|updates|state

The first form makes 10^5 statements by a seeded generator, always the same: long texts, escapes, many labels and
prefixes. `convert` writes the document as data and its canonical lines as stdout; `print` its sorted lines, as the
command %print shows them; `load` a script that loads, undoes and redoes it; `save` the state text of what it makes,
as %state shows it, and `restore` that text as data, too. An update is the data of one INSERT DATA,
which can only be loaded.
The second form makes documents whose size is their only difficulty.
"""
import random
import sys
from pathlib import Path

STATEMENTS = 100_000
RDF = "http://www.w3.org/1999/02/22-rdf-syntax-ns#"
XSD = "http://www.w3.org/2001/XMLSchema#"
WORDS = ["tea", "Wasser", "été", "水", "\U0001F375", "#", "<a:b>"]
WORDS += ["a\tb", 'say "so"', "back\\slash", "line\nend", "end\r"]
TAGS = ["en", "EN-gb", "de", "zh-Hant-TW", "x-A1"]
ESCAPES = str.maketrans({"\n": "\\n", "\r": "\\r", '"': '\\"', "\\": "\\\\"})

# A term is a tuple that sorts as the program sorts terms: a kind, then what is compared.
BLANK, IRI, LITERAL = 0, 1, 2


def iri(text):
    return (IRI, text)


def literal(lexical, datatype=XSD + "string", tag=""):
    return (LITERAL, lexical, RDF + "langString" if tag else datatype, tag)


def written(term):
    """A term's canonical text."""
    if term[0] == BLANK:
        return f"_:b{term[1]}"
    if term[0] == IRI:
        return f"<{term[1]}>"
    _, lexical, datatype, tag = term
    suffix = "@" + tag if tag else "" if datatype == XSD + "string" else f"^^<{datatype}>"
    return f'"{lexical.translate(ESCAPES)}"{suffix}'


class Document:
    """The text, its quads (graph, subject, predicate, object), and the numbers of its labels."""

    def __init__(self, seed):
        self.random = random.Random(seed)
        self.text, self.quads, self.numbers, self.count = [], [], {}, 0
        self.graph = ()  # of the triples to come

    def fresh(self):
        self.count += 1
        return (BLANK, self.count - 1)

    def add(self, subject, predicate, value):
        self.quads.append((self.graph, subject, predicate, value))

    def label(self, name):
        if name not in self.numbers:
            self.numbers[name] = self.fresh()
        return self.numbers[name]

    def lexical(self, unique):
        """A text that no other statement has; some are long."""
        words = self.random.choices(WORDS, k=self.random.choice([1, 3, 9]))
        if self.random.random() < 0.001:
            words *= 500
        return " ".join(words + [str(unique)])

    def spelt(self, lexical):
        """The text with some characters as escapes that needn't be."""
        text = lexical.translate(ESCAPES)
        if self.random.random() < 0.2:
            text = text.replace("\t", "\\t").replace("é", "\\u00E9").replace("\U0001F375", "\\U0001F375")
        return text

    def literal(self, unique):
        """A literal and how it is spelt."""
        lexical = self.lexical(unique)
        text = self.spelt(lexical)
        kind = self.random.randrange(4)
        if kind == 0:
            tag = self.random.choice(TAGS)
            return literal(lexical, tag=tag.lower()), f'"{text}"@{tag}'
        if kind == 1:
            datatype = f"http://e/type/{self.random.randrange(50)}"
            return literal(lexical, datatype), f'"{text}"^^<{datatype}>'
        return literal(lexical), f'"{text}"' + (f"^^<{XSD}string>" if kind == 2 else "")

    def lines(self):
        """The canonical lines, in the order of the document."""
        return [line(quad) for quad in self.quads]

    def sorted_lines(self):
        return [line(quad) for quad in sorted(self.quads)]

    def graphs(self):
        return [graph for (graph,) in sorted({quad[0] for quad in self.quads if quad[0]})]

    def state_lines(self):
        """The lines of the state text."""
        names = [f"#% graph {written(graph)}\n" for graph in self.graphs()]
        return ["#% rdfkeep state 2\n", f"#% next {self.count}\n", *names, *self.sorted_lines()]


def line(quad):
    graph, *terms = quad
    return " ".join(written(term) for term in terms + list(graph)) + " .\n"


def nquads():
    return lines(Document(1), 0.3)


def ntriples():
    return lines(Document(3), 0)


def lines(document, named):
    """A document of lines: its objects differ, so that no quad stands twice. So many parts of it have graph labels."""
    pick = document.random

    def node(names):
        if pick.random() < 0.5:
            name = f"{pick.choice('nN')}{pick.randrange(20_000)}.{pick.choice('xyz:')}{pick.randrange(2)}"
            return lambda: document.label(name), f"_:{name}"
        text = f"http://e/{names}/{pick.randrange(5_000)}#é"
        return lambda: iri(text), f"<{text}>" if pick.random() < 0.9 else f"<{text[:-1]}\\u00e9>"

    for number in range(STATEMENTS):
        subject, subject_text = node("s")
        predicate = f"http://e/p/{pick.randrange(40)}"
        value, value_text = document.literal(number)
        graph, graph_text = node("g") if pick.random() < named else (None, "")
        subject = subject()
        document.quads.append(((graph(),) if graph else (), subject, iri(predicate), value))
        space = pick.choice(["", " ", "\t "])
        end = pick.choice([".", " .", "\t. # " + pick.choice(["é", "<a:b> .", ""])])
        document.text.append(f"{space}{subject_text}{space}<{predicate}>{space}{value_text}{space}{graph_text}{end}")
        document.text.append(pick.choice(["\n", "\r\n", "\n\n", "\n# a comment\n"]))
    return document


def turtle():
    """A document of Turtle, against the base http://e/base/."""
    document = Document(2)
    for prefix in range(300):
        document.text.append(f"@prefix p{prefix}: <http://e/p{prefix}#> .\n")
    triples(document, 0)
    return document


def update():
    """INSERT DATA, against the base http://e/base/, with parts in GRAPH blocks."""
    document = Document(4)
    for prefix in range(300):
        document.text.append(f"{document.random.choice(['PREFIX', 'prefix'])} p{prefix}: <http://e/p{prefix}#>\n")
    document.text.append("INSERT DATA {\n")
    triples(document, 0.3)
    document.text.append("}")
    return document


def triples(document, named):
    """Triples as Turtle and SPARQL have them. So many parts of them stand in GRAPH blocks."""
    pick, text, quads = document.random, document.text, document.quads

    def name():
        prefix, local = pick.randrange(300), pick.randrange(1_000)
        if pick.random() < 0.2:
            text.append(f"<../n{local}>")
            return iri(f"http://e/n{local}")
        text.append(f"p{prefix}:n{local}")
        return iri(f"http://e/p{prefix}#n{local}")

    def collection(subject, predicate):
        text.append("( ")
        size = pick.randrange(1, 4)
        cell = None
        for place in range(size):
            following = document.fresh()
            if cell is None:
                document.add(subject, predicate, following)
            else:
                document.add(cell, iri(RDF + "rest"), following)
            cell = following
            value, value_text = document.literal(len(quads))
            text.append(value_text + " ")
            document.add(cell, iri(RDF + "first"), value)
        document.add(cell, iri(RDF + "rest"), iri(RDF + "nil"))
        text.append(")")

    def thing(subject, predicate, depth):
        kind = pick.randrange(8)
        if kind == 0 and depth < 3:
            text.append("[ ")
            node = document.fresh()
            document.add(subject, predicate, node)
            properties(node, depth + 1)
            text.append(" ]")
        elif kind == 1:
            collection(subject, predicate)
        elif kind == 2:
            number = len(quads)
            document.add(subject, predicate, literal(str(number), XSD + "integer"))
            text.append(str(number))
        else:
            value, value_text = document.literal(len(quads))
            document.add(subject, predicate, value)
            text.append(value_text)

    def properties(subject, depth):
        for place in range(pick.randrange(1, 4)):
            text.append(" ;\n    " if place else " ")
            predicate = name()
            for other in range(pick.randrange(1, 3)):
                text.append(" , " if other else " ")
                thing(subject, predicate, depth)

    while len(quads) < STATEMENTS:
        in_block = named > 0 and pick.random() < named
        if in_block:
            document.graph = (iri(f"http://e/g/{pick.randrange(100)}"),)
            text.append(f"GRAPH {written(document.graph[0])} {{ ")
        if pick.random() < 0.6:
            label = f"n{pick.randrange(20_000)}"
            subject = document.label(label)
            text.append(f"_:{label}")
        else:
            subject = name()
        properties(subject, 0)
        text.append(pick.choice([" .\n", " .\r\n\n", ". # é\n"]))
        if in_block:
            document.graph = ()
            text.append(pick.choice(["}\n", "} .\n"]))


def write(name, text):
    Path(name).write_bytes(text.encode())


def large(form, what):
    document = {"nquads": nquads, "ntriples": ntriples, "turtle": turtle, "update": update}[form]()
    text, count = "".join(document.text), len(document.quads)
    assert count == len(set(document.quads)) and count >= STATEMENTS and len(document.numbers) > 5_000
    if what == "convert":
        write("data", text)
        write("stdout", "".join(document.lines()))
    elif what == "print":
        write("data", text)
        write("stdout", "ok 0\n" + "".join(document.sorted_lines()) + f"ok {count}\n")
    elif what in ("save", "restore"):
        lines = document.state_lines()
        write("data", text if what == "save" else "".join(lines))
        write("stdout", "".join(lines) + f"ok {len(lines)}\n")
    elif what == "load":
        graphs = document.graphs()
        names = "".join(written(graph) + "\n" for graph in graphs) + f"ok {len(graphs)}\n"
        command = "%update" if form == "update" else f"%load {form}"
        write("script", f"{command}\n{text}\n%end\n%graphs\n%undo\n%graphs\n%redo\n%mark all\n%rollback all\n")
        write("stdout", f"ok +{count} -0\n{names}ok +0 -{count}\nok 0\nok +{count} -0\nok\nok +0 -0\n")


def size(what):
    if what in ("lines", "faulty"):
        text = "".join(f'<a:s> <a:p> "{number:06}" .\n' for number in range(STATEMENTS))
        write("data", text + ("<a:s> <a:p>\n.\n" if what == "faulty" else ""))
        write("stdout", text)
    elif what == "long-line":
        text = "x" * 1_500_000
        write("data", f'<a:s> <a:p> "{text}" .\n<a:s> <a:p> "{text}y" .\n<a:s> <a:p>')
        write("stdout", f'<a:s> <a:p> "{text}" .\n<a:s> <a:p> "{text}y" .\n')
        write("stderr", "rdfkeep: refused: Syntax line 3\n")
    elif what == "cr-lf":
        # the CR is the last byte of a piece of 65,536, and the LF the first of the next one
        first = '<a:s> <a:p> "' + "x" * (65_535 - 16) + '" .'
        assert len(first) == 65_535
        write("data", first + "\r\n<a:s> <a:p> <a:o> .\r\n<a:s> .\r\n")
        write("stdout", first + "\n<a:s> <a:p> <a:o> .\n")
        write("stderr", "rdfkeep: refused: Syntax line 3\n")
    elif what == "objects":
        write("data", "<a:s> <a:p> []" + ", []" * 9_999 + " .")
        write("stdout", "".join(f"<a:s> <a:p> _:b{number} .\n" for number in range(10_000)))
    elif what == "statements":
        write("data", "<a:s> <a:p> [] ." * 10_000)
        write("stdout", "".join(f"<a:s> <a:p> _:b{number} .\n" for number in range(10_000)))
    elif what == "terms":
        # around 65,535 bytes, with what stands behind an object, and twice as many; and more than 65,536 predicates
        names = [f"<a:{'n' * (length - 4)}>" for length in (*range(65_530, 65_538), *range(131_065, 131_073), 200_000)]
        triples = [(name, "<a:p>", "<a:o>") for name in names] + [("<a:s>", "<a:p>", name) for name in names]
        triples += [(name, predicate, name) for name in names for predicate in ("<a:p>", "<a:q>")]
        triples += [("<a:s>", f"<a:p{number}>", "<a:o>") for number in (*range(66_000), 0, 65_535, 65_999, 1)]
        text = "".join(f"{subject} {predicate} {object} .\n" for subject, predicate, object in triples)
        write("data", text)
        write("stdout", text)
    elif what == "updates":
        numbers = range(STATEMENTS)
        triples = " .\n".join(f"<a:s> <a:p> {number}" for number in numbers)
        bodies = [
            (" ;\n".join(f"INSERT DATA {{ <a:s> <a:p> {number} }}" for number in range(10_000)), 10_000),
            (" ;\n".join(f"CREATE GRAPH <a:{number}> ; DROP GRAPH <a:{number}>" for number in range(5_000)), 0),
            (f"INSERT DATA {{ {triples} }}", 100_000),
            (f"INSERT DATA {{ {triples} }} ; DELETE DATA {{ {triples} }}", 0),
            (f"INSERT DATA {{ <a:s> <a:p> {', '.join('[]' for _ in numbers)} }}", 100_000),
            (f"INSERT DATA {{ <a:s> <a:p> ( {' '.join(map(str, numbers))} ) }}", 200_001),
            (f"INSERT DATA {{ {' '.join(f'GRAPH <a:g> {{ <a:s> <a:p> {number} }}' for number in numbers)} }}", 100_000),
            (f"INSERT DATA {{ <a:s> {'; '.join(f'<a:p> {number}' for number in numbers)} }}", 100_000),
        ]
        answers = "".join(f"ok +{count} -0\nok +0 -{count}\n" for _, count in bodies)
        script = "".join(f"%update\n{body}\n%end\n%undo\n" for body, _ in bodies)
        write("script", script + "%update\nINSERT DATA {\n" + "(" * 1_000_000 + "\n%end\n%graphs\n")
        write("stdout", answers + "refused: TooDeep line 2\nok 0\n")
    elif what == "state":
        # 1,000,000 lines: half of its names are of graphs without quads
        names = [f"<a:{number:04}>" for number in range(1_000)]
        quads = [f'_:b{number} <a:p> "{number}" {names[number // 1_000]} .\n' for number in range(500_000)]
        lines = ["#% rdfkeep state 2\n", "#% next 500000\n", *(f"#% graph {name}\n" for name in names)]
        lines += [f'<a:{number:06}> <a:p> "x" .\n' for number in range(1_000_000 - len(lines) - len(quads))] + quads
        write("data", "".join(lines))
        write("stdout", "".join(lines) + "ok 1000000\n")
    elif what == "brackets":
        write("data", "<a:s> <a:p>\n" + "(" * 1_000_000)


if __name__ == "__main__":
    large(*sys.argv[1:]) if len(sys.argv) == 3 else size(sys.argv[1])
