#!/usr/bin/env python3
"""Writes a script of many or of large queries into the current folder, with what the program has to answer.

    query_texts.py words       each word that is outside the profile, in three spellings, at three places
    query_texts.py prefixes    each prefix of some queries, and of one with a byte that is no text behind it: it is refused by a
                               fault that has a name, and the whole query is answered
    query_texts.py members     groups of 10,000 members: groups, OPTIONALs, GRAPHs, parts of a UNION
    query_texts.py nested      90 GRAPHs in one another over two graphs, by one variable and by 90
    query_texts.py triples     basic graph patterns of 2,000 triple patterns, over a chain of as many nodes and round a ring, and 2,000 columns
"""
import sys
from pathlib import Path

from update_texts import WORDS

S, P, Q, G, Z = "<http://e/s>", "<http://e/p>", "<http://e/q>", "<http://e/g>", "<http://e/z>"
# queries, and their whole answers over a dataset of one empty graph G
QUERIES = {
    f"SELECT ?s WHERE {{ {{ ?s {P} ?o }} UNION {{ ?s {Q} ?o }} }}": "?s\nok 0",
    f"SELECT DISTINCT ?s WHERE {{ {{ ?s {P} ?o }} UNION {{ ?s {Q} ?o }} }}": "?s\nok 0",
    "SELECT ?g WHERE { GRAPH ?g { } }": f"?g\n{G}\nok 1",
    f"SELECT ?s WHERE {{ ?s {P} [ ] }}": "?s\nok 0",
    "SELECT * WHERE { }": "\n\nok 1",
    f"SELECT ?x WHERE {{ GRAPH {Z} {{ }} }}": "?x\nok 0",
    f'ASK {{ _:x {P} "1" OPTIONAL {{ _:x {Q} "2" }} }}': "refused: BlankReused line 1",
    f"SELECT ?s ?o WHERE {{ ?s {P} \"a\" OPTIONAL {{ ?s {Q} ?o }} }}": "?s\t?o\nok 0",
    "ASK" + "{" * 100 + "}" * 100: "true\nok 1",
    "ASK" + "{" * 101 + "}" * 101: "refused: TooDeep line 1",
    f"PREFIX é: <http://e/> BASE <http://e/a/> SELECT ?é $x WHERE {{ é:s a <../é#\\u00E9> ; ?p ( [ ] _:x.y -1.5e+3 ) , '''\"\\t水'''@EN-us , \"\\\"\"^^é:%41\\- . # 水\n "
    "OPTIONAL { GRAPH $g { [ é:q TRUE ] } } . { } UNION { } UNION { ?x ?p () } }": "?é\t?x\nok 0",
}
NAMES = "NotUtf8 Token NotInProfile TooDeep Syntax UnknownPrefix Relative BlankReused".split()
FAULT = rf"refused: ({'|'.join(NAMES)}) line [1-3]"


def as_expressions(answer):
    """The lines of an answer as regular expressions."""
    signs = {ord(sign): "\\" + sign for sign in "?.+*()[]{}|^$\\"}
    return "".join(line.translate(signs) + "\n" for line in answer.split("\n"))


def words():
    bodies, answers = [], []
    for word in WORDS:
        bodies += [f"\n{word}", f"ASK {{ }}\n)] {word.lower()}<x>", f"SELECT ?x {{ # {word}\n?x p:o {word.capitalize()} }}"]
        answers += ["refused: NotInProfile line 2\n"] * 3
    script = "".join(f"%query\n{body}\n%end\n" for body in bodies)
    Path("script").write_text(script)
    Path("stdout").write_text("".join(answers))


def prefixes():
    texts, answers = [], []
    for query, answer in QUERIES.items():
        text = query.encode()
        texts += [text[:size] for size in range(len(text) + 1)]
        answers += [FAULT + "\n"] * len(text) + [as_expressions(answer)]
    last = query.encode()
    texts += [last[:size] + b"\xff" for size in range(len(last))]
    answers += ["refused: NotUtf8 line [12]\n"] * len(last)
    script = b"".join(b"%query\n" + text + b"\n%end\n" for text in texts)
    Path("script").write_bytes(f"%update\nCREATE GRAPH {G}\n%end\n".encode() + script + b"%changes\n")
    Path("stdout.like").write_text("ok \\+0 -0\n" + "".join(answers) + as_expressions(f"+ graph {G}\nok 1"))


def write_queries(quads, pairs):
    """A script of queries over these lines of quads, and their answers."""
    load = "".join(f"{quad} .\n" for quad in quads)
    script = "".join(f"%query\n{query}\n%end\n" for query, _ in pairs)
    Path("script").write_text(f"%load nquads\n{load}%end\n" + script)
    Path("stdout").write_text(f"ok +{len(quads)} -0\n" + "".join(answer + "\n" for _, answer in pairs))


def members():
    many = 10_000
    write_queries(
        [f"{S} {P} <http://e/o> {G}"],
        [
            ("ASK { " + "{ } " * many + "}", "true\nok 1"),
            ("SELECT ?s { " + f"OPTIONAL {{ ?s {Q} ?o }} " * many + "}", "?s\n\nok 1"),
            (f"SELECT ?s {{ " + f"GRAPH {G} {{ ?s {P} ?o }} " * many + "}", f"?s\n{S}\nok 1"),
            ("SELECT ?x { { }" + " UNION { }" * (many - 1) + " }", "?x\n" + "\n" * many + f"ok {many}"),
            ("SELECT DISTINCT ?x { { }" + " UNION { }" * (many - 1) + " }", "?x\n\nok 1"),
        ],
    )


def nested():
    many = 90
    inside = lambda name, group: "".join(f"GRAPH {name(i)} {{ " for i in range(many)) + group + " }" * many
    pattern, other = f"?s {P} ?o", f"?s {P} {Z}"
    write_queries(
        [f"{S} {P} <http://e/1> {G}", f"{S} {P} <http://e/2> {Z}"],
        [
            (f"SELECT ?g ?o {{ {inside(lambda i: '?g', pattern)} }}", f"?g\t?o\n{G}\t<http://e/1>\n{Z}\t<http://e/2>\nok 2"),
            (f"SELECT ?o {{ {inside(lambda i: G if i else '?g', pattern)} }}", "?o\n<http://e/1>\n<http://e/1>\nok 2"),
            (f"ASK {{ {inside(lambda i: f'?g{i}', other)} }}", "false\nok 1"),
        ],
    )


def triples():
    many = 2_000
    chain = [f"<http://e/{i}> {P} <http://e/{i + 1}>" for i in range(many)]
    ring = [f"<http://e/{i}> {Q} <http://e/{(i + 1) % 3}>" for i in range(3)]
    path = f"<http://e/0> {Q} ?v1 . " + " . ".join(f"?v{i} {Q} ?v{i + 1}" for i in range(1, many))
    names = sorted(f"v{i}" for i in range(1, many + 1))
    nodes = [f"<http://e/{int(name[1:]) % 3}>" for name in names]
    write_queries(
        chain + ring,
        [
            ("ASK { " + " . ".join(chain) + " }", "true\nok 1"),
            ("ASK { " + " . ".join(chain + [chain[0][:-1] + "x>"]) + " }", "false\nok 1"),
            (f"SELECT ?v{many} {{ {path} }}", f"?v{many}\n<http://e/{many % 3}>\nok 1"),
            (f"SELECT * {{ {path} }}", "\t".join("?" + name for name in names) + "\n" + "\t".join(nodes) + "\nok 1"),
        ],
    )


if __name__ == "__main__":
    {"words": words, "prefixes": prefixes, "members": members, "nested": nested, "triples": triples}[sys.argv[1]]()
