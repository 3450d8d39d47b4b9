#!/usr/bin/env python3
"""Writes a script of many or of long filters into the current folder, with what the program has to answer.

    filter_texts.py logic      `||`, `&&` and `!` of true, false and an error (SPARQL 1.1 Query, section 17.2)
    filter_texts.py pairs      `=`, `!=`, `<` and their like on all pairs of twelve terms, and sameTerm
    filter_texts.py chains     chains of 10,000 operands
    filter_texts.py prefixes   each prefix of some queries with a FILTER: it is refused by a fault that has a name, and the whole is answered

The tables below are written from the standard. T is true, F false, E an error: a filter lets T pass, and the negation of one F.
"""
import sys
from pathlib import Path

from query_texts import FAULT, as_expressions

XSD = "http://www.w3.org/2001/XMLSchema#"
OPERANDS = {"T": "true", "F": "false", "E": "?unbound"}
# section 17.2: a row for each left side, a column for each right side, in the order T F E
OR = {"T": "TTT", "F": "TFE", "E": "TEE"}
AND = {"T": "TFE", "F": "FFF", "E": "EFE"}
NOT = {"T": "F", "F": "T", "E": "E"}

TERMS = [
    "<http://e/i>",  # an IRI
    "_:b",  # a blank node
    '"1"',  # a string
    '"1"@en',  # a tagged string
    f'"1"^^<{XSD}integer>',
    f'"01"^^<{XSD}integer>',  # padded
    f'"{"9" * 40}"^^<{XSD}integer>',  # huge
    f'"one"^^<{XSD}integer>',  # ill-formed
    f'"true"^^<{XSD}boolean>',
    f'"1"^^<{XSD}boolean>',
    f'"yes"^^<{XSD}boolean>',  # ill-formed
    f'"1.0"^^<{XSD}decimal>',
]
EQUAL = [
    "TFFFFFFFFFFF",
    "FTFFFFFFFFFF",
    "FFTEEEEEEEEE",
    "FFETEEEEEEEE",
    "FFEETTEEEEEE",
    "FFEETTEEEEEE",
    "FFEEEETEEEEE",
    "FFEEEEETEEEE",
    "FFEEEEEETTEE",
    "FFEEEEEETTEE",
    "FFEEEEEEEETE",
    "FFEEEEEEEEET",
]
LESS = [
    "EEEEEEEEEEEE",
    "EEEEEEEEEEEE",
    "EEFEEEEEEEEE",
    "EEEEEEEEEEEE",
    "EEEEFFEEEEEE",
    "EEEEFFEEEEEE",
    "EEEEEEEEEEEE",
    "EEEEEEEEEEEE",
    "EEEEEEEEFFEE",
    "EEEEEEEEFFEE",
    "EEEEEEEEEEEE",
    "EEEEEEEEEEEE",
]


def answers(pattern, expression, truth):
    """The queries that tell whether an expression is true, false or an error, and their answers."""
    for text, passing in [(f"({expression})", "T"), (f"(!({expression}))", "F")]:
        yield f"ASK {{ {pattern}FILTER{text} }}", "true" if truth == passing else "false"


def write_script(load, pairs):
    script = "".join(f"%query\n{query}\n%end\n" for query, _ in pairs)
    Path("script").write_text((f"%load nquads\n{''.join(load)}%end\n" if load else "") + script)
    Path("stdout").write_text((f"ok +{len(load)} -0\n" if load else "") + "".join(f"{answer}\nok 1\n" for _, answer in pairs))


def logic():
    pairs = []
    for left, x in OPERANDS.items():
        pairs += answers("", f"!{x}", NOT[left])
        for place, (right, y) in enumerate(OPERANDS.items()):
            pairs += answers("", f"{x} || {y}", OR[left][place])
            pairs += answers("", f"{x} && {y}", AND[left][place])
            # an error among others decides nothing that one of them decides
            pairs += answers("", f"{x} || {y} || true", "T")
            pairs += answers("", f"{x} && {y} && false", "F")
    write_script([], pairs)


def pairs():
    load = [f"<http://e/{number}> <http://e/v> {term} .\n" for number, term in enumerate(TERMS)]
    found = []
    for a in range(len(TERMS)):
        for b in range(len(TERMS)):
            pattern = f"<http://e/{a}> <http://e/v> ?a . <http://e/{b}> <http://e/v> ?b . "
            found += answers(pattern, "?a = ?b", EQUAL[a][b])
            found += answers(pattern, "?a != ?b", NOT[EQUAL[a][b]])
            found += answers(pattern, "?a < ?b", LESS[a][b])
            found += answers(pattern, "?b > ?a", LESS[a][b])
            found += answers(pattern, "?a >= ?b", NOT[LESS[a][b]])
            found += answers(pattern, "?b <= ?a", NOT[LESS[a][b]])
            found += answers(pattern, "sameTerm(?a, ?b)", "T" if a == b else "F")
    write_script(load, found)


def chains():
    many = 10_000
    write_script(
        [],
        [
            ("ASK { FILTER(true" + " && true" * many + ") }", "true"),
            ("ASK { FILTER(true" + " && true" * many + " && false) }", "false"),
            ("ASK { FILTER(?x" + " || ?x" * many + " || true) }", "true"),
            ("ASK { FILTER(0" + " + 1" * many + f" = {many}) }}", "true"),
            ("ASK { FILTER(0" + " +1" * many + f" = {many}) }}", "true"),
            ("ASK { FILTER(0" + " - 1" * many + f" = -{many}) }}", "true"),
            ("ASK { FILTER(1" + " * 1" * many + " = 1) }", "true"),
            ("ASK { FILTER(1" + " * -1" * many + " = 1) }", "true"),
            ("ASK { " + "FILTER(true) " * many + "}", "true"),
            ("ASK { " + "FILTER(true) " * many + "FILTER(false) }", "false"),
        ],
    )


QUERIES = {
    'SELECT ?s ?o WHERE { ?s <http://e/p> "a" OPTIONAL { ?s <http://e/q> ?o FILTER(?o < 5) } }': "?s\t?o\nok 0",
    "SELECT ?s WHERE { ?s <http://e/p> ?o FILTER(?o + 1 = ?o + 1) }": "?s\nok 0",
    "ASK { FILTER(01 = 1) }": "true\nok 1",
    "ASK { FILTER(sameTerm(01, 1)) }": "false\nok 1",
    "ASK { FILTER(!(?x && false)) }": "true\nok 1",
    "ASK { FILTER(3 -1 = 2) }": "true\nok 1",
    "ASK { FILTER(-170141183460469231731687303715884105728 < 0) }": "true\nok 1",
    'ASK { FILTER(datatype("a"@en) = <http://www.w3.org/1999/02/22-rdf-syntax-ns#langString>) }': "true\nok 1",
    "ASK { FILTER(-(-170141183460469231731687303715884105728) = 0 || ?x) }": "false\nok 1",
    'SELECT ?s WHERE { ?s <http://e/p> ?o { FILTER(?o = "1") } }': "?s\nok 0",
    "PREFIX é: <http://e/> ASK { FILTER isUri(é:a) . FILTER(bound(?é) || $x >= -1.5e+3 * +2 -.5 || lang('''水'''@EN-us) != \"\\\"\"^^é:%41) }": "false\nok 1",
}


def prefixes():
    texts, found = [], []
    for query, answer in QUERIES.items():
        text = query.encode()
        texts += [text[:size] for size in range(len(text) + 1)]
        found += [FAULT + "\n"] * len(text) + [as_expressions(answer)]
    Path("script").write_bytes(b"".join(b"%query\n" + text + b"\n%end\n" for text in texts))
    Path("stdout.like").write_text("".join(found))


if __name__ == "__main__":
    {"logic": logic, "pairs": pairs, "chains": chains, "prefixes": prefixes}[sys.argv[1]]()
