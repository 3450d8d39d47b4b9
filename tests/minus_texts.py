#!/usr/bin/env python3
"""Writes a script of many or of large requests with MINUS into the current folder, with what the program has to answer.

    minus_texts.py prefixes    each prefix of the texts of minus.table that are read: it is refused by a fault that has a name and a
                               line of the text, or read where an update may end there, and is taken back
    minus_texts.py members     10,000 MINUSes one behind another, 500 of other variables each, one of 10,000 UNIONs,
                               one of a chain of 500 triple patterns
    minus_texts.py rows        100,000 rows less those of as many that share a variable, share none, or share one that is often unbound
"""
import re
import sys
from pathlib import Path

from query_texts import write_queries
from update_texts import NAMES

S, T, P, Q, R, Z = (f"<http://e/{name}>" for name in "stpqrz")
BODIES = re.compile(r"(?ms)^(%query|%update)\n(.*?)\n%end$")


def numbers(most):
    return "|".join(map(str, range(1, most + 1)))


def texts():
    """The requests of minus.table, but those of Syntax, of bytes that are no text and of many brackets: the command, and the text."""
    cases = re.split(r"(?m)^== (?!Syntax)", Path(__file__).with_name("minus.table").read_text(encoding="utf-8").partition("\n== ")[2])
    found = [it for case in cases for it in BODIES.findall(re.split(r"(?m)^(?:-- |== )", case)[0])]
    return [(command, text) for command, text in found if "⟨" not in text and text.count("{") < 50]


def prefixes():
    script, answers = [f'%load nquads\n{S} {P} "1" .\n{T} {P} "1" .\n{S} {Q} "1" .\n%end\n%commit\n%mark start\n'], [r"ok \+3 -0", "ok", "ok"]
    for command, text in texts():
        whole = text.encode()
        # (a query is read at its end alone, where a table has its answer)
        for size in range(len(whole)):
            fault = rf"refused: ({'|'.join(NAMES)}) line ({numbers(whole[:size].count(10) + 2)})"
            script.append(f"{command}\n{whole[:size].decode(errors='ignore')}\n%end\n")
            answers.append(fault if command == "%query" else rf"ok \+\d+ -\d+|refused: (MissingGraph|GraphExists)|{fault}")
        script.append("%rollback start\n%changes\n")
        answers += [r"ok \+\d+ -\d+", "ok 0"]
    Path("script").write_text("".join(script))
    Path("stdout.like").write_text("".join(answer + "\n" for answer in answers))


def members():
    many, long = 10_000, 500
    chain = [f"<http://e/{i}> {R} <http://e/{i + 1}>" for i in range(long)]
    path = " . ".join(f"?v{i} {R} ?v{i + 1}" for i in range(long))
    nothing = f"?s\n{S}\n{T}\nok 2"
    write_queries(
        [f'{S} {P} "1"', f'{T} {P} "1"', f'{S} {Q} "1"', *chain],
        [
            (f"SELECT ?s {{ ?s {P} ?o " + "MINUS { } " * many + "}", nothing),
            (f"SELECT ?s {{ ?s {P} ?o " + f"MINUS {{ ?s {Q} ?o }} " * many + "}", f"?s\n{T}\nok 1"),
            (f"SELECT ?s {{ ?s {P} ?o " + "".join(f"MINUS {{ ?y{i} {Q} ?x{i} }} " for i in range(many // 20)) + "}", nothing),
            (f"SELECT ?s {{ ?s {P} ?o MINUS {{ {{ ?s {Z} ?o }}" + f" UNION {{ ?s {Z} ?o }}" * (many - 1) + " } }", nothing),
            (f"SELECT ?s {{ ?s {P} ?o MINUS {{ {{ ?s {Q} ?o }}" + f" UNION {{ ?s {Q} ?o }}" * (many - 1) + " } }", f"?s\n{T}\nok 1"),
            (f"SELECT ?v{long} {{ ?v{long - 1} {R} ?v{long} MINUS {{ {path} }} }}", f"?v{long}\n" + "".join(f"<http://e/{it}>\n" for it in sorted(map(str, range(1, long)))) + f"ok {long - 1}"),
            (f"SELECT ?s {{ ?s {P} ?o MINUS {{ {path} }} }}", nothing),
        ],
    )


def rows():
    many = 100_000
    quads = [f'<http://e/{i}> {P} "{i}"' for i in range(many)] + [f'<http://e/{i}> {Q} "{i}"' for i in range(0, 2 * many, 2)]
    quads += [f"<http://e/{i}> {R} {S}" for i in range(0, many, 1000)]
    few = many // 1000
    odd = f"<http://e/{many - 1}>"
    left = lambda shown, taken: f"SELECT {shown} {{ ?a {P} ?b MINUS {{ {taken} }} FILTER(?a = {odd}) }}"
    write_queries(
        quads,
        [
            # half of the rows go, by one variable and by both
            (left("?a", f"?a {Q} ?c"), f"?a\n{odd}\nok 1"),
            (left("?a", f"?a {Q} ?b"), f"?a\n{odd}\nok 1"),
            (f"ASK {{ ?a {P} ?b MINUS {{ ?a {Q} ?c }} FILTER(?a = <http://e/0>) }}", "false\nok 1"),
            # none goes: nothing is shared, or what is shared differs
            (left("?a", f"?c {Q} ?d"), f"?a\n{odd}\nok 1"),
            (left("?a", f"?b {Q} ?a"), f"?a\n{odd}\nok 1"),
            # all go
            (f"SELECT * {{ ?a {P} ?b MINUS {{ ?a {P} ?c }} }}", "?a\t?b\nok 0"),
            # what OPTIONAL leaves unbound is no common variable
            (f"SELECT ?a {{ ?a {P} ?b OPTIONAL {{ ?a {R} ?c }} MINUS {{ ?d {R} ?c }} FILTER(?a = <http://e/0> || ?a = {odd}) }}", f"?a\n{odd}\nok 1"),
            (f"SELECT ?a {{ ?a {R} ?b MINUS {{ ?d {Q} ?e OPTIONAL {{ ?d {R} ?b }} }} }}", "?a\nok 0"),
            (f"SELECT ?a {{ ?a {R} ?b MINUS {{ ?d {Q} ?e OPTIONAL {{ ?e {R} ?b }} }} FILTER(?a = <http://e/0>) }}", "?a\n<http://e/0>\nok 1"),
            (f"SELECT ?b {{ ?a {R} ?b MINUS {{ ?c {Q} ?d }} }}", "?b\n" + f"{S}\n" * few + f"ok {few}"),
        ],
    )


if __name__ == "__main__":
    {"prefixes": prefixes, "members": members, "rows": rows}[sys.argv[1]]()
