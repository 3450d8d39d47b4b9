#!/usr/bin/env python3
"""Writes a script of many updates into the current folder, with what the program has to answer.

    update_texts.py words       each word that is outside the profile, in three spellings, at three places
    update_texts.py prefixes    each prefix of some texts, and of some of them with a byte that is no text behind it:
                                it is read, or refused by a fault that has a name
"""
import sys
from pathlib import Path

WORDS = """SERVICE LOAD INTO USING FROM GROUP BY HAVING ORDER LIMIT OFFSET REDUCED CONSTRUCT DESCRIBE BIND VALUES UNDEF EXISTS
NOT IN AS COUNT SUM MIN MAX AVG SAMPLE GROUP_CONCAT SEPARATOR REGEX LANGMATCHES REPLACE COALESCE IF STRLEN SUBSTR UCASE
LCASE CONTAINS STRSTARTS STRENDS CONCAT ABS CEIL FLOOR ROUND RAND NOW IRI URI BNODE STRDT STRLANG ISNUMERIC""".split()

G, H, S, P, X = "<http://e/g>", "<http://e/h>", "<http://e/s>", "<http://e/p>", "<http://e/x>"
TEXTS = [
    f"INSERT DATA {{ GRAPH {G} {{ {S} {P} 1 }} }}",
    f"CREATE GRAPH {G} ; CREATE GRAPH {G}",
    f"CREATE GRAPH {G} ; CREATE SILENT GRAPH {G}",
    f"MOVE {G} TO {G}",
    f"COPY DEFAULT TO {H}",
    f"INSERT DATA {{ {S} {P} 1 }}",
    f'DELETE DATA {{ {S} {P} "x" }} ; INSERT DATA {{ GRAPH {G} {{ {S} {P} "y" }} }}',
    f'INSERT DATA {{ _:x {P} "1" }}',
    f"INSERT DATA {{ GRAPH {G} {{ }} }}",
    "DROP ALL",
    f"DROP SILENT GRAPH {H}",
    f"COPY {H} TO DEFAULT",
    f'INSERT DATA {{ _:x {P} "1" }} ; INSERT DATA {{ _:x {P} "2" }}',
    f'DELETE DATA {{ _:x {P} "1" }}',
    f'INSERT DATA {{ ?s {P} "1" }}',
    f'INSERT DATA {{ "a" {P} "b" }}',
    "CREATE GRAPH <g>",
    f"LOAD {X}",
    f"PREFIX é: <http://e/> BASE <http://e/a/> INSERT DATA {{ é:s a <../é#\\u00E9> ; é:p ( [ ] _:x.y -1.5e+3 ) , '''\"\\t水'''@EN-us , \"\\\"\"^^é:%41\\- . # 水\n GRAPH $g {{ }} . é:s é:p TRUE }} ;\r\nADD SILENT GRAPH é:g TO <> ; CLEAR NAMED ;",
]
NAMES = "NotUtf8 Token NotInProfile TooDeep Syntax UnknownPrefix Relative BlankInDelete VariableInData LiteralSubject BlankReused".split()
READ = r"ok \+\d+ -\d+"
ANSWER = rf"{READ}|refused: (({'|'.join(NAMES)}) line [1-4]|MissingGraph|GraphExists)"


def words():
    bodies, answers = [], []
    for word in WORDS:
        bodies += [f"\n{word}", f"CREATE GRAPH {G} ;\nCREATE GRAPH {G}) ]{word.lower()}<x>", f"INSERT DATA {{ {S} # {word}\n{word.capitalize()} p:o }}"]
        answers += ["refused: NotInProfile line 2\n"] * 3
    script = "".join(f"%update\n{body}\n%end\n" for body in bodies)
    Path("script").write_text(script + "%graphs\n")
    Path("stdout").write_text("".join(answers) + "ok 0\n")


def prefixes():
    texts = []
    for text in TEXTS:
        text = text.encode()
        texts += [text[:size] for size in range(len(text) + 1)]
    last = TEXTS[-1].encode()
    texts += [last[:size] + b"\xff" for size in range(len(last))]
    # whatever is read is taken back
    script = b"".join(b"%update\n" + text + b"\n%end\n%rollback start\n" for text in texts)
    Path("script").write_bytes(b"%mark start\n" + script + b"%print\n%graphs\n")
    Path("stdout.like").write_text("ok\n" + f"{ANSWER}\n{READ}\n" * len(texts) + "ok 0\nok 0\n")


if __name__ == "__main__":
    {"words": words, "prefixes": prefixes}[sys.argv[1]]()
