#!/usr/bin/env python3
"""Writes a script of many documents of Turtle into the current folder, with what the program has to answer.

    turtle_texts.py fronts      each front of some documents: it is read where a statement ends, and else refused, Token or Syntax
"""
import sys
from pathlib import Path

# documents in pieces, and how many triples the front that ends with the piece has; a front that ends elsewhere is no document
DOCUMENTS = [
    [("", 0), ("<s> <p> 1.", 1), (" ", 1), ('_:a <p> ( [] ( "x" ) ), _:a.', 9)],
    [
        ("", 0),
        ("@prefix ex: <http://e/> .", 0),
        ("\n", 0),
        ("\n", 0),
        ("ex:s a ex:C ;\n    ex:p 1.", 2),
        ('5,\n        "Hi"@EN ;\n    ex:q [ ex:r true ] .', 5),
        ("\n", 5),
    ],
]


def fronts():
    script, answers = "%mark start\n", "ok\n"
    for pieces in DOCUMENTS:
        text, read = "", {}
        for piece, triples in pieces:
            text += piece
            read[len(text)] = triples
        for size in range(len(text) + 1):
            script += f"%load turtle\n{text[:size]}\n%end\n%rollback start\n"
            # the end of the body lies on the line behind its last
            last = text[:size].count("\n") + 2
            triples = read.get(size, 0)
            answers += rf"ok \+{triples} -0" if size in read else rf"refused: (Token|Syntax) line [1-{last}]"
            answers += f"\nok \\+0 -{triples}\n"
    Path("script").write_text(script + "%print\n")
    Path("stdout.like").write_text(answers + "ok 0\n")


if __name__ == "__main__":
    {"fronts": fronts}[sys.argv[1]]()
