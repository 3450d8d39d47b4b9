#!/usr/bin/env python3
"""Writes a script of texts with faults in two places into the current folder, with what the program has to answer.

    first_texts.py turtle|update|query names   a prefix that isn't declared, or a reference without a base, in each pair of
                                               places, and in each place and all those behind it
    first_texts.py turtle|update|query kinds   a fault of each kind in each place, and in all others one of a later kind
    first_texts.py rules                       what a static rule forbids in each pair of places where it may stand

A text below has a place in each line that is a sign alone: * stands for an IRI or a name, & for an IRI, $ for a term. The
line of the first fault is known by construction, and the text without any fault is read.
"""
import sys
from itertools import combinations
from pathlib import Path

TRIPLE = "*\n*\n*\n"

TURTLE = f"""@prefix e:
&
. PREFIX f:
&
{TRIPLE}, "x"^^
*
; ;
*
(
*
(
*
) "y"^^
*
) , [
*
*
;
*
[
*
*
] ] . [
*
*
]
*
*
. (
*
*
)
*
*
. [
*
*
] . BASE
&
"""

QUADS = f"""{{
{TRIPLE}, "x"^^
*
;
*
(
*
[
*
*
] ) GRAPH
*
{{
{TRIPLE}.
{TRIPLE}}}
{TRIPLE}GRAPH
*
{{ }} }} """

GROUP = f"""{{
{TRIPLE}, "x"^^
*
;
*
(
*
[
*
*
] )
{{
{TRIPLE}{{
{TRIPLE}}}
{TRIPLE}}}
{TRIPLE}OPTIONAL {{
{TRIPLE}FILTER(
*
=
*
)
{TRIPLE}}}
MINUS {{
{TRIPLE}MINUS {{ GRAPH
*
{{ }} }}
FILTER(
*
!=
*
)
{TRIPLE}}}
GRAPH
*
{{ GRAPH
*
{{
{TRIPLE}}}
{TRIPLE}}}
{{
{TRIPLE}}} UNION {{
{TRIPLE}}} UNION {{
{TRIPLE}}}
FILTER(
*
+
*
-
*
*-
*
+1 *-
*
=
*
-
*
|| !
*
&& ( -
*
) <=
*
|| sameTerm(
*
,
*
) || str(
*
) != lang(
*
) || datatype(
*
+
*
) = "x"^^
*
)
FILTER isIRI(
*
)
{TRIPLE}}}
"""

DATA = f"""PREFIX e:
&
INSERT DATA {QUADS}; CREATE SILENT GRAPH
*
; CLEAR SILENT GRAPH
*
; DROP SILENT GRAPH
*
; COPY SILENT
*
TO
*
; MOVE SILENT GRAPH
*
TO GRAPH
*
; ADD SILENT
*
TO
*
; DELETE DATA {{ GRAPH
*
{{ }}
{TRIPLE}}} ; BASE
&
"""

MODIFY = f"""PREFIX e:
&
WITH
*
DELETE {{
{TRIPLE}GRAPH
*
{{
{TRIPLE}}}
{TRIPLE}}} INSERT {{ GRAPH
*
{{
{TRIPLE}}}
{TRIPLE}}} WHERE {{
{TRIPLE}{{
{TRIPLE}}}
{TRIPLE}OPTIONAL {{ GRAPH
*
{{
{TRIPLE}}}
{TRIPLE}}}
MINUS {{
{TRIPLE}FILTER(
*
)
{TRIPLE}}}
{{
{TRIPLE}}} UNION {{
{TRIPLE}}}
FILTER(
*
+
*
=
*
)
{TRIPLE}}} ; DELETE WHERE {{ GRAPH
*
{{
{TRIPLE}}}
{TRIPLE}}} ; BASE
&
"""

QUERY = f"""PREFIX e:
&
ASK {GROUP}"""

# the command, what it answers to a text without a fault, and the texts
READERS = {
    "turtle": ("%load turtle", r"ok \+\d+ -\d+", [TURTLE]),
    "update": ("%update", r"ok \+\d+ -\d+", [DATA, MODIFY]),
    "query": ("%query", "(true|false)\nok 1", [QUERY]),
}
# of each kind, in their order, what stands in a place
FAULTS = {
    "NotUtf8": b"<a:x> # \xff",
    "Token": b"~",
    "NotInProfile": b"Limit",
    "Syntax": b"TO",
    "UnknownPrefix": b"p:x",
    "Relative": b"<x>",
}

# of each static rule a text, what may stand in its places, and what may not: of several the one that is due by the line
BLOCKS = """{
$
<a:p>
$
,
$
GRAPH <a:g> {
$
<a:p>
$
.
$
<a:p>
$
} GRAPH <a:h> {
$
<a:p>
$
}
$
<a:p>
$
} """
DELETIONS = f"""INSERT DATA {{ _:x <a:p> [ ] }} ; DELETE DATA {BLOCKS}; WITH <a:g> DELETE {BLOCKS}
INSERT {{ _:x ?p _:y }} WHERE {{ ?x ?p [ ] }} ; DELETE WHERE {BLOCKS}; DELETE DATA {BLOCKS}"""
TERMS = QUADS.replace('"x"^^', "").replace("*", "$")
VARIABLES = f"""INSERT DATA {TERMS}; INSERT {{ ?s ?p ?o }} WHERE {{ ?s ?p ?o }} ; DELETE DATA {{ GRAPH
$
{{ }} GRAPH
$
{{
$
$
$
}}
$
$
$
}} ; DELETE WHERE {{ ?s ?p ?o }} ; INSERT DATA {{
$
$
$
}}"""
SUBJECT = "$\n<a:p> 1 , ( 1 ) , [ <a:p> true ] .\n"
SUBJECTS = f"""INSERT DATA {{
{SUBJECT}{SUBJECT}GRAPH <a:g> {{
{SUBJECT}{SUBJECT}}}
{SUBJECT}}} ; INSERT {{ "x" ?p ?o }} WHERE {{ 1 ?p ?o }} ; DELETE DATA {{ GRAPH <a:g> {{
$
<a:p> 1 }}
$
<a:p> 1 }} ; DELETE WHERE {{ true ?p ?o }} ; INSERT DATA {{
{SUBJECT}}}"""
LABEL = "$\n<a:p> 1\n"
LABELS = f"""INSERT DATA {{ _:x <a:p> _:y }} ; INSERT DATA {{
$
<a:p>
$
GRAPH <a:g> {{
$
<a:p> [ <a:p>
$
] }}
$
<a:p> ( 1
$
) }} ; INSERT {{ _:x <a:p> _:y }} WHERE {{ _:x ?p _:y . {{
$
<a:p>
$
, (
$
( 1
$
) ) , [ <a:p>
$
] }} UNION {{
{LABEL}}} UNION {{
{LABEL}}}
{LABEL}FILTER(true)
{LABEL}OPTIONAL {{
{LABEL}FILTER(true)
{LABEL}}} MINUS {{
{LABEL}FILTER(true)
{LABEL}}} {{
{LABEL}}} GRAPH ?g {{
{LABEL}{{
{LABEL}}}
{LABEL}}}
{LABEL}}} ; INSERT {{ _:x <a:p> _:y }} WHERE {{
{LABEL}{{ }}
{LABEL}}} ; INSERT DATA {{
{LABEL}}} ; INSERT {{ }} WHERE {{ {{
{LABEL}}} }}"""
RULES = {
    "BlankInDelete": (DELETIONS, lambda line: "<a:x>", ["_:x", "[ ]", "( 1 )", "[ <a:p> 1 ]", "( [ ] )", "_:y"]),
    "VariableInData": (VARIABLES, lambda line: "<a:x>", ["?x", "$y", "?1"]),
    "LiteralSubject": (SUBJECTS, lambda line: "<a:x>", ['"x"', "1", "true", '"x"@en', '"x"^^<a:d>', "-1.5e0"]),
    "BlankReused": (LABELS, lambda line: f"_:n{line}", ["_:x", "_:y"]),
}


def lines_of(text):
    """The lines of a text, and the numbers of those that are a place."""
    lines = text.splitlines()
    return [line.replace("*-", "*") for line in lines], [number for number, line in enumerate(lines) if line in ("*", "&", "$")]


def may_stand(text, kind):
    """The places of a text where a fault of the kind may stand."""
    lines, places = lines_of(text)
    return [number for number in places if kind != "UnknownPrefix" or lines[number] != "&"]


class Script:
    def __init__(self, command):
        self.command, self.bodies, self.answers = command.encode(), [], []

    def read(self, text, answer, good=lambda line: "<a:x>"):
        """Begins with a text whose places hold what may stand there, and which is read."""
        lines, places = lines_of(text)
        self.good = [(good(number) if number in places else line).encode() for number, line in enumerate(lines)]
        self.add(self.good, answer)

    def add(self, lines, answer):
        self.bodies += [self.command, *lines, b"%end"]
        self.answers.append(answer)

    def refuse(self, faults, kind, line):
        """The text with these faults by their lines; the one in this line is told."""
        lines = self.good.copy()
        for number, fault in faults.items():
            lines[number] = fault
        self.add(lines, f"refused: {kind} line {line + 1}")

    def refuse_each(self, faults, kind):
        """The text with each of the faults and all those behind it."""
        for first in faults:
            self.refuse({line: fault for line, fault in faults.items() if line >= first}, kind, first)

    def refuse_pairs(self, faults, kind):
        """The text with each pair of the faults."""
        for one, other in combinations(faults, 2):
            self.refuse({one: faults[one], other: faults[other]}, kind, one)

    def write(self):
        Path("script").write_bytes(b"\n".join(self.bodies) + b"\n")
        Path("stdout.like").write_text("\n".join(self.answers) + "\n")


def names(script, text):
    for kind in ("UnknownPrefix", "Relative"):
        faults = {line: FAULTS[kind] for line in may_stand(text, kind)}
        script.refuse_pairs(faults, kind)
        script.refuse_each(faults, kind)


def kinds(script, text):
    order = [kind for kind in FAULTS if kind != "NotInProfile" or script.command != b"%load turtle"]
    for kind, later in combinations(order, 2):
        others = {line: FAULTS[later] for line in may_stand(text, later)}
        for line in may_stand(text, kind):
            script.refuse({**others, line: FAULTS[kind]}, kind, line)
    for kind in order:
        script.refuse_each({line: FAULTS[kind] for line in may_stand(text, kind)}, kind)


def rules(script):
    for kind, (text, good, bad) in RULES.items():
        script.read(text, r"ok \+\d+ -\d+", good)
        faults = {line: bad[line % len(bad)].encode() for line in may_stand(text, kind)}
        script.refuse_pairs(faults, kind)
        script.refuse_each(faults, kind)


def main(words):
    if words == ["rules"]:
        script = Script("%update")
        rules(script)
    else:
        command, answer, texts = READERS[words[0]]
        script = Script(command)
        for text in texts:
            script.read(text, answer)
            {"names": names, "kinds": kinds}[words[1]](script, text)
    script.write()


if __name__ == "__main__":
    main(sys.argv[1:])
