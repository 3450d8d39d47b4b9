#!/usr/bin/env python3
"""Writes a script of hostile texts into the current folder, with what the program has to answer.

    hostile_texts.py brackets   1,000,000 open brackets of each kind in Turtle, in updates and in queries
    hostile_texts.py lists      lists of 100,000 items in Turtle and in a query
    hostile_texts.py changed    texts of Turtle, an update and a query with each byte changed to each of some telling ones: they
                                are read, or refused by a fault that has a name, and then the state is as it was
    hostile_texts.py short      each prefix of short texts of N-Quads, Turtle, an update and a query, and each of their bytes changed to
                                each of the telling ones, with what is there behind each, and behind its undo
    hostile_texts.py judge      reads the answers to these, and says where a text is neither read nor refused by a fault in a line of it,
                                where a fault changes what is there, or where a reading and its undo do something else than they say
"""
import re
import sys
from pathlib import Path

# before 1,000,000 openers: what may stand before brackets of each kind
OPENED = {
    "%load turtle": {"(": "<a:s> <a:p>", "[<a:p>": "<a:s> <a:p>", "{": "<a:s> <a:p>", "([<a:p>": ""},
    "%update": {
        "(": "INSERT DATA { <a:s> <a:p>",
        "[<a:p>": "DELETE { ?s ?p",
        "{": "INSERT { } WHERE",
        "OPTIONAL{": "DELETE { } WHERE {",
        "MINUS{": "DELETE { } WHERE {",
        "!(": "INSERT { } WHERE { FILTER(",
    },
    "%query": {"(": "ASK { ?s ?p", "[?p": "SELECT ?s {", "{": "ASK", "GRAPH ?g{": "ASK {", "MINUS{?s ?p ?o.{": "ASK {", "str(": "ASK { FILTER", "-(": "ASK { FILTER("},
}
NAMES = "NotUtf8 Token NotInProfile TooDeep Syntax UnknownPrefix Relative BlankInDelete VariableInData LiteralSubject BlankReused".split()
FAULT = rf"refused: ({'|'.join(NAMES)}) line [1-9]"
READ = rf"ok \+\d+ -\d+|refused: (MissingGraph|GraphExists)|{FAULT}"
TELLING = b"\0\t\n\r !\"#$%&'()*+,-./09:;<=>?@AEUae[\\]^_`{|}~\x7f\x80\xc3\xe2\xed\xf0\xff"
# what the state holds
HELD = ['<a:s> <a:p> "1" .', "<a:t> <a:p> <a:s> <a:g> ."]
DOCUMENT = """@prefix p: <a:> . BASE <a:b/>
p:s <p> "x\\u00E9\\n"@en-GB , '''y''' , -1.5e+3 ; ; a ( _:x.y 'z'^^p:%41 [ p:q true ] ) . # é水
[ <p> () ] .
"""
UPDATE = """PREFIX p: <a:> INSERT DATA { GRAPH p:g { _:x p:p "\\t" , 2 } } ;
WITH <a:g> DELETE { ?s a ?o . } INSERT { [ p:p ( ?o ) ] } WHERE { { ?s ?p ?o } UNION { ?s p:p 'é'@en } FILTER(!bound(?x) || ?o <= -1 * 2) } ;
DELETE WHERE { GRAPH ?g { ?s p:p $o } } ; copy silent DEFAULT TO <a:h> # 水
"""
# it lacks braces at its end, so that no change of one byte makes a query of it
QUERY = """PREFIX p: <a:> SELECT DISTINCT ?s $o WHERE { ?s p:p "\\u00E9" ; a [ p:q ( _:x 1.5 ) ] . OPTIONAL { GRAPH ?g { ?s ?p ?o } # é
FILTER(sameTerm(?s, <a:s>) && str(?o) != '''x'''@en || ?o + 1 -2 * ?n >= 0) { } UNION { { ?o ?p "1"^^p:d
"""
# of each command a short text that has every kind of construct
SHORT = {
    "%load nquads": """# é\r
<a:s> <a:p> "x\\u00E9\\n"@en-GB <a:g> . # 水
_:x.y<a:p>"1"^^<a:d>.
\t_:é <a:p> _:x.y _:g .
""",
    "%load turtle": """@prefix p: <a:> . BASE <a:b/>
p:s <p> "\\u00E9\\n"@en-GB , '''y''' , -1.5e+3 ; ; a ( _:x.y 'z'^^p:%41 [ p:q true ] ) . # é水\r
[ <p> () ] .
""",
    "%update": """PREFIX p: <a:> INSERT DATA { GRAPH p:g { _:x p:p "\\t" , 2 } } ; # 水
WITH <a:g> DELETE { ?s ?p $o } INSERT { [ a ( ?o ) ] } WHERE { { ?s ?p ?o } UNION { ?s p:p 'é'@en } MINUS { ?s <a:q> ?x }\r
OPTIONAL { GRAPH ?g { ?s ?p ?y } } FILTER(!bound(?y) || ?o <= -1 * 2) } ; copy silent DEFAULT TO <a:h>
""",
    "%query": """PREFIX p: <a:> SELECT DISTINCT ?s $o WHERE { ?s ?p ?o . OPTIONAL { ?s p:p "\\u00E9" ; a [ p:q ( _:x 1.5 ) ] } # é\r
{ GRAPH ?g { ?s ?p ?o } } UNION { } MINUS { ?s ?q '''x'''@en } FILTER(sameTerm(?s, <a:s>) || str(?o) != "1"^^p:d || ?n + 1 -2 >= 0) }
""",
}


def write(parts, answers, name="stdout"):
    Path("script").write_bytes(b"".join(parts))
    Path(name).write_text("".join(answer + "\n" for answer in answers))


def body(command, text):
    return f"{command}\n".encode() + text + b"\n%end\n"


def brackets():
    parts, answers = [], []
    for command, openers in OPENED.items():
        for opener, front in openers.items():
            parts.append(body(command, f"{front}\n{opener * 1_000_000}".encode()))
            answers.append("refused: TooDeep line 2")
    write(parts + [b"%print\n"], answers + ["ok 0"])


def lists():
    many = 100_000
    items = " ".join(map(str, range(many)))
    parts = [
        body("%load turtle", f"<a:s> <a:p> ( {items} ) .".encode()),
        body("%query", f"ASK {{ <a:s> <a:p> ( {items} ) }}".encode()),
        body("%query", f"ASK {{ <a:s> <a:p> ( {items} x:y ) }}".encode()),
        b"%undo\n",
    ]
    write(parts, [f"ok +{2 * many + 1} -0", "true", "ok 1", "refused: UnknownPrefix line 1", f"ok +0 -{2 * many + 1}"])


def changed():
    load = "".join(f"{line}\n" for line in HELD)
    parts, answers = [body("%load nquads", load.encode()), b"%commit\n"], [rf"ok \+{len(HELD)} -0", "ok"]
    for command, text in ("%load turtle", DOCUMENT), ("%update", UPDATE), ("%query", QUERY):
        whole = text.encode()
        for place in range(len(whole)):
            for byte in TELLING:
                parts.append(body(command, whole[:place] + bytes([byte]) + whole[place + 1 :]))
                answers.append(FAULT if command == "%query" else READ)
                if command != "%query":
                    parts.append(b"%undo\n")
                    answers.append(r"ok \+\d+ -\d+|refused: NothingToUndo")
            parts.append(b"%changes\n")
            answers.append("ok 0")
    write(parts, answers, "stdout.like")


def short_texts():
    """Each command, the text behind it, and whether it is as it should be."""
    for command, text in SHORT.items():
        whole = text.encode()
        yield command, whole, True
        for place in range(len(whole)):
            yield command, whole[:place], False
            for byte in TELLING:
                yield command, whole[:place] + bytes([byte]) + whole[place + 1 :], byte == whole[place]


def short():
    parts = [body("%load nquads", "\n".join(HELD).encode()), b"%commit\n"]
    parts += [body(command, text) + (b"%print\n" if command == "%query" else b"%print\n%undo\n%print\n") for command, text, _ in short_texts()]
    Path("script").write_bytes(b"".join(parts))


def answers_in(said):
    """The answers in what a session says, each as a list of its lines."""
    lines = []
    for line in said.split(b"\n")[:-1]:
        lines.append(line.decode())
        if line == b"ok" or line.startswith((b"ok ", b"refused: ")):
            yield lines
            lines = []
    if lines:
        yield lines


def line_ends(text):
    return len(re.findall(rb"\r\n|\r|\n", text))


def line_of_no_text(text):
    """The line of the first byte that belongs to no character, 0 if there is none."""
    try:
        text.decode()
    except UnicodeDecodeError as fault:
        return line_ends(text[: fault.start]) + 1
    return 0


def fault_of(command, text, refusal):
    """What is wrong with the refusal of a text: it names a kind, and a line of the text, that of the first byte that is no text."""
    told, bad = re.fullmatch(rf"refused: ({'|'.join(NAMES)}) line ([1-9][0-9]*)", refusal), line_of_no_text(text)
    if not told or int(told[2]) > line_ends(text + b"\n") + 1:
        return "no fault with a line of the text"
    # (of lines the first faulty one is told)
    is_before = command == "%load nquads" and int(told[2]) < bad
    if (told[1] == "NotUtf8") != (bad > 0 and not is_before) or told[1] == "NotUtf8" and int(told[2]) != bad:
        return "another line or kind than its bytes have"


def wrong(command, text, is_whole, answers):
    """What is wrong with the answers to a text and to what stands behind it."""
    held = [*HELD, f"ok {len(HELD)}"]
    first, *others = answers
    if others[-1] != held:
        return "another state behind it"
    if first[-1].startswith("refused: "):
        if len(first) > 1 or others[0] != held or others[1:-1] not in ([], [["refused: NothingToUndo"]]):
            return "a refusal that isn't the whole answer, or changes something"
        if command == "%update" and first[0] in ("refused: MissingGraph", "refused: GraphExists"):
            return None
        return "it is to be read" if is_whole else fault_of(command, text, first[0])
    if line_of_no_text(text):
        return "it has a byte that is no text"
    if command == "%query":
        return None if first[-1] == f"ok {len(first) - 2}" else "it counts otherwise"
    shown, before = {*others[0][:-1]}, {*HELD}
    came, went = len(shown - before), len(before - shown)
    return None if (first, others[1]) == ([f"ok +{came} -{went}"], [f"ok +{went} -{came}"]) else "it or its undo counts otherwise"


def judge():
    answers, told = answers_in(sys.stdin.buffer.read()), 0
    if [next(answers, None), next(answers, None)] != [[f"ok +{len(HELD)} -0"], ["ok"]]:
        return print("it doesn't begin with what is held")
    for command, text, is_whole in short_texts():
        found = [next(answers, ["no answer"]) for _ in range(2 if command == "%query" else 4)]
        fault = wrong(command, text, is_whole, found)
        if fault and told < 3:
            print(f"{fault}: {command} {text!r}: {found}")
        told += bool(fault)
    if told or next(answers, None):
        print(f"{told} texts are answered otherwise")


if __name__ == "__main__":
    {"brackets": brackets, "lists": lists, "changed": changed, "short": short, "judge": judge}[sys.argv[1]]()
