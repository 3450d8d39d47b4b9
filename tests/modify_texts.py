#!/usr/bin/env python3
"""Writes a script of many or of large updates with patterns into the current folder, with what the program has to answer.

    modify_texts.py prefixes    each prefix of some texts of one operation: it is refused by a fault that has a name, and changes
                                nothing, and the whole text is read
    modify_texts.py readings    each prefix of some longer texts, and each with a byte that is no text behind it: it is read, or
                                refused by a fault that has a name, and then the state is as it was
    modify_texts.py words       each word that is outside the profile, in three spellings, at three places
    modify_texts.py many        many solutions, large templates, many operations
"""
import sys
from pathlib import Path

from query_texts import as_expressions
from update_texts import NAMES, READ, WORDS

S, T, P, Q, OF, G, H = (f"<http://e/{name}>" for name in ("s", "t", "p", "q", "of", "g", "h"))
LOAD = [f'{T} {P} "1" .', f'{S} {P} "1" .', f'{S} {Q} "2" .']
FAULT = rf"refused: ({'|'.join(NAMES)}) line [1-3]"
# texts whose last character ends their one operation, and what they change
TEXTS = {
    f'INSERT {{ _:x {OF} ?s }} WHERE {{ {{ ?s {P} "1" }} UNION {{ ?s {Q} "2" }} }}': [
        f"+ _:b0 {OF} {S} .",
        f"+ _:b1 {OF} {S} .",
        f"+ _:b2 {OF} {T} .",
    ],
    f'DELETE {{ ?s {P} "1" }} INSERT {{ GRAPH {G} {{ ?s {Q} "3" }} }} WHERE {{ ?s {P} ?o OPTIONAL {{ ?s {Q} ?x }} FILTER(bound(?x)) }}': [
        f'- {S} {P} "1" .',
        f"+ graph {G}",
        f'+ {S} {Q} "3" {G} .',
    ],
    f"WITH {G} INSERT {{ {S} {P} [ ] }} WHERE {{ }}": [f"+ graph {G}", f"+ {S} {P} _:b0 {G} ."],
    f"DELETE WHERE {{ ?s {Q} ?o . ?s {P} ?v }}": [f'- {S} {P} "1" .', f'- {S} {Q} "2" .'],
}
# longer texts, and the answers to the whole of them
LONG = {
    f'INSERT {{ _:x {OF} ?s }} WHERE {{ {{ ?s {P} "1" }} UNION {{ ?s {Q} "2" }} }} ; DELETE WHERE {{ ?s {OF} {S} }}': r"ok \+1 -0",
    f"WITH {G} DELETE {{ ?s ?p _:x }} INSERT {{ _:x ?p ?o }} WHERE {{ _:x ?p ?o }} ; DELETE WHERE {{ ?s ?p ?o }}": "refused: BlankInDelete line 1",
    f"INSERT {{ }} WHERE {{ _:x ?p ?o }} ; INSERT {{ }} WHERE {{ _:x ?p ?o }}": "refused: BlankReused line 1",
    f"PREFIX é: <http://e/> BASE <http://e/a/> WITH <../g> DELETE {{ ?s é:p ?o . GRAPH $g {{ é:s é:p ( ) , '''\"\\t水'''@EN-us }} }}\n"
    f"INSERT {{ GRAPH é:h {{ [ a <#\\u00E9> ; é:p ( ?s _:x.y -1.5e+3 ) ] }} . _:x.y é:p \"\\\"\"^^é:%41\\- }} # 水\r\n"
    f"WHERE {{ ?s é:p ?o . OPTIONAL {{ GRAPH $g {{ _:é é:p TRUE }} FILTER(?o -1 >= 2 || !bound(?é)) }} {{ }} UNION {{ }} }} ;\n"
    f"DELETE WHERE {{ GRAPH $g {{ ?s a ?c }} . ?s é:p ?o ; }} ; INSERT DATA {{ _:x.y é:p _:é }} ;": r"ok \+1 -0",
}


def changed(lines):
    """What `%changes` shows, as regular expressions."""
    return as_expressions("\n".join(lines + [f"ok {len(lines)}"]))


def counted(lines, *signs):
    """The answer of the update that changes these, or of its undo, whose signs change places."""
    came, went = (sum(line.startswith(f"{sign} ") and not line.startswith(f"{sign} graph") for line in lines) for sign in signs or "+-")
    return rf"ok \+{came} -{went}" + "\n"


def prefixes():
    script = ["%load nquads\n" + "".join(line + "\n" for line in LOAD) + "%end\n%commit\n"]
    answers = [f"ok \\+{len(LOAD)} -0\nok\n"]
    for text, change in TEXTS.items():
        # an empty request is one
        script.append("%update\n\n%end\n%changes\n")
        answers.append(r"ok \+0 -0" + "\n" + changed([]))
        for size in range(1, len(text)):
            script.append(f"%update\n{text[:size]}\n%end\n%changes\n")
            answers.append(FAULT + "\n" + changed([]))
        script.append(f"%update\n{text}\n%end\n%changes\n%undo\n%redo\n%changes\n%undo\n%changes\n")
        backward = counted(change, "-", "+")
        answers.append(counted(change) + changed(change) + backward + counted(change) + changed(change) + backward + changed([]))
    Path("script").write_text("".join(script))
    Path("stdout.like").write_text("".join(answers))


def readings():
    texts, answers = [], []
    for whole, answer in LONG.items():
        text = whole.encode()
        texts += [text[:size] for size in range(len(text) + 1)]
        answers += [f"{READ}|refused: ({'|'.join(NAMES)}) line [1-5]"] * len(text) + [answer]
    texts += [text[:size] + b"\xff" for size in range(len(text))]
    answers += ["refused: NotUtf8 line [1-4]"] * len(text)
    load = "%load nquads\n" + "".join(line + "\n" for line in LOAD) + "%end\n%commit\n%mark start\n"
    # whatever is read is taken back
    script = b"".join(b"%update\n" + text + b"\n%end\n%rollback start\n%changes\n" for text in texts)
    Path("script").write_bytes(load.encode() + script + b"%update\nINSERT DATA { _:x <http://e/p> 1 }\n%end\n%print\n")
    back = READ + "\n" + changed([])
    lines = [f'_:b0 {P} "1"^^<http://www.w3.org/2001/XMLSchema#integer> .'] + sorted(LOAD)
    begun, ended = f"ok \\+{len(LOAD)} -0\nok\nok\n", r"ok \+1 -0" + "\n" + as_expressions("\n".join(lines + [f"ok {len(lines)}"]))
    Path("stdout.like").write_text(begun + "".join(f"{answer}\n{back}" for answer in answers) + ended)


def words():
    bodies, answers = [], []
    for word in WORDS:
        bodies += [
            f"WITH {G} DELETE {{ ?s ?p ?o }}\n{word} INSERT {{ }} WHERE {{ }}",
            f"INSERT {{ ?s ?p ?o }} WHERE {{ ?s ?p ?o\n{word.lower()}<x> }}",
            f"DELETE WHERE {{ ?s # {word}\n{word.capitalize()} ?o }}",
        ]
        answers += ["refused: NotInProfile line 2\n"] * 3
    script = "".join(f"%update\n{body}\n%end\n" for body in bodies)
    Path("script").write_text(script + "%graphs\n")
    Path("stdout").write_text("".join(answers) + "ok 0\n")


def many():
    solutions, quads, operations = 10_000, 1_000, 2_000
    load = "".join(f"<http://e/{number}> {P} {T} .\n" for number in range(solutions))
    template = " . ".join(f"?s {Q} {number} ; {OF} [ ]" for number in range(quads))
    chain = (f"DELETE {{ ?x {Q} {number} }} INSERT {{ ?x {Q} {number + 1} }} WHERE {{ ?x {Q} {number} }}" for number in range(operations))
    commands = [
        # each sees the one before it
        (f"%update\nINSERT DATA {{ {S} {Q} 0 }} ; {' ; '.join(chain)}", 1, 0),
        (f"%load nquads\n{load.rstrip()}", solutions, 0),
        # all objects are replaced
        (f"%update\nDELETE {{ ?x {P} {T} }} INSERT {{ ?x {P} {S} }} WHERE {{ ?x {P} {T} }}", solutions, solutions),
        # each solution has two blank nodes of its own
        (f"%update\nINSERT {{ GRAPH {G} {{ _:x {OF} ?x ; {Q} _:y }} }} WHERE {{ ?x {P} {S} }}", 2 * solutions, 0),
        (f"%update\nDELETE WHERE {{ GRAPH {G} {{ ?x {Q} ?y }} }}", 0, solutions),
        (f"%update\nINSERT {{ GRAPH {H} {{ {template} }} }} WHERE {{ OPTIONAL {{ }} {{ ?s {P} {S} FILTER(?s = <http://e/7>) }} }}", 2 * quads, 0),
        (f"%update\nDELETE {{ GRAPH {H} {{ {' . '.join(f'?s {Q} {number}' for number in range(quads))} }} }} WHERE {{ GRAPH {H} {{ ?s {Q} 0 }} }}", 0, quads),
    ]
    script = "".join(f"{command}\n%end\n" for command, _, _ in commands) + "%undo\n" * len(commands) + "%redo\n" * len(commands)
    answers = "".join(f"ok +{came} -{went}\n" for _, came, went in commands)
    answers += "".join(f"ok +{went} -{came}\n" for _, came, went in reversed(commands)) + answers
    # the counter: two for each solution of the third update, and one for each quad of the fifth's template
    script += f"%update\nDELETE WHERE {{ ?s ?p ?o }} ; DELETE WHERE {{ GRAPH ?g {{ ?s ?p ?o }} }} ; INSERT {{ _:x {P} 1 }} WHERE {{ }}\n%end\n%print\n%graphs\n"
    answers += f"ok +1 -{2 * solutions + quads + 1}\n"
    answers += f'_:b{2 * solutions + quads} {P} "1"^^<http://www.w3.org/2001/XMLSchema#integer> .\nok 1\n{G}\n{H}\nok 2\n'
    Path("script").write_text(script)
    Path("stdout").write_text(answers)


if __name__ == "__main__":
    {"prefixes": prefixes, "readings": readings, "words": words, "many": many}[sys.argv[1]]()
