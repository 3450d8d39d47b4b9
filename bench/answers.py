#!/usr/bin/env python3
"""answers.py PROGRAM [SEED]: asks random queries and updates, as tools/compare-models draws them, of the program and of Apache Jena's reference evaluator
(apt-get install libapache-jena-java default-jdk-headless), and compares the rows, each as often as it comes, and the quads that updates leave.

What Jena does in its own way isn't asked. It compares and adds values of other kinds where the standard has an error, so literals are whole numbers.
Groups without triples are left out; so are COPY, MOVE, ADD, CLEAR and WITH, whose graphs aren't there where they have no quads. Its blank nodes of
updates have other names, so none is made. The first that differ are shown, and the last line is 'N passed, M failed'.
"""
import collections
import os
import pathlib
import subprocess
import sys
import tempfile

ROOT = pathlib.Path(__file__).resolve().parent.parent
sys.path[:0] = [str(ROOT / "tools"), str(ROOT / "tests")]
import model
import model_texts
from shared import ANSWER, say_count

QUERIES, UPDATES, EACH, SHOWN = 60, 60, 120, 5
model_texts.LITERALS[:] = [*map(model_texts.number, (1, "01", 2))]
model_texts.VALUES[:] = [*map(model_texts.number, (0, -3, "+2"))]
OF_TERMS = ("+", "-", "*")
OTHERWISE = ("{ FILTER", "{  }", "COPY", "MOVE", "ADD ", "WITH <a:", "CLEAR")


class Draw(model_texts.Draw):
    """Updates that make no blank node, and operators that are asked of numbers and of nodes."""

    def operand(self, depth):
        found = super().operand(depth)
        return found if model.is_simple(found) or found[0] in OF_TERMS else self.variable()

    def data(self, has_labels):
        return super().data(False)

    def template(self, has_labels):
        return super().template(False)


def quads_of(draw, count):
    node = lambda: draw.among(*model_texts.NODES, *model_texts.GRAPHS[:2])
    place = lambda: draw.among(model_texts.DEFAULT, model_texts.DEFAULT, *model_texts.GRAPHS[:2])
    return [(place(), node(), draw.among(*model_texts.PREDICATES), node() if draw.chance(0.8) else draw.term()) for _ in range(count)]


def drawn(make, text_of, result_of):
    """The text of what is drawn, the first whose result is at hand and that Jena takes as it is written."""
    while True:
        found = make()
        text = text_of(found)
        try:
            if not any(it in text for it in OTHERWISE) and not isinstance(result_of(found), str):
                return text
        except model.Crowded:
            pass


def queries(seed):
    """A dataset and queries of it."""
    draw = Draw(f"{seed} queries", True)
    draw.variables = draw.among("abc", "abcd", "abcdefgh")
    quads, depth = quads_of(draw, draw.among(24, 50)), draw.among(2, 3)
    state = model.act(model.EMPTY, ("INSERT DATA", False, quads))
    group = lambda: draw.group(depth, draw.chance(0.7))
    texts = [drawn(group, model.group_text, lambda it: model.solutions(state, model_texts.DEFAULT, it)) for _ in range(EACH)]
    columns = lambda: " ".join(sorted({draw.variable() for _ in range(4)}))
    return state.quads, [f"ASK {it}" if draw.chance(0.1) else f"SELECT {'DISTINCT ' * draw.chance(0.3)}{columns()} WHERE {it}" for it in texts]


def updates(seed):
    """A dataset and updates of it."""
    draw = Draw(f"{seed} updates", True)
    state = model.act(model.EMPTY, ("INSERT DATA", False, quads_of(draw, 30)))
    left = lambda operations: model.made(state, operations)
    make, text_of = lambda: draw.some(1, 3, draw.operation), lambda it: " ; ".join(map(model.operation_text, it))
    return state.quads, [drawn(make, text_of, left) for _ in range(EACH // 2)]


def own_answers(program, lines, texts):
    """What the program answers, without counts and headers."""
    asks = lambda text: text.startswith(("SELECT", "ASK"))
    commands = [f"%query\n{it}\n%end\n" if asks(it) else f"%update\n{it}\n%end\n%print\n%undo\n" for it in texts]
    script = f"%load nquads\n{lines}%end\n{''.join(commands)}"
    ran = subprocess.run([program, "run"], input=script.encode(), capture_output=True, check=False)
    said = iter([it.splitlines()[:-1] for it in ANSWER.findall(ran.stdout.decode())][1:])
    for text in texts:
        if asks(text):
            yield next(said)[text.startswith("SELECT") :]
        else:
            next(said)
            yield next(said)
            next(said)


def other_answers(asked):
    """What Jena answers."""
    with tempfile.TemporaryDirectory(prefix="answers-") as work:
        script = "".join(f"data\n{lines}end\n" + "".join(it + "\n" for it in texts) for lines, texts in asked)
        words = [str(ROOT / "bench" / "jena.sh"), work]
        ran = subprocess.run(words, input=script.encode(), stdout=subprocess.PIPE, check=True, env={**os.environ, "JENA": "Answers.java"})
    said = iter(ran.stdout.decode().split("\n"))
    for _, texts in asked:
        for _ in texts:
            head = next(said)
            yield [head] if head.startswith("fault") else [next(said) for _ in range(int(head))]


def main():
    if len(sys.argv) not in (2, 3):
        sys.exit(__doc__)
    program, seed = str(pathlib.Path(sys.argv[1]).resolve()), sys.argv[2] if len(sys.argv) == 3 else "1"
    made = [queries(f"{seed} {it}") for it in range(QUERIES)] + [updates(f"{seed} {it}") for it in range(UPDATES)]
    asked = [("".join(model.quad_line(it) + "\n" for it in sorted(quads)), texts) for quads, texts in made]
    others, passed, failed, with_rows = other_answers(asked), 0, 0, 0
    for lines, texts in asked:
        for text, own in zip(texts, own_answers(program, lines, texts)):
            other = next(others)
            agrees = collections.Counter(own) == collections.Counter(other)
            passed, failed, with_rows = passed + agrees, failed + (not agrees), with_rows + bool(own)
            if not agrees and failed <= SHOWN:
                print(f"answers: answered otherwise, of\n{lines}{text}\nthe program:", *own, "Jena:", *other, sep="\n")
    print(f"answers: {with_rows} with rows or quads")
    return say_count(passed, failed)


if __name__ == "__main__":
    sys.exit(main())
