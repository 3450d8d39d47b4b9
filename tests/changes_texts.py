#!/usr/bin/env python3
"""Writes a script that asks again and again what has changed, with its answers, which a model of sets gives, into the current folder.

    changes_texts.py mixed      1,500 commands by chance: requests that add, remove, do both or neither, undo, redo, mark, rollback,
                                commit, and %changes behind every fifth
    changes_texts.py depth N    the same under a depth of N
    changes_texts.py back       300 requests, 250 undos with %changes behind each, as many redos, then 140 times two undos, a request and
                                %changes
    changes_texts.py pairs      1,500 pairs of requests that change nothing, with %changes behind each
"""
import random
import sys
from pathlib import Path


def text_of(quad):
    graph, number = quad
    return f'<e:s> <e:p> "{number:02}"' + (f" <e:g{graph}>" if graph else "") + " ."


def data(kind, quads):
    return f"{kind} DATA {{ " + " ".join((f"GRAPH <e:g{graph}> {{ " if graph else "") + f'<e:s> <e:p> "{number:02}"' + (" }" if graph else " .") for graph, number in sorted(quads)) + " }"


class Session:
    """The states of a session, as pairs of a set of quads and one of names, and a script with its answers."""

    def __init__(self, depth=None):
        self.states, self.cursor, self.marks, self.depth = [(frozenset(), frozenset())], 0, {}, depth
        self.script, self.answers, self.refused = [], [], False

    def asks(self, command, *answers):
        self.script.append(command)
        self.answers += answers
        self.refused |= answers[-1].startswith("refused: ")

    def counts(self, old, new):
        return f"ok +{len(new[0] - old[0])} -{len(old[0] - new[0])}"

    def update(self, added, removed, dropped=None):
        """DELETE DATA, then INSERT DATA, then DROP SILENT of a graph, those that are asked for."""
        (quads, names), operations = self.states[self.cursor], []
        if removed:
            quads = quads - removed
            operations.append(data("DELETE", removed))
        if added:
            quads, names = quads | added, names | {graph for graph, _ in added if graph}
            operations.append(data("INSERT", added))
        if dropped:
            quads, names = frozenset(it for it in quads if it[0] != dropped), names - {dropped}
            operations.append(f"DROP SILENT GRAPH <e:g{dropped}>")
        old, new = self.states[self.cursor], (frozenset(quads), frozenset(names))
        self.states = self.states[: self.cursor + 1] + [new]
        self.marks = {name: place for name, place in self.marks.items() if place <= self.cursor}
        self.cursor += 1
        if self.depth and self.cursor > self.depth:
            self.states, self.cursor = self.states[1:], self.cursor - 1
            self.marks = {name: place - 1 for name, place in self.marks.items() if place}
        self.asks("%update\n" + " ;\n".join(operations) + "\n%end", self.counts(old, new))

    def goes(self, command, place, fault):
        if place is None or not 0 <= place < len(self.states):
            return self.asks(command, f"refused: {fault}")
        old, self.cursor = self.states[self.cursor], place
        self.asks(command, self.counts(old, self.states[place]))

    def undo(self):
        self.goes("%undo", self.cursor - 1, "NothingToUndo")

    def redo(self):
        self.goes("%redo", self.cursor + 1, "NothingToRedo")

    def mark(self, name):
        self.marks[name] = self.cursor
        self.asks(f"%mark {name}", "ok")

    def rollback(self, name):
        place = self.marks.get(name)
        if place is not None and place > self.cursor:
            return self.asks(f"%rollback {name}", "refused: MarkAhead")
        self.goes(f"%rollback {name}", place, "NoSuchMark")

    def commit(self):
        self.states, self.cursor, self.marks = [self.states[self.cursor]], 0, {}
        self.asks("%commit", "ok")

    def changes(self):
        (quads, names), (old_quads, old_names) = self.states[self.cursor], self.states[0]
        lines = [f"- graph <e:g{it}>" for it in sorted(old_names - names)] + [f"- {text_of(it)}" for it in sorted(old_quads - quads)]
        lines += [f"+ graph <e:g{it}>" for it in sorted(names - old_names)] + [f"+ {text_of(it)}" for it in sorted(quads - old_quads)]
        self.asks("%changes", *lines, f"ok {len(lines)}")

    def ends(self):
        Path("script").write_text("".join(f"{it}\n" for it in self.script))
        Path("stdout").write_text("".join(f"{it}\n" for it in self.answers))
        Path("status").write_text(f"{int(self.refused)}\n")


def some(chance, most):
    return frozenset((chance.randrange(4), chance.randrange(20)) for _ in range(chance.randint(1, most)))


def mixed(session, commands=1500):
    chance = random.Random(46)
    for number in range(commands):
        kind = chance.random()
        if kind < 0.25:
            session.update(some(chance, 6), frozenset())
        elif kind < 0.35:
            session.update(frozenset(), some(chance, 12))
        elif kind < 0.45:
            session.update(some(chance, 4), some(chance, 4), chance.choice([None, 1, 2, 3]))
        elif kind < 0.5:
            # what is there comes, and changes nothing
            session.update(frozenset(sorted(session.states[session.cursor][0])[:2]) or some(chance, 1), frozenset())
        elif kind < 0.72:
            for _ in range(chance.choice([1, 1, 2, 3, 40])):
                session.undo()
        elif kind < 0.85:
            for _ in range(chance.choice([1, 1, 2, 3, 30])):
                session.redo()
        elif kind < 0.92:
            session.mark(chance.choice("abc"))
        elif kind < 0.995:
            session.rollback(chance.choice("abcd"))
        else:
            session.commit()
        if number % 5 == 0:
            session.changes()
    session.changes()


def back(session):
    for number in range(300):
        session.update(frozenset([(number % 4, number // 4 % 20)]), frozenset([(number % 4, (number // 4 + 7) % 20)]))
    for _ in range(250):
        session.undo()
        session.changes()
    for _ in range(250):
        session.redo()
    for number in range(140):
        session.undo()
        session.undo()
        session.update(frozenset([(0, number % 20)]), frozenset([(1, number % 20)]))
        session.changes()


def pairs(session):
    for _ in range(1500):
        session.update(frozenset([(0, 1)]), frozenset())
        session.update(frozenset(), frozenset([(0, 1)]))
        session.changes()


def main(word, depth="0"):
    session = Session(int(depth))
    {"mixed": mixed, "depth": mixed, "back": back, "pairs": pairs}[word](session)
    session.ends()


if __name__ == "__main__":
    main(*sys.argv[1:])
