#!/usr/bin/env python3
"""Times what rdfkeep does with a history, in sessions over a pipe: history_session.py FOLDER RDFKEEP [SMALL [COUNT..]]

FOLDER has the file data, as bench/catalogue.py writes it. SMALL is the number of small requests of each kind that are timed, and each
COUNT a number of updates of one quad that are changed and rolled back. Each line names a step and gives its seconds, or microseconds
where it says so: of a command from its first byte to the end of its answer.
"""
import pathlib
import subprocess
import sys
import time

ROUND = 500


class Session:
    def __init__(self, rdfkeep):
        self.process = subprocess.Popen([rdfkeep, "run"], stdin=subprocess.PIPE, stdout=subprocess.PIPE)

    def seconds(self, commands, answers=1):
        """The time of commands that are written at once and must all be accepted; an answer may have lines before its last one."""
        begun = time.perf_counter()
        self.process.stdin.write(commands)
        self.process.stdin.flush()
        while answers:
            line = self.process.stdout.readline()
            if line.startswith(b"ok"):
                answers -= 1
            elif line.startswith(b"refused") or not line:
                raise SystemExit(f"{commands[:60]!r} is answered {line!r}")
        return time.perf_counter() - begun

    def all(self, commands, lines=1):
        """The time of many commands, some hundreds at once, so that neither pipe is ever full. Each has this many lines with ok."""
        took = 0
        for first in range(0, len(commands), ROUND):
            part = commands[first:first + ROUND]
            took += self.seconds(b"".join(part), lines * len(part))
        return took

    def end(self):
        self.process.stdin.close()
        self.process.stdout.read()
        self.process.wait()


def update(number):
    return b"%%update\nINSERT DATA { <http://example.org/more/%d> <http://purl.org/goodrelations/v1#name> \"%d\" }\n%%end\n" % (number, number)


def load(number):
    return b"%%load turtle\n<http://example.org/more/%d> <http://purl.org/goodrelations/v1#name> \"%d\" .\n%%end\n" % (number, number)


def query(number):
    return b"%%query\nASK { <http://example.org/more/%d> ?p ?o }\n%%end\n" % number


def over_a_large_load(rdfkeep, data):
    session = Session(rdfkeep)
    session.seconds(b"%mark start\n")
    load_took = session.seconds(b"%load nquads\n" + data + b"%end\n")
    updates = session.all([update(it) for it in range(1000)])
    print("load, s", load_took)
    print("1000 updates, s", updates)
    print("%print, s", session.seconds(b"%print\n"))
    print("%changes, s", session.seconds(b"%changes\n"))
    print("%rollback, s", session.seconds(b"%rollback start\n"))
    print("redo of all, s", session.all([b"%redo\n"] * 1001))
    session.end()


def of_small_updates(rdfkeep, count):
    session = Session(rdfkeep)
    session.seconds(b"%mark start\n")
    session.all([update(it) for it in range(count)])
    print(f"{count} updates: %print, s", session.seconds(b"%print\n"))
    print(f"{count} updates: %changes, s", session.seconds(b"%changes\n"))
    print(f"{count} updates: %rollback, s", session.seconds(b"%rollback start\n"))
    session.end()


def of_marks(rdfkeep, count):
    session = Session(rdfkeep)
    print(f"{count} marks, us each", session.all([b"%%mark place%d\n" % it for it in range(count)]) / count * 1e6)
    print(f"updates behind {count} marks, us each", session.all([update(it) for it in range(count)]) / count * 1e6)
    rounds = [b"%undo\n" + update(count + it) + b"%%mark again%d\n" % it for it in range(count // 10)]
    print(f"undo, update and mark behind {count} marks, us each", session.all(rounds, 3) / len(rounds) * 1e6)
    session.end()


def of_small_requests(rdfkeep, count):
    for name, request in (("updates", update), ("loads of Turtle", load), ("queries", query)):
        session = Session(rdfkeep)
        session.seconds(update(0))
        print(f"{count} small {name}, us each", session.all([request(it) for it in range(1, count + 1)]) / count * 1e6)
        session.end()


def main(folder, rdfkeep, small="100000", *counts):
    over_a_large_load(rdfkeep, (pathlib.Path(folder) / "data").read_bytes())
    for count in counts or ("20000", "100000"):
        of_small_updates(rdfkeep, int(count))
    of_marks(rdfkeep, 40000)
    of_small_requests(rdfkeep, int(small))


main(*sys.argv[1:])
