#!/usr/bin/env python3
"""Times a session of rdfkeep over a pipe on what bench/load.sh wrote: load_session.py FOLDER RDFKEEP

It prints a line for each kind of command, with the seconds from its first byte to its answer, the mean where there are several,
and the most memory of the process, in MB, up to the end of the load, of its undo and redo, and of all.
"""
import pathlib
import subprocess
import sys
import time


class Session:
    def __init__(self, rdfkeep):
        self.process = subprocess.Popen([rdfkeep, "run"], stdin=subprocess.PIPE, stdout=subprocess.PIPE)

    def seconds(self, command, body=None):
        """The time of a command, which must be accepted."""
        begun = time.perf_counter()
        self.process.stdin.write(command + b"\n" + (b"" if body is None else body + b"%end\n"))
        self.process.stdin.flush()
        answer = self.process.stdout.readline()
        if not answer.startswith(b"ok"):
            raise SystemExit(f"{command!r} is answered {answer!r}")
        return time.perf_counter() - begun

    def peak(self):
        lines = pathlib.Path(f"/proc/{self.process.pid}/status").read_text().split("\n")
        return next(int(line.split()[1]) for line in lines if line.startswith("VmHWM")) * 1024 / 1e6


def hundred(number):
    return b"".join(b"<http://example.org/item/%d-%d> <http://purl.org/goodrelations/v1#name> \"%d\" .\n" % (number, it, it) for it in range(100))


def mean(times):
    return sum(times) / len(times)


def main(folder, rdfkeep):
    folder = pathlib.Path(folder)
    data, more = (folder / "data").read_bytes(), (folder / "more").read_bytes()
    session = Session(rdfkeep)
    print("load, s", session.seconds(b"%load nquads", data))
    print("memory behind the load, MB", session.peak())
    print("its undo, s", session.seconds(b"%undo"))
    print("its redo, s", session.seconds(b"%redo"))
    print("memory behind the redo, MB", session.peak())
    print("load of 100 quads, s", mean([session.seconds(b"%load nquads", hundred(it)) for it in range(20)]))
    rollbacks = []
    for round in range(5):
        session.seconds(b"%mark here")
        for it in range(5):
            session.seconds(b"%load nquads", hundred(1000 + 5 * round + it))
        rollbacks.append(session.seconds(b"%rollback here"))
    print("rollback of five such loads, s", mean(rollbacks))
    print("load of 2 %, s", session.seconds(b"%load nquads", more))
    print("its undo again, s", session.seconds(b"%undo"))
    session.process.stdin.close()
    print("memory at the end, MB", session.peak() if session.process.poll() is None else 0)
    session.process.wait()


main(*sys.argv[1:])
