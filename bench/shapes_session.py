"""Times queries in a session of rdfkeep, for shapes.sh and growth.py: shapes_session.py RDFKEEP FOLDER NAME.."""
import resource
import subprocess
import sys
import threading
import time

LIMIT = 120
MEMORY = 8 << 30


class Session:
    """A session of rdfkeep that may take LIMIT seconds of a processor for a query and 8 GB; what passes either has no answer."""

    def __init__(self, rdfkeep, *words):
        limit = lambda: resource.setrlimit(resource.RLIMIT_AS, (MEMORY, MEMORY))
        self.process = subprocess.Popen([rdfkeep, "run", *words], stdin=subprocess.PIPE, stdout=subprocess.PIPE, preexec_fn=limit)
        self.ask("ASK { }", 1)

    def __enter__(self):
        return self

    def __exit__(self, *fault):
        self.process.kill()
        self.process.communicate()

    def spent(self):
        """The processor seconds so far, by the clock that Linux keeps for a process."""
        return time.clock_gettime(~self.process.pid << 3 | 2)

    def ask(self, text, repeats):
        """Asks a query so many times; the seconds for each and how many rows there are, or None."""
        script = f"%query\n{text}\n%end\n".encode() * repeats
        begun, rows = self.spent(), None
        resource.prlimit(self.process.pid, resource.RLIMIT_CPU, (int(begun) + LIMIT + 1, resource.RLIM_INFINITY))
        feed = threading.Thread(target=self.feed, args=(script,))
        feed.start()
        for line in self.process.stdout:
            if line.startswith(b"refused: "):
                print("rdfkeep:", line.decode().strip(), file=sys.stderr)
            if line.startswith((b"ok ", b"refused: ")):
                repeats, rows = repeats - 1, int(line[3:]) if line.startswith(b"ok ") else None
            if not repeats:
                break
        feed.join()
        return None if rows is None or repeats else ((self.spent() - begun) / script.count(b"\n%end\n"), rows)

    def feed(self, script):
        try:
            self.process.stdin.write(script)
            self.process.stdin.flush()
        except BrokenPipeError:
            pass

    def best(self, text, first=None):
        """The best of many short means, the first one left out where it takes no minutes, and how many rows there are: a mean of
        a fiftieth of a second often finds a moment at which nothing else is at work."""
        first = first or self.ask(text, 1)
        if not first or first[0] > 10:
            return first
        many = max(1, min(1000, int(0.02 / max(first[0], 1e-6))))
        rounds = max(3, min(30, int(1 / max(first[0], 1e-6))))
        return min(self.ask(text, many) for _ in range(rounds))

    def memory(self, field):
        """What a line of the process's status says, in MB."""
        with open(f"/proc/{self.process.pid}/status") as status:
            return next(int(line.split()[1]) * 1024 / 1e6 for line in status if line.startswith(field))

    def forget_peak(self):
        with open(f"/proc/{self.process.pid}/clear_refs", "w") as file:
            file.write("5")


def main(rdfkeep, folder, *names):
    """For each query a line: its name, seconds, rows, MB at the peak above what the session had before."""
    for name in names:
        with open(f"{folder}/{name}.rq") as file:
            text = file.read()
        with Session(rdfkeep, "--data", f"{folder}/data") as session:
            session.forget_peak()
            before, first = session.memory("VmRSS"), session.ask(text, 1)
            peak = session.memory("VmHWM") - before if first else None
            found = first and session.best(text, first)
        print(name, *(found or "--"), "-" if peak is None else peak, flush=True)


if __name__ == "__main__":
    main(*sys.argv[1:])
