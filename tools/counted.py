"""Runs of programs with `refuse.c` before the C library, which counts requests for memory, and may refuse some."""
import collections, pathlib, re, shutil, subprocess, sys, tempfile
from concurrent.futures import ThreadPoolExecutor

from shared import ROOT, TOOL, processors, rt, say_count

COURSES = ("alone", "lasting")
TOLD = re.compile(r"(\d+) (\d+) (\d+)\n\Z")
# what a run wrote, its status, and how many requests counted, how many were refused and how many bytes were asked for, or -1 where that isn't told
Run = collections.namedtuple("Run", "output errors status counted refused asked")
# what a program is asked; `wrong` says what is wrong of its runs, the untouched one and those with a refusal, by course and number
Case = collections.namedtuple("Case", "name words text wrong")


class Program:
    """A copy of a program, since rt ci may build it anew, in a folder of its own."""

    def __init__(self, path, room, environment):
        self.path, self.room, library = shutil.copy2(path, room), pathlib.Path(room), pathlib.Path(room, "refuse.so")
        clang = pathlib.Path(shutil.which(*rt())).resolve().parents[1] / "toolchain/bin/clang"
        subprocess.run([clang, "-O1", "-shared", "-fPIC", "-nostdlib", "-fuse-ld=lld", "-o", library, ROOT / "tools/refuse.c"], check=True)
        self.environment = {"LD_PRELOAD": str(library), **environment}

    def run(self, words=(), text="", number=0, course="alone", folder=None):
        """A run with a request refused, or with none, where the number is 0, in this folder, or in its own."""
        environment = {**self.environment, "REFUSED": str(number), **({"LASTING": "1"} if course == "lasting" else {})}
        how = {"env": environment, "cwd": folder or self.room, "capture_output": True, "text": True, "errors": "replace", "timeout": 60}
        ran = subprocess.run([self.path, *words], input=text, **how)
        told = TOLD.search(ran.stderr)
        return Run(ran.stdout, TOLD.sub("", ran.stderr), ran.returncode, *(map(int, told.groups()) if told else (-1, -1, -1)))


def is_refused(course, it):
    """Whether a run's refusal came."""
    return it.refused == 1 if course == "alone" else it.refused >= 1


def report(tool, program, cases, kind=""):
    """Runs each case untouched and then with its refusals, side by side, says what is wrong and how many runs passed, and returns the exit status."""
    runs, faults, counts = 0, [], []
    with ThreadPoolExecutor(processors()) as lanes:
        for name, words, text, wrong in cases:
            untouched = program.run(words, text)
            # (what takes no memory is run with the first refused, which doesn't come)
            numbers = range(1, max(untouched.counted, 1) + 1)
            made = {(course, number): lanes.submit(program.run, words, text, number, course) for course in COURSES for number in numbers}
            faults += [f"{kind}{name}: {it}" for it in wrong(untouched, {key: it.result() for key, it in made.items()})]
            runs += len(made)
            counts.append(f"{name} {untouched.counted}")
    for it in [*faults, f"requests refused in turn, alone and lasting: {', '.join(counts)}; {f'{len(faults)} faults' if faults else 'all survived'}"]:
        print(f"{tool}: {it}")
    return say_count(max(0, runs - len(faults)), len(faults))


def over_program(parser, judge, **environment):
    """Runs `judge (program, given)` over a copy of the program that the tool's words name, and ends with its status."""
    given = parser.parse_args()
    with tempfile.TemporaryDirectory(prefix=f"{TOOL}-") as room:
        sys.exit(judge(Program(given.program, room, environment), given))
