"""What the tools of this folder share: the crates, copies of the repository, commands and their processor time, tasks side by side."""
import argparse, collections, contextlib, functools, hashlib, importlib.machinery, importlib.util, math, os, pathlib, re, shutil, signal, subprocess, sys
import tempfile, threading, time, traceback
from concurrent.futures import FIRST_COMPLETED, ThreadPoolExecutor, wait

ROOT = pathlib.Path(__file__).resolve().parents[1]
KEPT = ("out/rlib", "out/incremental")
# what tools ask, and what the self-test tries them on, stands beside the cases
sys.path.append(str(ROOT / "tests"))
# copies stand beside what they link to, wherever /tmp is: those of each process in a folder of its own
COPIES = ROOT / "out" / "copies"
# has a command end where what waits for it does, however that ends
ENDS_WITH_US = ("setpriv", "--pdeathsig", "KILL", "--")
RT = os.environ.get("RT", "rt")
# a task: the least order starts first; its memory in bytes; a call that gives a list of further tasks
Task = collections.namedtuple("Task", "order memory call")
# what a session answers a command: lines, of which the last says how it went
ANSWER = re.compile(r"(?:.*\n)*?(?:ok(?: .*)?|refused: .*)\n")
TOOL = pathlib.Path(sys.argv[0]).name
# what was checked: whether it holds
TOLD = []


def count_of(passed, failed, skipped):
    """The last line of a tool."""
    return f"{passed} passed, {failed} failed" + (f", {skipped} skipped" if skipped else "")


def sum_of(*told):
    """A sum of all that is told."""
    return hashlib.sha256(repr(told).encode()).hexdigest()


def check(what, holds, *shown):
    """Counts one more, and says what is wrong, if something is."""
    TOLD.append(bool(holds))
    if not holds:
        print(f"{TOOL}: {what}", *shown, flush=True)


def is_there(what, *programs):
    """Whether these programs are there: else a line says what isn't checked."""
    lost = [it for it in programs if not shutil.which(it)]
    if lost:
        print(f"{TOOL}: {lost[0]} isn't there, so {what} isn't checked")
    return not lost


def reader(about, *words, **options):
    """What reads a tool's words: `program`, or `seed?` where it may be left out, or `crates*` for any number, and options, each with what argparse is told
    of it, or its default, or None for a flag."""
    parser = argparse.ArgumentParser(description=about, formatter_class=argparse.RawDescriptionHelpFormatter)
    for name, count in (re.fullmatch("(.*?)([?*]?)", it).groups() for it in words):
        parser.add_argument(name, nargs=count or None, metavar=name.rstrip("s").upper())
    for name, told in options.items():
        told = {"action": "store_true"} if told is None else told if isinstance(told, dict) else {"type": type(told), "default": told}
        parser.add_argument(f"--{name}", **told)
    return parser


def say_count(passed, failed, skipped=0):
    """Says how many passed, and returns the exit status."""
    print(count_of(passed, failed, skipped))
    return int(failed > 0)


def say_told():
    """Says how much of what was checked holds, and returns the exit status."""
    return say_count(TOLD.count(True), TOLD.count(False))


def program_given(about):
    """The program that a tool's one word names, or else ./rdfkeep."""
    return pathlib.Path(reader(about, "program?").parse_args().program or ROOT / "rdfkeep").resolve()


def said(*words, folder=ROOT, **streams):
    """What a command writes, and whether it ends well."""
    streams = {"stdin": subprocess.DEVNULL, "stdout": subprocess.PIPE, "stderr": subprocess.DEVNULL, "timeout": 120, **streams}
    ran = subprocess.run([str(it) for it in words], cwd=folder, encoding="utf-8", errors="replace", **streams)
    return ran.stdout, ran.returncode == 0


def cache():
    """Where runs of any clone on this machine leave what later ones take: below out/ where the home can't be entered."""
    with contextlib.suppress(OSError, RuntimeError):
        folder = pathlib.Path(os.environ.get("XDG_CACHE_HOME") or pathlib.Path.home() / ".cache") / "rdfkeep"
        folder.mkdir(parents=True, exist_ok=True)
        if os.access(folder, os.R_OK | os.W_OK | os.X_OK):
            return folder
    return ROOT / "out" / "cache"


def module_of(path):
    """A program of Python as a module."""
    loader = importlib.machinery.SourceFileLoader(path.stem.replace("-", "_"), str(path))
    found = importlib.util.module_from_spec(importlib.util.spec_from_loader(loader.name, loader))
    loader.exec_module(found)
    return found


def sums_of(paths, root=ROOT):
    """A sum of each file, by its name below a folder."""
    return {str(it.relative_to(root)): hashlib.sha256(it.read_bytes()).hexdigest() for it in sorted(paths) if it.is_file()}


def rows_of(root):
    """The libraries that each crate of crates.txt uses."""
    rows = re.findall(r"(?m)^ *(\w+) *:([^#\n]*)", (root / "crates.txt").read_text())
    return {name: uses.split() for name, uses in rows}


def crates_below():
    """Each crate of crates.txt by name, with those that it stands on, lowest first and itself last."""
    uses = rows_of(ROOT)

    @functools.lru_cache(None)
    def below(name):
        return [*dict.fromkeys(it for use in uses[name] if use in uses for it in below(use)), name]

    return {name: below(name) for name in uses}


def lines_of(crate, root=ROOT):
    """How many lines of code a crate has."""
    return sum(it.read_bytes().count(b"\n") for it in (root / "crates" / crate / "src").rglob("*.rt"))


def linked(source, to):
    """A file's copy: another name of it, since checks replace the files that they keep and never write into them."""
    try:
        os.link(source, to)
    except OSError:
        shutil.copy2(source, to)


def folder_for_copies():
    """A folder for copies, for as long as it is used."""
    own = COPIES / str(os.getpid())
    own.mkdir(parents=True, exist_ok=True)
    return tempfile.TemporaryDirectory(dir=own)


@contextlib.contextmanager
def copy_of(root, below, own=KEPT, lower=KEPT):
    """A copy of a crate, whose name `below` has last, and of those below it, for as long as it is used, over what `own` and `lower` say of what is kept."""
    with folder_for_copies() as room:
        rows, at = rows_of(root), pathlib.Path(room)
        (at / "crates.txt").write_text("".join(f"{it}: {' '.join(rows[it])}\n" for it in below))
        for crate in below:
            source, to = root / "crates" / crate, at / "crates" / crate
            to.mkdir(parents=True)
            for part in ("src", "specs", "proofs", *(own if crate == below[-1] else lower)):
                if (source / part).is_dir():
                    shutil.copytree(source / part, to / part, copy_function=linked if part in KEPT else shutil.copy2)
        yield at / "crates" / below[-1]


def put(new, place):
    """Puts a folder in its place in one step, so that an interrupt leaves the old one, the new one, or none."""
    ready, old = place.with_name(place.name + ".new"), place.with_name(place.name + ".old")
    place.parent.mkdir(parents=True, exist_ok=True)
    for it in (ready, old):
        shutil.rmtree(it, ignore_errors=True)
    shutil.move(str(new), str(ready))
    if place.is_dir():
        place.rename(old)
    ready.rename(place)
    shutil.rmtree(old, ignore_errors=True)


def run(words, folder, hear=lambda line: None, until=math.inf, late=lambda: None):
    """Runs a command in a session of its own, which ends at the time `until`, behind a call of `late`, and returns its status, what it says, and the
    processor seconds of all that it ran. `hear` is told each line."""
    streams = {"stdin": subprocess.DEVNULL, "stdout": subprocess.PIPE, "stderr": subprocess.STDOUT, "errors": "replace"}
    process, said = subprocess.Popen([*ENDS_WITH_US, *map(str, words)], cwd=folder, start_new_session=True, **streams), []
    with contextlib.suppress(OSError):
        # (Linux may give each session the same share of the processors: what is nice has to be said of the session)
        pathlib.Path("/proc", str(process.pid), "autogroup").write_text(str(os.nice(0)))

    def end():
        late()
        os.killpg(process.pid, signal.SIGKILL)

    timer = threading.Timer(min(max(0, until - time.time()), threading.TIMEOUT_MAX), end)
    try:
        timer.start()
        for line in process.stdout:
            said.append(line)
            hear(line.rstrip("\n"))
    finally:
        timer.cancel()
    _, status, usage = os.wait4(process.pid, 0)
    process.returncode = os.WEXITSTATUS(status) if os.WIFEXITED(status) else -os.WTERMSIG(status)
    return process.returncode, "".join(said), usage.ru_utime + usage.ru_stime


def rt(*words):
    """The words of a command of rt, or of another that RT names."""
    if not shutil.which(RT):
        sys.exit(f"{TOOL}: {RT} isn't found: put the Rattle toolchain's command on the path")
    return [RT, *words]


def processors():
    """How many processors this process may use."""
    return len(os.sched_getaffinity(0))


def free_memory():
    """How much memory can be had, in bytes."""
    return 1024 * int(re.search(r"MemAvailable:\s+(\d+)", pathlib.Path("/proc/meminfo").read_text())[1])


def need(crate, root=ROOT):
    """The most memory that a check of a crate is likely to take, in bytes."""
    return max(2.5e9, 1.2e9 + 0.8e6 * lines_of(crate, root))


def idle_seconds():
    """How long this process's processors have stood idle since the machine began, all together."""
    idle = dict(re.findall(r"(?m)^cpu(\d+)(?: \d+){3} (\d+)", pathlib.Path("/proc/stat").read_text()))
    return sum(int(idle.get(str(it), 0)) for it in os.sched_getaffinity(0)) / os.sysconf("SC_CLK_TCK")


class Spare:
    """What a run that goes first leaves: whether one more task may begin beside it."""

    # how long a processor stands idle before, and the memory that stays free, in which that run's largest crate finds room
    SECONDS, MEMORY = 10, 6e9

    def __init__(self, is_over):
        self.is_over, self.since = is_over, (time.time(), idle_seconds())

    def __call__(self, left):
        """Whether a task may begin that leaves so much memory free."""
        is_over, now = self.is_over(), (time.time(), idle_seconds())
        watched, idle = (it - was for it, was in zip(now, self.since))
        if is_over or watched < self.SECONDS or left < self.MEMORY:
            return is_over
        # (what begins, or what asked long ago, has the processors watched anew)
        self.since = now
        return watched < 3 * self.SECONDS and idle >= 0.9 * watched


def side_by_side(tasks, lanes, coming=lambda: None, may_begin=lambda left: True):
    """Runs tasks, as many as there are lanes and free memory, the least order first, those that they return, and those that `coming` gives until it gives
    None. `may_begin` is told of each how much memory it would leave free."""
    pool, running, more = ThreadPoolExecutor(lanes), {}, []
    while tasks or running or more is not None:
        more = coming() if more is not None else None
        tasks = sorted([*tasks, *(more or [])], key=lambda it: it.order)
        for task in [*tasks]:
            # (what runs may not have all of its memory yet)
            left = 0.85 * free_memory() - sum(running.values()) / 2 - task.memory
            if len(running) < lanes and (not running or left >= 0) and may_begin(left):
                tasks.remove(task)
                running[pool.submit(task.call)] = task.memory
        if not running and (tasks or more is not None):
            time.sleep(2)
        for ended in wait(running, 2, FIRST_COMPLETED).done:
            del running[ended]
            tasks += ended.result()


def ends(main):
    """Runs a tool, and ends with its status, at once also where it is interrupted or fails: its copies go then as the next one begins."""
    for it in COPIES.glob("*"):
        if not pathlib.Path("/proc", it.name).exists():
            shutil.rmtree(it, ignore_errors=True)
    for it in (signal.SIGTERM, signal.SIGHUP):
        if signal.getsignal(it) != signal.SIG_IGN:
            signal.signal(it, signal.default_int_handler)
    try:
        status = main() or 0
    except SystemExit as end:
        status = end.code or 0
    except KeyboardInterrupt:
        status = 130
        print(f"{TOOL}: interrupted", file=sys.stderr)
    except BaseException:
        status = traceback.format_exc()
    if isinstance(status, str):
        print(status, file=sys.stderr)
    sys.stdout.flush()
    with contextlib.suppress(OSError):
        (COPIES / str(os.getpid())).rmdir()
    sys.stderr.flush()
    os._exit(status if isinstance(status, int) else 1)
