"""In which order wrong bodies are judged: what changed last by the repository's history, then the others, drawn anew by each commit."""
import collections, hashlib, os, re, shutil

from shared import ROOT, said

# how long before the last commit a change counts as one of the last, in seconds
LAST = 12 * 3600
HUNK = re.compile(r"@@ -\S+ \+(\d+)(?:,(\d+))? @@")
CLAUSE = re.compile(r"[-+].*\b(ensures|requires)\b")


def git(*words):
    """What git says, and nothing where it fails, as in a folder without a history. It needs no home."""
    environment = {**os.environ, "HOME": str(ROOT), "GIT_CONFIG_NOSYSTEM": "1"}
    text, is_well = said("git", "-c", "safe.directory=*", *words, folder=ROOT, env=environment, timeout=None) if shutil.which("git") else ("", False)
    return text.strip() if is_well else ""


def commit():
    """The commit that is judged, and `+` where the files differ from it."""
    found = git("rev-parse", "--short", "HEAD")
    return (found + "+" * bool(git("status", "--porcelain"))) if found else "no commit"


class Order:
    """The place of each edit: first those that changed themselves or whose function did, then those of crates whose contracts changed, then the others.
    Among these a sum of the commit and the edit's name decides. Where the history is too short to tell, that alone does."""

    def __init__(self):
        self.commit, self.files, self.contracts = git("rev-parse", "HEAD"), collections.defaultdict(list), set()
        ended = git("log", "-1", "--format=%ct") or "0"
        before = git("rev-list", "-1", f"--before={int(ended) - LAST}", "HEAD") if self.commit else ""
        self.read(git("diff", "-U0", "--no-color", "--no-renames", before, "--", "crates") if before else "")

    def read(self, difference):
        file = crate = ""
        for line in difference.split("\n"):
            hunk = HUNK.match(line)
            if line.startswith(("--- a/crates/", "+++ b/crates/")):
                file, crate = line[6:], line.split("/")[2]
                self.files[file]
            elif hunk:
                first, count = int(hunk[1]) - 1, int(hunk[2] or 1)
                # (what goes without anything in its place lies behind the line that is named)
                self.files[file].append((first, first + (count - 1 if count else 1)))
            if hunk and "/specs/" in file or CLAUSE.match(line) and file.endswith(".rt"):
                self.contracts.add(crate)

    def __call__(self, crate, edit):
        own = any(first <= it.last and it.first <= last for it in edit.functions for first, last in self.files.get(f"crates/{crate}/{it.file}", ()))
        own = own or edit.is_definition and any(f"crates/{crate}/{file}" in self.files for file, _ in edit.lines)
        rank = 0 if own or f"crates/{crate}/{edit.path.parent.name}/{edit.name}" in self.files else 1 if crate in self.contracts else 2
        return rank, hashlib.sha256(f"{self.commit} {crate}/{edit.name}".encode()).hexdigest()
