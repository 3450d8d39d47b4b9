#!/usr/bin/env python3
"""What `tools/self-test` has in the toolchain's place, as `rt` and as `rtlib.py`: it only says what a check would. The variable ASKED says what is special."""
import os
import pathlib
import sys
import time

RATTLE = str(pathlib.Path(__file__).with_name("rt"))
PROVED = ["== small", *(f"fn small::f{it}: proved" for it in range(4)), *(f"rt: {it} proved" for it in ("small", "rdfkeep", "refusals", "session_refusals"))]
UNPROVED = "it is not proved that it is (`returns`); the facts known there allow values at which this goal is false"


class Crate:
    def __init__(self, *_):
        pass

    def words(self, *_, **named):
        return []


def ci(words, asked):
    stalls = asked == "stalls"
    print(*PROVED[6 if stalls else 0 :], sep="\n", flush=True)
    if asked == "changes":
        pathlib.Path(os.environ["REPOSITORY"], "README.md").write_text("other")
    if stalls:
        os.chdir("crates/small")
    time.sleep(60 if stalls else 1)
    print("anew, 0 passed" if words else "3 passed, 0 failed")


def check(words, asked):
    """A check of wrong bodies of the functions that `--only` names."""
    for it in (int(it[-1]) for at, it in enumerate(words) if words[at - 1] == "--only"):
        if asked == "names" and it == 0:
            print("./proofs/f0/Answers.antt:3:1: error: `returns`: `l` has no field `kept`")
        else:
            print(f"note: src/lib.rt:{6 * it + 4}:5: {UNPROVED}")
        print(f"fn small::f{it}: not proved; it stands on `Rattle.small.proofs.f{it}.Answers.untried`, which antt refuses")
    print("only=1")


def main(first, *words):
    folder, asked = pathlib.Path.cwd(), os.environ.get("ASKED", "")
    if first == "help":
        print("rt ci [--anew]" if asked == "anew" else "rt ci")
    elif first == "version":
        print("a kit")
    elif first == "ci":
        ci(words, asked)
    elif asked == "sleeps":
        pathlib.Path(os.environ["REPOSITORY"], "began").write_text("")
        time.sleep(60)
    elif asked == "killed":
        os.kill(os.getpid(), 9)
    elif asked == "broken" and (folder.parent / "small/out/rlib/broken").exists():
        sys.exit("the rlib of `small` at `x` is not as `rattle build` wrote it")
    elif "--only" in words:
        check(words, asked)
    else:
        (folder / "out/rlib").mkdir(parents=True, exist_ok=True)
        print("so far: 1 of 1\nlogic=proved")


if __name__ == "__main__":
    main(*sys.argv[1:])
