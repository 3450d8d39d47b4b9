"""What `tools/self-test` tries the tools on: rows, each with what is wrong with it, texts of edits and of checks, and a small crate."""
import re

from counted import Run
from shared import ROOT, module_of
from verdicts import AT_NAMES, BAD, PROVED, REFUTED, UNPROVED, UNTRIED

# cases by files, each with what is wrong with it
CASE = "== one\n-- args run\n"
TABLES = {
    "nothing": {"a.table": f"{CASE}== two\n-- args ⟨FF⟩\n", "least": "", "c.py": ""},
    "an unknown key": {"a.table": f"{CASE}-- stdot x\n"},
    "an unknown device": {"a.table": f"{CASE}-- device ful\n"},
    "a device without its number": {"a.table": f"{CASE}-- device pieces\n"},
    "a .has without lines": {"a.table": f"{CASE}-- stderr.has\n"},
    "== without a space": {"a.table": f"{CASE}==two\n"},
    "two cases of one name": {"a.table": CASE + CASE},
    "a table without a case": {"a.table": "-- args run\n"},
    "a file that no table is": {"a.table": CASE, "b.tabel": CASE},
    "a table in a folder": {"a.table": CASE, "b/c.table": CASE},
}
# changes of the library that ask for more room than is needed: a file, what stands in it, and what stands there then
ROOMS = {
    "nothing": ("sparql_solve/src/results.rt", "rows.len() }", "rows.len() }"),
    "a square": ("sparql_solve/src/results.rt", "rows.len() }", "rows.len().saturating_mul(rows.len()) }"),
    "a great number": ("rdf_store/src/look_ups.rt", "out.reserve_exact(keys.len())?;", "out.reserve_exact(1 << 60)?;"),
    "a great constant": ("rdf_turtle/src/grammar.rt", "const ROOM: usize = 8;", "const ROOM: usize = 8_000_000_000;"),
    "a great choice": ("rdf_turtle/src/grammar.rt", "        SEVERAL\n", "        usize::MAX\n"),
    "a name that is made anew": ("rdf_sets/src/sorted.rt", "items, &mut more)?;", "items, &mut more)?;\n    let room = room * room;"),
    "a line that isn't listed": ("rdf_dataset/src/chain.rt", "\nuse ", "\nfn more(alloc: Global) { Vec::with_capacity(alloc, 1) }\nuse "),
}
# what a case costs at n, 2n and 4n, what is kept of it, and how much of that is too much where 2.3 times is the most over twice as much
COSTS = {
    "nothing": ([100, 220, 480], [100, 220, 480], 0),
    "a twentieth more, and less": ([105, 200, 300], [100, 220, 480], 0),
    "a fifth more": ([120, 264, 576], [100, 220, 480], 3),
    "a square": ([100, 400, 1600], [100, 400, 1600], 2),
    "a square of requests": ([100, 200, 400, 10, 40, 160], [100, 200, 400, 10, 40, 160], 2),
    "a byte where none was kept": ([0, 0, 1], [0, 0, 0], 2),
    "nothing that is kept": ([100, 220, 480], [], 1),
}
# how much of a processor stood idle, what a check would leave of the memory, whether that run is over, and whether the check begins
SPARES = {
    "a processor idle": (1.0, 9e9, False, True),
    "no processor idle": (0.5, 9e9, False, False),
    "little memory": (1.0, 5e9, False, False),
    "nothing beside it": (0.0, 1e9, True, True),
}


# ---- runs with refused growths


def run(output, refused=1, status=0, errors=""):
    """A run of a program, so many of whose requests for memory were refused."""
    return Run(output, errors, status, 1, refused, 8)


class Sessions:
    """A program that answers each command of a session with `ok`."""

    @staticmethod
    def run(_, text):
        return run("ok\n" * len(re.findall("(?m)^%(?!end)", text)))


LINE, TWO = "a part, 2 places: 1\n", '<a:s> <a:p> "1" .\n<a:s> <a:p> "2" .\n'
PART, LINES, SESSION = ["a part: 1\n"], [None, (), "lines"], [Sessions, (), "answers"]
ENDED = run(TWO[:18], 1, 4, "rdfkeep: no memory\n")
MISSED = run(4 * "ok\n" + "refused: NoMemory\n" + 6 * "ok\n", 1, 1)
# a tool, what it is asked, an untouched run, one with a request refused alone and one with all from it on, and how much is wrong with them
GROWTHS = {
    "nothing of a part": ("fail-alloc", PART, run(PART[0], 0), run(PART[0]), run(PART[0], 2), 0),
    "the answer of a part": ("fail-alloc", PART, run(PART[0], 0), run("a part: 2\n"), run(PART[0]), 1),
    "a refusal that doesn't come": ("fail-alloc", PART, run(PART[0], 0), run(PART[0], 0), run(PART[0], 0), 2),
    "the end of a part": ("fail-alloc", PART, run(PART[0], 0), run(PART[0], 1, 1), run(PART[0]), 1),
    "a place": ("fail-alloc", [LINE], run(LINE, 0), run(LINE.strip() + ", refused at 1\n"), run(LINE.strip() + ", refused at 2\n"), 2),
    "nothing of lines": ("fail-program", LINES, run(TWO, 0), ENDED, ENDED, 0),
    "half a line": ("fail-program", LINES, run(TWO, 0), ENDED._replace(output=TWO[:20]), ENDED, 1),
    "what isn't said of memory": ("fail-program", LINES, run(TWO, 0), ENDED, ENDED._replace(errors=""), 1),
    "the status, which is none of a refusal": ("fail-program", LINES, run(TWO, 0), run(TWO), run(TWO), 1),
    "nothing of a session": ("fail-program", SESSION, run(11 * "ok\n", 0), MISSED, ENDED._replace(output=3 * "ok\n"), 0),
    "a session behind a refusal": ("fail-program", SESSION, run(11 * "ok\n", 0), MISSED._replace(output=MISSED.output.replace("ok", "no", 1)), ENDED, 2),
    "the end of a session": ("fail-program", SESSION, run(11 * "ok\n", 0), MISSED, ENDED._replace(output=3 * "ok\n", status=1), 2),
}

# ---- edits, and what checks say of them

edit_of = lambda old, new: f"file: src/lib.rt\nold: {old}\nnew: {new}\n"
definition_of = lambda file, law: f"file: {file}\nlaw: {law}\nold: three = 3\nnew: three = 4\n"
function = lambda head, clause, *body: f"pub fn {head}\n    ensures {clause}\n{{\n" + "".join(f"    {it}\n" for it in body) + "}\n"
SOURCE = "".join(function(f"f{it}() -> u64", f"is_{it} {{ result ≡ {it} }}", str(it)) + "\n" for it in range(4))
TRAIT = "pub trait Shape {\n    fn side(&self) -> u64\n        ensures { result ≡ 1 }\n    {\n        1\n    }\n}\n"
DEFINED = {"specs/Three.antt": "three : Nat\nthree = 3\n", "src/laws.rt": "pub fn three_is_odd()\n    ensures { Odd }\n{}\n"}
RIGHT = {
    "must-fail/right.edit": (edit_of("    0", "    1"), "small::f0"),
    "wrong-definitions/even.edit": (definition_of("specs/Three.antt", "laws::three_is_odd"), "small::laws::three_is_odd"),
}
BODY, LAW = RIGHT
REFUSED_EDITS = {
    "a name that no edit has": ("must-fail/stray.txt", edit_of("    0", "    1")),
    "an unknown key": ("must-fail/a.edit", edit_of("    0", "    1") + "why: so\n"),
    "a text that is absent": ("must-fail/a.edit", edit_of("    7", "    1")),
    "a contract": ("must-fail/a.edit", edit_of("is_0 { result ≡ 0 }", "is_0 { result ≡ 1 }")),
    "nothing": ("must-fail/a.edit", edit_of("    0", "    0")),
    "a definition, with no law": ("wrong-definitions/a.edit", definition_of("specs/Three.antt", "laws::none")),
    "a body, among wrong definitions": ("wrong-definitions/a.edit", edit_of("    0", "    1")),
}
NOTE = "note: src/lib.rt:4:5: it is not proved that what the function ensures holds when it returns (`returns`)"
FALSE = f"{NOTE}; the facts known there allow values at which this goal is false\n"
MARKED = "fn small::f0: not proved; it stands on `Rattle.small.proofs.f0.Answers.untried`, which antt refuses\n"
answers = lambda error: f"./proofs/f0/Answers.antt:3:1: error: `returns`: {error}\n{MARKED}"
BROKEN = "./proofs/laws/three_is_odd/Answers.antt:4:5: error: `returns`: expected type `Odd 3`, but this has type `Odd 4`\n"
DEPENDS = "./proofs/laws/three_is_odd/Answers.antt:4:5: error: 1 declaration that depends on `odd`, which was not admitted, was not checked: returns\n"
OPEN = "fn small::laws::three_is_odd: not proved\n"
lemma = lambda error: f"./proofs/Odd.antt:9:1: error: `odd`: {error}\n{DEPENDS}{OPEN}"
# what a check says of which edit, and what becomes of that
SAID = {
    "values at which a goal is false": (BODY, FALSE + MARKED, REFUTED),
    "no proof within the limits": (BODY, f"{NOTE}; `grind` gave up at one of its limits\n{MARKED}", UNPROVED),
    "names of an answer file alone": (BODY, answers("`l` has no field `kept`"), AT_NAMES),
    "names of an answer file alone, in other words": (BODY, answers("record `l` (nearest: .keeps)"), AT_NAMES),
    "an answer that doesn't fit": (BODY, answers("expected type `a`, but this has type `b`"), UNPROVED),
    "the tool's own mark": (BODY, MARKED, PROVED),
    "the tool's own mark beside a callee": (BODY, MARKED.replace("refuses", "refuses; it calls `small::f1`, which is not proved"), PROVED),
    "goals that wait": (BODY, f"note: rattle has not tried the goals of `small::f0`\n{MARKED}", UNTRIED),
    "another function that fails": (BODY, f"{FALSE}{MARKED}fn small::f1: not proved: rattle did not prove `returns`\n", UNTRIED),
    "no line of the function": (BODY, "", UNTRIED),
    "a law that fails": (LAW, BROKEN + OPEN, UNPROVED),
    "a lemma that fails": (LAW, lemma("expected type `a`, but this has type `b`"), UNPROVED),
    "a name that is gone": (LAW, lemma("`three` is not in scope"), AT_NAMES),
    "a law that holds": (LAW, "fn small::laws::three_is_odd: proved\n", PROVED),
    "no definition": (LAW, f"./specs/Three.antt:2:1: error: no term\n{BROKEN}{OPEN}", BAD),
}

# ---- runs of a repository of one crate, with a toolchain that only says what a check would

KIT = (ROOT / "tests" / "kit.py").read_text()
PASSES = "#!/bin/sh\necho '1 passed, 0 failed'\n"
PARTS = module_of(ROOT / "tools" / "test-all").PARTS
LEAST = "# each\n" + "".join(f"{it} 1  # so many\n" for it in PARTS)
STRAY = "crates/small/must-fail/stray"
# what is shown of a run: the files that are written before, the words, what the kit is asked, the status, and what is said
RUNS = [
    ({}, "", "", 0, {"all parts pass, in a home that can't be entered": r"\n18 passed, 0 failed\Z", "a line says how many it judged": "4 of 4 wrong bodies"}),
    ({}, "--minutes 0 --anew", "", 0, {"no wrong body begins past the time": r"\n14 passed, 0 failed, 4 skipped\Z"}),
    ({}, "--anew", "anew", 1, {"a kit that can begin anew is asked to": "(?m)^proofs: anew, 0 passed$"}),
    (
        {}, "--anew", "names", 1,
        {"names of answers alone fail": r"\n17 passed, 1 failed\Z", "and are named": r"(?m)^wrong bodies: wrong-bodies \[\S+ small/e0\.edit: names alone: "},
    ),
    (
        {}, "--anew --end 0.1", "stalls", 1,
        {"rt ci is ended, and what stalls is named": r"(?m)^proofs: rt: .* NOT PROVED: at work on small; not proved yet: small$"},
    ),
    ({STRAY: ""}, "", "", 1, {"a stray file among the edits fails": "stray: bad"}),
    (
        {STRAY: None, "tests/least": LEAST.replace("models 1", "models 2")}, "--minutes 0", "", 1,
        {"a part that counts too few fails": "(?m)^models: it counts 1, and tests/least has 2 for it$"},
    ),
    ({"tests/least": LEAST.replace("proofs 1", "")}, "--minutes 0", "", 1, {"a part without a least number fails": "proofs: it counts 3, and .* has inf"}),
    ({"tests/least": LEAST}, "--anew --minutes 0", "changes", 1, {"a tree that changes fails": "(?m)^README.md changed while the tree was judged$"}),
]

# ---- a small crate

NOTHING = "nothing_is_left { result ≡ 0 }"
MATCH = ("match (first, second) {", "    (Some(true), _) | (_, Some(true)) => 1,", "    _ => 0,", "}")
CRATE = f"""\
//! Numbers doubled.
#![tactic(auto)]

ghost use Rattle.std.specs.Prelude.{{◌≡◌, ◌≤◌, ◌*◌}};

{function("twice(number: u32) -> u64", "doubled { result ≡ 2 * number }", "2 * (number as u64)")}
{function("four_times(number: u32) -> u64", "doubled_again { result ≡ 4 * number }", "2 * same(twice(number))")}
{function("same(number: u64) -> u64", "kept { result ≡ number }", "let kept = number;", "kept")}
#[cycle(steps)]
{function("nothing(number: u64) -> u64", NOTHING, "if number == 0 {", "    return number;", "}", "nothing_either(number - 1)")}
#[cycle(steps)]
{function("nothing_either(number: u64) -> u64", NOTHING, "if number == 0 { 0 } else { nothing(number - 1) }")}
pub struct Pair {{
    pub number: u64,
    pub double: u64,
}}

impl Pair {{
    pub fn first() -> Pair
        ensures number {{ result.number ≡ 1 }}
        ensures double {{ result.double ≡ 2 }}
    {{
        let number = same(1);
        Pair {{ number, double: twice(1) }}
    }}
}}

{function("one_of(first: Option<bool>, second: Option<bool>) -> u64", "at_most_one { result ≤ 1 }", *MATCH)}"""
STEPS = "use Rattle.doubling.proofs.+steps.Given as goal\n" + "".join(
    f"\nabbrev pub decreases-{it} : goal.decreases-{it}\ndecreases-{it} l = l.number\n" for it in ("nothing", "nothing_either")
)
FUNCTIONS = "twice four_times same nothing nothing_either one_of Pair::first".split()
# each edit: what it turns, what becomes of it, and where it is refused
EDITS = {
    "right": ("2 * same(twice(number))", "same(twice(number)) + twice(number)", PROVED, ""),
    "wrong": ("2 * (number as u64)", "number as u64", REFUTED, "doubling::twice at `returns` (doubled)"),
    "broken": ("let kept = number;", "let kept = numbers;", BAD, ""),
    "right_method": ("let number = same(1);", "let number = 1;", PROVED, ""),
    "step": ("return number;", "return 1;", REFUTED, " at `nothing-returns-then-number-eq0`"),
    "right_step": ("nothing(number - 1)", "nothing(0)", PROVED, ""),
    "uncovered": ("(Some(true), _) | (_, Some(true)) => 1", "(Some(true), Some(_)) | (Some(_), Some(true)) => 2", BAD, ""),
}
