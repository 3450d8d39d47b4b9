"""What a check says of wrong bodies. It relies on the words of `rt check`."""
import re

from edits import REFUSED, is_of

# what became of an edit: the prover found values at which a goal is false, or no proof of it within its limits, or an answer names what the edit took away,
# which shows nothing; or it is not refused, is no edit that a check can judge, was in no check that says anything of it, or is left for another run
REFUTED, UNPROVED, AT_NAMES, PROVED, BAD, UNTRIED, SKIPPED = KINDS = ("refuted", "no proof", "names alone", "not refused", "bad", "not tried", "skipped")
# what a check says of a goal, and of one that it refutes
NOTE = re.compile(r"(?m)^note: (src/\S+?):(\d+):\d+: (?:it is not proved that|`search` found no proof) .*?\(`(\S+?)`\)(.*)")
FALSE = "the facts known there allow values at which this goal is false"
# what it says of a function besides its own failure
CALLS = re.compile(r"[;:]( in `\S+`, of this cycle of calls:)? it (calls|passes) .*")
# what it says where an answer file names what isn't there any more
NAMES = re.compile(r"has no field|is not in scope|has no `|was not admitted|record `\S+` \(nearest: ")
DEPENDS = re.compile(r"declarations? that depends? on ")
WAITS = "its goals wait for a callee's proof"
UNCOVERED = "the borrow checker does not cover this function"


def complaint(said):
    """The line that says best why a check says nothing of proofs."""
    return [*re.findall(r".*error.*", said), *filter(str.strip, said.split("\n")), "nothing was said"][0][:200]


def lines_of_functions(said):
    """What a check says of each function, by name."""
    return dict(re.findall(r"(?m)^fn (\S+): (.*)", said))


def errors_in(place, said):
    """What is wrong in files whose names begin so."""
    return re.findall(rf"(?m)^(?:\./)?{place}\S*: error(?:: )?(.*)", said)


def verdicts(batch, said):
    """What the check of these edits says of each, or nothing where it says nothing of proofs, and which other functions fail by themselves."""
    if not re.search(r"(?m)^(only=|logic=(not-)?proved)", said):
        return {}, set()
    lines = lines_of_functions(said)
    failures = {it: of for it, of in ((it, failure(it, line, said)) for it, line in lines.items()) if of}
    own = {it.name: [name for name in failures if any(is_of(name, s) for s in it.symbols)] for it in batch}
    told = {it.name: verdict(it, own[it.name], lines, failures, said) for it in batch}
    others = {*failures} - {name for it in own.values() for name in it}
    if others:
        why = f"{min(others)}, which no edit of this check changes, fails too: {failures[min(others)]}"
        told = {name: of if of[0] == BAD else (UNTRIED, why) for name, of in told.items()}
    return told, others


def verdict(edit, own, lines, failures, said):
    """What a check says of one edit, of whose functions `own` fail by themselves."""
    edit.open, errors = open_goals(edit, own, failures, said)
    if edit.is_definition:
        # a law fails by its lemmas, on which its answers depend
        errors = [it for it in errors_in("proofs/", said) if not DEPENDS.search(it)] or errors
    names = {it.name for it in edit.functions}
    # (or a callee of its cycle isn't covered)
    unclear = [it for it in own if "could not tell" in failures[it] or failures[it].startswith("no proof") and "did not prove" not in failures[it]]
    if edit.is_definition and errors_in("specs/", said):
        return BAD, "the definition that it leaves is none"
    if not all(s in lines for s in edit.symbols):
        return UNTRIED, "the check has no line of this function"
    if any(UNCOVERED in failures[it] and it.rpartition("::")[2] in names for it in own):
        return BAD, "no goal is tried of a body in this form, which the borrow checker does not cover"
    if unclear:
        return UNTRIED, f"{unclear[0]}: {failures[unclear[0]]}"
    if any(FALSE in it for it in edit.open.values()):
        return REFUTED, f"{edit.at} at {stated([*edit.open], edit.clauses)}"
    if errors and len(errors) >= len(edit.open) and all(NAMES.search(it) for it in errors):
        return AT_NAMES, f"{edit.at}, which says nothing of the contract: {errors[0][:120]}"
    if edit.open or errors:
        return UNPROVED, f"{edit.at} at {stated([*edit.open], edit.clauses) if edit.open else errors[0][:120]}"
    # behind some callees that aren't proved the tactics don't try a function's goals
    waits = [f"has not tried the goals of `{it}`" for it in edit.symbols] + [f"proofs/{it}/Answers.antt is not checked until" for it in edit.folders()]
    if any(it in said for it in waits):
        return UNTRIED, WAITS
    failed = [it for it in own if failures[it] != "not proved"]
    return (UNTRIED, f"{failed[0]} fails at no goal of its own: {failures[failed[0]][:120]}") if failed else (PROVED, f"{edit.at} is still proved")


def open_goals(edit, own, failures, said):
    """The goals of an edit's functions that a check leaves open, each with what it says of it, and the errors at their answers."""
    found, names = {}, {it.name for it in edit.functions}
    for file, line, goal, rest in NOTE.findall(said):
        if any(it.file == file and it.first < int(line) <= it.last + 1 for it in edit.functions):
            found.setdefault(goal, rest)
    folders = "|".join(map(re.escape, edit.folders()))
    answers = errors_in(rf"proofs/(?:{folders})/(?:Answers|Invariants|Proof)\.antt", said)
    named = [((re.findall(r"\A`(\S+?)`: ", text) or [""])[0], text) for text in answers]
    named += [(goal, "") for it in own for goal in re.findall(r"`(\S+?)`", failures[it].partition("did not prove")[2])]
    # (the goals of a cycle of calls begin with the name of the function whose body asks for them)
    named = [it for it in named if it[0] not in (REFUSED, *edit.beside) and (not edit.cycles or it[0].partition("-")[0] in names)]
    for goal, text in named:
        found.setdefault(goal, text)
    found.pop("", None)
    return found, [text for _, text in named if text]


def failure(symbol, line, said):
    """What a check says of a function's own failure, if it fails by itself: not if it only stands on others that aren't proved."""
    if not re.match("not proved|no proof|could not tell", line):
        return ""
    text, (crate, _, path) = CALLS.sub("", line), symbol.partition("::")
    # (the declaration that stands behind an edited function's answers says nothing of its goals)
    text = re.sub(rf"; it stands on `[^`]*\.Answers\.{REFUSED}`, which antt refuses", "", text)
    refused = re.search(r"; it stands on (.*), which antt refuses", text)
    # its own answers, or those of its cycle of calls, which lie beside it in a folder +NAME
    own, module = path.replace("::", "."), path.replace("::", ".").rpartition(".")[0]
    if refused and not re.search(rf"`Rattle\.{crate}\.proofs\.({re.escape(own)}|{re.escape(module)}\.\+\w+)\.", refused[1]):
        text = text.replace(refused[0], "")
        return "" if text == "not proved" else text
    if text == "not proved" and text != line:
        # a callee isn't proved: it fails by itself only where its answers do, or its cycle's
        places = "|".join(re.escape(it.replace(".", "/")) for it in (own, f"{module}.+"))
        return text if errors_in(rf"proofs/(?:{places})\w*/\w+\.antt", said) else ""
    return "" if text == "no proof" else text


def stated(goals, clauses):
    """The first three goals and how many more there are, and the clauses that the first is of, if its name doesn't say it."""
    says = clauses and goals[0].startswith("returns") and "-clause-" not in goals[0]
    more = f" and {len(goals) - 3} more" if len(goals) > 3 else ""
    return ", ".join(f"`{it}`" for it in goals[:3]) + more + (f" ({', '.join(clauses)})" if says else "")
