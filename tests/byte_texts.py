"""The sessions of texts that `tools/compare-readers` has two programs read: texts of a language, and texts with a change of one byte."""
import functools, random, re

from shared import ROOT, module_of
from hostile_texts import SHORT

# the command that reads a text of each language
COMMANDS = {"turtle": b"load turtle", "update": b"update", "query": b"query"}
# the longest text that is changed, in bytes
LONGEST = 3000
TEA = (ROOT / "examples" / "tea.ttl").read_bytes()


@functools.lru_cache(None)
def texts(language):
    """The texts that are changed, each once: one of every kind of construct, this command's bodies in all sessions of tests/, and what its tests convert."""
    read, command = module_of(ROOT / "tests" / "run").read_table, COMMANDS[language]
    cases = [it for table in sorted((ROOT / "tests").glob("*.table")) for _, it in read(table)]
    body = re.compile(rb"^%%%b[^\n]*\n(.*?)\n?^%%end\r?$" % command, re.M | re.S)
    found = [SHORT[f"%{command.decode()}"].encode()]
    found += [TEA, *(it["stdin"] for it in cases if it.get("args", b"").startswith(b"convert\n--from\nturtle"))] if language == "turtle" else []
    found += [it for case in cases for it in body.findall(case["stdin"])]
    return [it for it in dict.fromkeys(found) if 0 < len(it) <= LONGEST]


def changed(chance, text, others):
    """The text with a change of one byte."""
    place, way = chance.randrange(len(text)), chance.randrange(4)
    byte = bytes([chance.randrange(256) if chance.random() < 0.5 else chance.choice(others)])
    front, rest = text[:place], text[place:]
    return front + (byte + rest[1:], rest[1:], byte + rest, rest[1:2] + rest[:1] + rest[2:])[way]


def bodies_of(language, seed, number, count):
    """The texts of a session: the first two begin with all as they stand. One with a line `%end` is left out."""
    given, chance = texts(language), random.Random(f"{seed} {number}")
    others = b"".join(given)
    made = (given if number < 2 else []) + [changed(chance, chance.choice(given), others) for _ in range(count)]
    return [it for it in made if not re.search(rb"(?m)^%end\r*$", it)]


def script_of(language, bodies):
    """A session of these texts. Queries are asked of a few quads."""
    if language == "query":
        return b"".join(b"%%%b\n%b\n%%end\n" % it for it in [(b"load turtle", TEA), *((b"query", it) for it in bodies)])
    return b"".join(b"%%%b\n%b\n%%end\n%%print\n%%undo\n" % (COMMANDS[language], it) for it in bodies)
