#!/usr/bin/env python3
"""Writes a script of texts by chance into the current folder, with what the program has to answer.

    syntax_texts.py turtle|update|query   texts that the grammar derives, as they are and with a token changed, put in, lost or cut
                                          off: Syntax at the first token with which no text can begin, or at the end, and where
                                          the grammar has the text, UnknownPrefix at its first name

The grammars are written from docs/FORMATS.md. A text is followed along all the ways in which it may go on, and is at fault where
none is left. Each token stands in a line of its own. A text that the grammar has and in which each prefix is declared is left out.
"""
import random
import re
import sys
from pathlib import Path

TEXTS, SMALL = 2_000, 60
TURTLE = """
text = statement*
statement = directive | triples .
directive = @prefix NS IRI . | @base IRI . | PREFIX NS IRI | BASE IRI
triples = subject properties | brackets properties?
properties = verb objects ( ; ( verb objects )? )*
objects = object ( , object )*
verb = iri | a
subject = iri | blank | list
object = iri | blank | list | brackets | literal
blank = LABEL | [ ]
brackets = [ properties ]
list = '( object* ')
literal = STRING ( TAG | @prefix | @base | ^^ iri )? | INTEGER | SIGNED | DECIMAL | true | false
iri = IRI | NAME | NS
"""
SPARQL = """
prologue = ( PREFIX NS IRI | BASE IRI )*
triples = same ( . same )* .?
same = term properties | node properties?
properties = verb objects ( ; ( verb objects )? )*
objects = object ( , object )*
object = term | node
verb = VAR | iri | a
node = [ properties ] | '( object+ ')
term = VAR | iri | literal | LABEL | [ ] | '( ')
name = VAR | iri
literal = STRING ( TAG | ^^ iri )? | INTEGER | SIGNED | DECIMAL | TRUE | FALSE
iri = IRI | NAME | NS
group = { triples? ( other .? triples? )* }
other = group ( UNION group )* | OPTIONAL group | MINUS group | GRAPH name group | FILTER ( '( expr ') | call )
expr = and ( || and )*
and = rel ( && rel )*
rel = add ( ( = | != | < | > | <= | >= ) add )?
add = mul ( + mul | - mul | SIGNED ( '* unary )* )*
mul = unary ( '* unary )*
unary = ( ! | + | - )? primary
primary = '( expr ') | call | iri | literal | VAR
call = BOUND '( VAR ') | SAMETERM '( expr , expr ') | ( ISIRI | ISURI | ISBLANK | ISLITERAL | STR | LANG | DATATYPE ) '( expr ')
"""
QUERY = SPARQL + "text = prologue ( SELECT DISTINCT? ( VAR+ | '* ) | ASK ) WHERE? group\n"
UPDATE = (
    SPARQL
    + """
text = prologue ( operation ( ; text )? )?
operation = INSERT DATA quads | DELETE DATA quads | DELETE WHERE quads
operation = ( WITH iri )? ( DELETE quads ( INSERT quads )? | INSERT quads ) WHERE group
operation = CREATE SILENT? GRAPH iri | ( CLEAR | DROP ) SILENT? ( GRAPH iri | DEFAULT | NAMED | ALL )
operation = ( COPY | MOVE | ADD ) SILENT? place TO place
place = DEFAULT | GRAPH? iri
quads = { triples? ( GRAPH name { triples? } .? triples? )* }
"""
)
# how some kinds of tokens are written; the others are words and signs
WRITTEN = {
    "IRI": ["<a:o>"],
    "NAME": ["p:o", "p:x.y"],
    "NS": ["q:", ":"],
    "LABEL": ["_:x"],
    "STRING": ['"x"', "'''y'''"],
    "TAG": ["@en", "@de-AT"],
    "INTEGER": ["1"],
    "SIGNED": ["-1", "+2.5"],
    "DECIMAL": [".5", "1e0"],
    "VAR": ["?x", "$y"],
}
# tokens that no text has
STRANGE = ["A", "yes", "/"]


class Grammar:
    """Rules in the notation of docs/FORMATS.md; signs of that notation that are tokens have a quote before them."""

    def __init__(self, rules):
        self.rules = {}
        for line in rules.split("\n"):
            name, sign, form = line.partition(" = ")
            if sign:
                self.rules.setdefault(name, []).append(self.choice(re.findall(r"'?[^\s?+*]+[?+*]?|[?+*]", form)))
        self.rules = {name: ("or", tuple(forms)) for name, forms in self.rules.items()}
        self.sizes, self.least = {name: 10**6 for name in self.rules}, {}
        for _ in self.rules:
            self.sizes = {name: self.size(form) for name, form in self.rules.items()}
        self.kinds = sorted({kind for form in self.rules.values() for kind in self.words(form)} - self.rules.keys())

    # A form is a name of a rule or a kind of token, ("or", forms), ("then", forms), or a form that may be missing or stand more
    # than once: ("?", form), ("*", form), ("+", form).

    def choice(self, words):
        """One of several forms, up to the end or to the parenthesis that ends it."""
        forms = [[]]
        while words and words[0][0] != ")":
            word = words.pop(0)
            if word == "|":
                forms.append([])
                continue
            count = word[-1] if word[-1] in "?+*" and len(word) > 1 and word != "'*" else ""
            word = word[: len(word) - len(count)]
            form = self.choice(words) if word == "(" else word.lstrip("'") or word
            if word == "(":
                count = words.pop(0)[1:]
            forms[-1].append((count, form) if count else form)
        return ("or", tuple(("then", tuple(form)) for form in forms))

    def words(self, form):
        """The names of rules and the kinds of tokens of a form."""
        if isinstance(form, str):
            return {form}
        return set().union(*map(self.words, form[1])) if form[0] in ("or", "then") else self.words(form[1])

    def size(self, form):
        """How many tokens the form has at least."""
        if isinstance(form, str):
            return self.sizes.get(form, 1)
        if form[0] in ("or", "then"):
            return (min if form[0] == "or" else sum)(map(self.size, form[1]))
        return self.size(form[1]) if form[0] == "+" else 0

    def derive(self, form, chance, left):
        """The kinds of tokens of a text of the form, small where not so much is left."""
        if isinstance(form, str):
            return self.derive(self.rules[form], chance, left - 1) if form in self.rules else [form]
        if form[0] == "then":
            return [kind for part in form[1] for kind in self.derive(part, chance, left)]
        if form[0] == "or":
            if id(form) not in self.least:
                self.least[id(form)] = [it for it in form[1] if self.size(it) == self.size(form)]
            return self.derive(chance.choice(form[1] if left > 0 else self.least[id(form)]), chance, left)
        most = 1 if form[0] == "?" else 2
        count = chance.randrange(most + 1) if left > 0 else 0
        return [kind for _ in range(max(count, form[0] == "+")) for kind in self.derive(form[1], chance, left - 2)]

    def behind(self, rest, kind):
        """Where such a rest begins with a token of the kind, what may stand behind it. A rest is a form and the rest behind it."""
        if rest is None:
            return
        form, others = rest
        if isinstance(form, str):
            if form in self.rules:
                yield from self.behind((self.rules[form], others), kind)
            elif form == kind:
                yield others
        elif form[0] == "then":
            for part in reversed(form[1]):
                others = (part, others)
            yield from self.behind(others, kind)
        elif form[0] == "or":
            for part in form[1]:
                yield from self.behind((part, others), kind)
        else:
            yield from self.behind((form[1], others if form[0] == "?" else (("*", form[1]), others)), kind)
            if form[0] != "+":
                yield from self.behind(others, kind)

    def may_end(self, rest):
        """Whether nothing may stand there."""
        while rest is not None:
            if self.size(rest[0]) > 0:
                return False
            rest = rest[1]
        return True

    def first_wrong(self, kinds):
        """The first token with which no text can begin, their number where the text isn't whole, or None."""
        ways = {("text", None)}
        for place, kind in enumerate(kinds):
            ways = {it for way in ways for it in self.behind(way, kind)}
            if not ways:
                return place
        return None if any(map(self.may_end, ways)) else len(kinds)


def spoilt(kinds, every, chance):
    """The kinds with a change."""
    place, way = chance.randrange(len(kinds) + 1), chance.randrange(5)
    other = [chance.choice(every)]
    if way == 0:
        return kinds[:place]
    if way == 1:
        return kinds[:place] + kinds[place + 1 :]
    if way == 2:
        return kinds[:place] + other + kinds[place:]
    return kinds[:place] + other + kinds[place + 1 :]


def first_unknown(kinds, tokens):
    """The first name whose prefix isn't declared before it, in a text that the grammar has."""
    known = set()
    for place, (kind, token) in enumerate(zip(kinds, tokens)):
        # behind a string @prefix is a tag
        before = ["", "", *kinds[:place]][-2:]
        if kind == "NS" and before[1] in ("PREFIX", "@prefix") and before[0] != "STRING":
            known.add(token)
        elif kind in ("NAME", "NS") and token[: token.index(":") + 1] not in known:
            return place
    return None


def spelt(kind, chance):
    """A token of the kind: keywords in any case."""
    if kind in WRITTEN:
        return chance.choice(WRITTEN[kind])
    return chance.choice([kind, kind.lower(), kind.capitalize()]) if kind.isupper() and kind not in STRANGE else kind


def main(language):
    grammar = Grammar({"turtle": TURTLE, "update": UPDATE, "query": QUERY}[language])
    chance = random.Random(language)
    every = grammar.kinds + STRANGE
    command = "%load turtle" if language == "turtle" else f"%{language}"
    script, answers = [], []
    while len(answers) < TEXTS:
        kinds = grammar.derive("text", chance, chance.randrange(4, 24))
        if len(kinds) > SMALL:
            continue
        for _ in range(chance.choice([0, 1, 1, 1, 2])):
            kinds = spoilt(kinds, every, chance)
        tokens = [spelt(kind, chance) for kind in kinds]
        kind, place = "Syntax", grammar.first_wrong(kinds)
        if place is None:
            kind, place = "UnknownPrefix", first_unknown(kinds, tokens)
        if place is not None:
            script.append("\n".join([command, *tokens, "%end\n"]))
            answers.append(f"refused: {kind} line {place + 1}\n")
    Path("script").write_text("".join(script))
    Path("stdout").write_text("".join(answers))


if __name__ == "__main__":
    main(sys.argv[1])
