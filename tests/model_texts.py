"""What `tools/compare-models` asks of the program and of its model: terms, written patterns, in which p stands for <a:p>, random requests and queries."""
import itertools, random

XSD = "http://www.w3.org/2001/XMLSchema#"
INTEGER, BOOLEAN, STRING, DECIMAL = (XSD + it for it in ("integer", "boolean", "string", "decimal"))
TAGGED = "http://www.w3.org/1999/02/22-rdf-syntax-ns#langString"
# a term: its rank in the order of terms, and what tells it from others of its kind
blank = lambda number: (0, number)
iri = lambda text: (1, text)
literal = lambda text, datatype=STRING, tag="": (2, text, datatype, tag)
number = lambda text: literal(str(text), INTEGER)
tagged = lambda text, tag: literal(text, TAGGED, tag)
NODES = [iri(f"a:{it}") for it in "stugh"]
PREDICATES = [iri("a:p"), iri("a:q")]
LITERALS = [number(1), number("01"), number(2), literal("1"), literal("x")]
# what filters are asked of besides: other numbers, one past 128 bits and one of another type, texts, booleans, tags, and what is none of its type
VALUES = [*map(number, (0, -3, "+2", 2**127 - 1, -(2**127), 2**127)), literal("1.5", DECIMAL), literal("")]
VALUES += [literal(it, BOOLEAN) for it in ("true", "false", "1", "0", "x")] + [tagged("x", "en"), tagged("x", "en-us"), tagged("", "en")]
VALUES += [literal("x", INTEGER), literal("", INTEGER), literal("x", "a:d"), literal("x", TAGGED)]
GRAPHS = [iri("a:g"), iri("a:h"), iri("a:e")]
DEFAULT = ()
COMPARISONS = ["=", "!=", "<", ">", "<=", ">="]
# what stands in the place of a term is a text
is_variable = lambda slot: isinstance(slot, str) and slot[0] == "?"
is_label = lambda slot: isinstance(slot, str) and slot[0] == "_"


# ---- written patterns

short = lambda word: word if word[0] in "?_" else iri(f"a:{word}")
block = lambda text: ("basic", [tuple(map(short, triple.split())) for triple in text.split(" . ")])
group = lambda *members, where=(): ([block(it) if isinstance(it, str) else it for it in members], list(where))
optional = lambda *members, where=(): ("optional", group(*members, where=where))
graph = lambda name, *members: ("graph", short(name), group(*members))
minus = lambda *members, where=(): ("minus", group(*members, where=where))
union = lambda *groups: ("union", list(groups))
WRITTEN = [
    group("?a p ?b . ?b q ?c . ?c r ?d"),
    group("?a p ?b . ?c r ?d . ?b q ?c"),
    group("?a ?x _:h . _:h r ?b . n3 ?x ?y"),
    group(union(group("?a p ?b . ?b q ?c")), union(group("?a q ?d . ?c r ?e"))),
    group("?a p ?b", union(group("?b q ?c", where=[("!=", "?c", number(3))]))),
    group("?a p ?b", union(group("?a q ?c", where=[("!", ("bound", "?b"))]))),
    group("?a p ?b", union(group("?b q ?c . ?c r ?d"), group("?b r ?c"))),
    group(union(group("?a p ?b"), group("?a q ?c")), union(group("?b r ?d"), group("?c r ?d"))),
    group("?a p ?b", optional(union(group("?b q ?c"), group("?b r ?c", optional("?c p ?d"))))),
    group("?a p ?b", optional("?b q ?c", optional("?c r ?d"))),
    group("?a p ?b", optional("?b q ?c", optional("?a r ?c"))),
    group("?a p ?b . ?a q ?c", optional("?a r ?d", where=[("||", ("isiri", "?c"), (">=", "?b", "?d"))])),
    group("?a p ?b", optional(union(group("?a q ?c", where=[("!", ("isiri", "?b"))])))),
    group(union(group("?a p ?b", optional("?a q ?c"))), union(group("?a r ?d", optional("?a q ?c")))),
    group("?a q ?g", graph("?g", "?a ?x ?b")),
    group("?a ?x ?g", graph("?g", "?b p ?c", optional("?c q ?d", where=[("isiri", "?d")]))),
    group(graph("?g", "?a p ?b", graph("?h", "?b q ?c"))),
    group(graph("?g", "?a p ?b", graph("n1", "?b ?x ?c"), union(group("?b q ?d", where=[("!", ("bound", "?g"))])))),
    group("?a p ?b", optional(graph("?g", "?b ?x ?c")), graph("?g", "?d q ?e")),
    group(graph("?g"), optional("?a p ?g"), optional(graph("?a", "?g ?x ?b"))),
    group("?a p ?b", minus("?b q ?c")),
    group("?a p ?b", minus("?c q ?d")),
    group("?a p ?b", optional("?a q ?c"), minus("?b q ?c")),
    group("?a p ?b", minus("?a q ?c", optional("?c r ?b"))),
    group("?a p ?b", minus(union(group("?a q ?c"), group("?c r ?b"), group("?c p ?d")))),
    group("?a p ?b", minus("?a q ?c"), minus("?c r ?b"), minus("?c p ?d")),
    group("?a p ?b", minus("?b q ?c", where=[("!=", "?a", "?c")]), minus("?b q ?c", where=[("isiri", "?c")])),
    group("?a p ?b", minus("?b q ?c", minus("?b p ?a"), minus("?c r ?d"))),
    group(graph("?g", "?a ?x ?b", minus(graph("?g", "?b ?x ?c"))), minus("?g ?x ?d")),
    group(union(group("?a p ?b", minus("?a q ?b")), group("?c q ?b", minus("?b p ?a"))), minus("?a r ?c")),
    group(minus("?a p ?b"), "?a p ?b", minus(graph("?g", "?b p ?c")), optional("?b q ?g", minus("?g p ?a"), where=[("bound", "?a")])),
    group("?a p _:h . _:h q ?b", minus("?b p _:i . _:i ?x ?c")),
]


# ---- random requests


def by_place(quads):
    """The quads with their labels' numbers in the order of their places."""
    quads, places = list(quads), {}
    for slot in (slot for it in quads for slot in it if is_label(slot)):
        places.setdefault(slot, f"{slot[:3]}{len(places)}")
    return [tuple(places[slot] if is_label(slot) else slot for slot in it) for it in quads]


class Draw:
    def __init__(self, seed, has_minus=False):
        self.random, self.labels, self.variables, self.has_minus = random.Random(seed), itertools.count(), "abcd", has_minus

    def chance(self, part):
        return self.random.random() < part

    def among(self, *items):
        return self.random.choice(items)

    def some(self, least, most, make):
        return [make() for _ in range(self.random.randrange(least, most + 1))]

    def one_of(self, *makers):
        """One of what these make, each of which stands behind the sum of the shares up to it."""
        pick = self.random.random()
        return next(make for upto, make in makers if pick < upto)()

    def term(self):
        return self.among(*NODES, *LITERALS) if self.chance(0.85) else self.among(*VALUES)

    def quad(self, node):
        """A quad of data, whose nodes may be what `node` gives."""
        graph = self.among(DEFAULT, DEFAULT, *GRAPHS[:2])
        return graph, node(), self.among(*PREDICATES), self.among(node(), self.term())

    def data(self, has_labels):
        node = lambda: f"_:x{self.random.randrange(2)}" if has_labels and self.chance(0.2) else self.among(*NODES)
        return by_place(self.some(1, 4, lambda: self.quad(node)))

    def variable(self):
        return "?" + self.among(*self.variables)

    def triples(self):
        labels = [f"_:h{next(self.labels)}" for _ in range(2)]
        slot = lambda usual: self.one_of((0.45, lambda: usual), (0.8, self.variable), (0.92, lambda: self.among(*labels)), (1, self.term))
        predicate = lambda: self.variable() if self.chance(0.12) else self.among(*PREDICATES)
        return self.some(1, 3, lambda: (slot("?a"), predicate(), slot("?b")))

    def wide(self):
        return [(self.variable(), self.among(*PREDICATES), self.variable())]

    def operand(self, depth):
        """What an operator is asked of: a variable or a term, or what another operator gives."""
        return self.one_of(
            (0.6 if depth else 1, lambda: self.variable() if self.chance(0.6) else self.among(*NODES, *LITERALS, *VALUES)),
            (0.75, lambda: (self.among("+", "-", "*"), self.operand(depth - 1), self.operand(depth - 1))),
            (0.8, lambda: (self.among("+", "-"), self.operand(depth - 1))),
            (0.93, lambda: (self.among("str", "lang", "datatype"), self.operand(depth - 1))),
            (1, lambda: self.condition(depth - 1)),
        )

    def condition(self, depth=2):
        """What a filter asks; an operand by itself is asked for its effective boolean value."""
        return self.one_of(
            (0.2 if depth else 0, lambda: ("!", self.condition(depth - 1))),
            (0.4 if depth else 0, lambda: (self.among("&&", "||"), self.condition(depth - 1), self.condition(depth - 1))),
            (0.5, lambda: ("bound", self.variable())),
            (0.6, lambda: (self.among("isiri", "isuri", "isblank", "isliteral"), self.operand(depth))),
            (0.7, lambda: self.operand(depth)),
            (1, lambda: (self.among(*COMPARISONS, "=", "=", "sameterm"), self.variable(), self.operand(depth))),
        )

    def group(self, depth=2, is_dense=False):
        """Blocks of triples, between them other members, which hold groups again down to a depth, and perhaps a condition. In a dense one, whose triples
        are of variables, most groups have rows."""
        inside = lambda: self.group(depth - 1, is_dense)
        members = {
            "optional": lambda: [inside()],
            "graph": lambda: [self.variable() if self.chance(0.7) else self.among(*GRAPHS), inside()],
            "union": lambda: [self.some(1, 3, inside)],
            "minus": lambda: [inside()],
        }
        names = ["optional", "optional", "graph", "union", *["minus"] * 3 * self.has_minus]
        block = lambda part: [("basic", self.wide() if is_dense else self.triples())] if self.chance(part) else []
        found = block(0.85)
        for _ in range(self.random.randrange(int(is_dense), 3) if depth else 0):
            name = self.among(*names)
            found += [(name, *members[name]()), *block(0.3)]
        return found, self.some(0, 1, lambda: self.test() if self.chance(0.5) else self.condition()) if self.chance(0.6) else []

    def test(self):
        """A condition that is true as often as not."""
        name = self.among("bound", "bound", "isiri", "isliteral", "=", "!=", "<")
        test = (name, *[self.variable() for _ in range(1 if name.isalpha() else 2)])
        return test if self.chance(0.6) else ("!", test)

    def template(self, has_labels):
        slot = lambda: self.variable() if self.chance(0.6) else f"_:y{self.random.randrange(2)}" if has_labels and self.chance(0.3) else self.among(*NODES)
        return by_place(self.some(1, 2, lambda: (self.among(DEFAULT, DEFAULT, GRAPHS[1], "?c"), slot(), self.among(*PREDICATES), slot())))

    def operation(self):
        name = self.among(*["INSERT DATA"] * 6, *["MODIFY"] * 6, "DELETE DATA", "DELETE DATA", "CREATE", "CLEAR", "DROP", "COPY", "MOVE", "ADD")
        silent, graph = self.chance(0.3), lambda: self.among(*GRAPHS)
        if name in ("INSERT DATA", "DELETE DATA"):
            return name, silent, self.data(name == "INSERT DATA")
        if name == "MODIFY":
            delete = self.template(False) if self.chance(0.5) else []
            insert = self.template(True) if not delete or self.chance(0.6) else []
            return name, silent, self.among(DEFAULT, DEFAULT, *GRAPHS), delete, insert, self.group(2, True) if self.chance(0.3) else self.group(1)
        if name in ("CLEAR", "DROP"):
            return name, silent, self.among(graph(), graph(), graph(), "DEFAULT", "NAMED", "ALL") if self.chance(0.5) else graph()
        return (name, silent, graph()) if name == "CREATE" else (name, silent, self.among(DEFAULT, graph()), self.among(DEFAULT, graph()))


# ---- queries of a dataset: its quads, its empty graphs, and what is asked: of which group, for which columns, or for none where it is asked whether there is
# a solution, and whether each row is wanted once


def visible(group):
    """The variables in triples and behind GRAPH, outside MINUS."""
    found = set()
    for name, *parts in group[0]:
        slots = sum(parts[0], ()) if name == "basic" else parts[:1] if name == "graph" else ()
        found.update(it for it in slots if is_variable(it))
        found.update(*map(visible, () if name in ("basic", "minus") else parts[0] if name == "union" else parts[-1:]))
    return found


def some_queries(draw, depth, is_dense):
    """Queries of groups that are drawn, without an end."""
    while True:
        group = draw.group(depth, is_dense)
        if draw.chance(0.1):
            yield group, None, False
        else:
            columns = sorted(visible(group)) if draw.chance(0.6) else draw.some(1, 3, draw.variable)
            yield group, columns, draw.chance(0.3)


def groups(draw):
    """Groups over a dataset that has more quads than others and an empty graph."""
    quads = by_place([draw.quad(lambda: draw.among(*NODES, "_:x0", "_:x1")) for _ in range(24)])
    return quads, GRAPHS[2:], some_queries(draw, 2, False)


def mixtures(draw):
    """Groups in one another, three levels down, over a dense dataset, of few variables, which all share, or of many."""
    node = lambda: draw.among(*NODES, *GRAPHS[:2])
    quads = [(draw.among(DEFAULT, DEFAULT, *GRAPHS[:2]), node(), draw.among(*PREDICATES), node() if draw.chance(0.8) else draw.term()) for _ in range(50)]
    draw.variables = draw.among("abc", "abcd", "abcdefgh")
    return quads, GRAPHS[2:], some_queries(draw, 3, True)


def filters(draw):
    """Queries for the pairs of values of which an operator is true, or not true, and then those of which a random condition is."""
    quads = [(DEFAULT, node, it, term) for node, term in zip(itertools.cycle(NODES[:4]), [*LITERALS, *VALUES]) for it in PREDICATES]
    tests = [(it, "?b", "?d") for it in [*COMPARISONS, "sameterm"]] + ["?b"]
    tests += [("isliteral", (it, "?b", "?d")) for it in "+-*"] + [("sameterm", (it, "?b", number(2)), "?d") for it in "+-*"]
    tests += [("sameterm", (it, "?b"), "?d") for it in ("+", "-", "str")] + [("=", (it, "?b"), (it, "?d")) for it in ("str", "lang", "datatype")]
    tests += [("!", it) for it in tests]
    conditions = itertools.chain(tests, (draw.condition(3) for _ in itertools.count()))
    return quads, (), ((group("?a p ?b . ?c q ?d", where=[it]), ["?b", "?d"], False) for it in conditions)


def patterns(draw):
    """The written patterns over 200 quads: all columns, two of them once each, and whether there is a solution."""
    nodes, quads = [iri(f"a:n{it}") for it in range(30)], set()
    value = lambda: draw.among(draw.among(*nodes), draw.among(*nodes[:6]), number(draw.random.randrange(8)))
    while len(quads) < 200:
        quads.add((draw.among(DEFAULT, DEFAULT, *nodes[:4]), draw.among(*nodes), iri("a:" + draw.among(*"pqr")), value()))
    ways = lambda it, columns: ((it, columns, False), (it, columns[:2], True), (it, None, False))
    return sorted(quads), nodes[-1:], (way for it in WRITTEN for way in ways(it, sorted(visible(it))))
