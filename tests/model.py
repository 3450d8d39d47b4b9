"""A model of SPARQL, which follows its definitions over plain lists: what `tools/compare-models` and `bench/answers.py` compare the program with."""
import collections, functools, itertools, operator, re

from model_texts import BOOLEAN, DECIMAL, DEFAULT, INTEGER, STRING, blank, iri, is_label, is_variable, literal, number, visible

# the most rows that a pattern may have somewhere, so that no request takes long
MOST = 2000


class Crowded(Exception):
    """A pattern has more rows than MOST somewhere."""


# ---- terms, as lines and as SPARQL

BARE = {INTEGER: "[+-]?[0-9]+", DECIMAL: "[+-]?[0-9]*[.][0-9]+", BOOLEAN: "true|false"}


def line_of(term):
    """A term as it is printed."""
    if term[0] == 2:
        return f'"{term[1]}"' + (f"@{term[3]}" if term[3] else f"^^<{term[2]}>" if term[2] != STRING else "")
    return f"<{term[1]}>" if term[0] else f"_:b{term[1]}"


# a quad as it is printed; a term, a variable or a label as SPARQL has it
quad_line = lambda quad: " ".join([*map(line_of, quad[1:]), *map(line_of, quad[:1] if quad[0] else ()), "."])
is_bare = lambda term: term[0] == 2 and re.fullmatch(BARE.get(term[2], "(?!)"), term[1])
written = lambda slot: slot if isinstance(slot, str) else slot[1] if is_bare(slot) else line_of(slot)


# ---- expressions (SPARQL 1.1 Query, section 17): each is a term, a variable, or an operator and what it is asked of; the value of an error is None

is_whole = lambda text: re.fullmatch(BARE[INTEGER], text)
held = lambda found: found if found is not None and -(2**127) <= found < 2**127 else None
negated = lambda found: None if found is None else not found


def known(term):
    """The value of a literal of a known type: a whole number of 128 bits, a boolean or a string."""
    text, datatype = term[1:3] if term[0] == 2 else ("", "")
    if datatype == INTEGER:
        return held(int(text)) if is_whole(text) else None
    return text if datatype == STRING else {"true": True, "1": True, "false": False, "0": False}.get(text) if datatype == BOOLEAN else None


def on_values(reckons, *types):
    """An operator on values that are all of one of these types. Where it gives a number, that has 128 bits too."""

    def value(*terms):
        values = [known(it) for it in terms]
        found = reckons(*values) if any(all(type(it) is of for it in values) for of in types) else None
        return found if isinstance(found, bool) else None if held(found) is None else number(found)

    return value


def equal(one, other):
    """By value where both have one; else a term is itself, and two literals that differ may mean the same."""
    found = compared_by(operator.eq)(one, other)
    return one == other if found is None and (one == other or not one[0] == other[0] == 2) else found


compared_by = lambda decides: on_values(decides, int, bool, str)
is_of = lambda rank: lambda term: term[0] == rank
OPERATORS = {
    "=": equal,
    "!=": lambda one, other: negated(equal(one, other)),
    "<": compared_by(operator.lt),
    ">": compared_by(operator.gt),
    "<=": compared_by(operator.le),
    ">=": compared_by(operator.ge),
    "+": on_values(lambda *of: sum(of), int),
    "-": on_values(lambda one, *other: one - other[0] if other else -one, int),
    "*": on_values(operator.mul, int),
    "sameterm": operator.eq,
    **{"isiri": is_of(1), "isuri": is_of(1), "isblank": is_of(0), "isliteral": is_of(2)},
    "str": lambda term: literal(term[1]) if term[0] else None,
    "lang": lambda term: literal(term[3]) if term[0] == 2 else None,
    "datatype": lambda term: iri(term[2]) if term[0] == 2 else None,
}


def either(*sides):
    """Whether one side is true; else an error of one is one."""
    return True if True in sides else None if None in sides else False


# these are asked of errors too
OF_ERRORS = {
    "bound": lambda term: term is not None,
    "!": lambda term: negated(effective(term)),
    "||": lambda *terms: either(*map(effective, terms)),
    "&&": lambda *terms: negated(either(*(negated(effective(it)) for it in terms))),
}


def effective(term):
    """The effective boolean value of a term (section 17.2.2), or None for an error."""
    _, text, datatype, tag = term if term and term[0] == 2 else ("", "", "", "")
    if datatype == STRING or tag:
        return text != ""
    if datatype == BOOLEAN or datatype == INTEGER and not is_whole(text):
        return text in ("true", "1")
    found = known(term) if datatype else None
    return found if found is None else found != 0


def is_simple(expression):
    """Whether an expression is a variable or a term."""
    return isinstance(expression, str) or isinstance(expression[0], int)


def value(expression, row):
    """The term that an expression is, or None for an error."""
    if is_simple(expression):
        return row.get(expression) if is_variable(expression) else expression
    name, *parts = expression
    values = [value(it, row) for it in parts]
    if name in OF_ERRORS:
        found = OF_ERRORS[name](*values)
    else:
        found = None if None in values else OPERATORS[name](*values)
    return literal(str(found).lower(), BOOLEAN) if isinstance(found, bool) else found


def condition_text(expression):
    if is_simple(expression):
        return written(expression)
    name, *parts = expression
    if name[0].isalpha() or len(parts) == 1:
        return f"{name}({', '.join(map(condition_text, parts))})"
    return f" {name} ".join(condition_text(it) if is_simple(it) else f"({condition_text(it)})" for it in parts)


# ---- patterns (section 18.5). A row maps variables to terms; a bag of rows is a list


def compatible(row, other):
    """Whether two rows agree on each variable that both have."""
    return all(other.get(name, term) == term for name, term in row.items())


def join(rows, others):
    """Each two rows in one, where they agree, if these aren't so many that a request would take long."""
    joined = ({**row, **other} for row in rows for other in others if compatible(row, other))
    found = list(itertools.islice(joined, MOST + 1))
    if len(found) > MOST:
        raise Crowded
    return found


def matches(triple, quads):
    """The rows under which a triple of a pattern is that of one of these quads."""
    for _, *found in quads:
        row = {slot: term for slot, term in zip(triple, found) if isinstance(slot, str)}
        if [row.get(slot, slot) for slot in triple] == found:
            yield row


def basic(state, graph, triples):
    """The rows of a basic graph pattern, once for each way to fill its labels."""
    rows, quads = [{}], [it for it in state.quads if it[0] == graph]
    for triple in triples:
        rows = join(rows, list(matches(triple, quads)))
    return [{name: term for name, term in row.items() if is_variable(name)} for row in rows]


def fulfilled(rows, conditions):
    """The rows for which all conditions are true."""
    return [row for row in rows if all(effective(value(it, row)) for it in conditions)]


def solutions(state, graph, group):
    """The solutions of a group: of its members, joined from the left, those for which its conditions are true."""
    rows = [{}]
    for name, *parts in group[0]:
        if name == "basic":
            rows = join(rows, basic(state, graph, parts[0]))
        elif name == "union":
            rows = join(rows, [row for group in parts[0] for row in solutions(state, graph, group)])
        elif name == "graph":
            places = {it: {parts[0]: it} for it in state.names} if is_variable(parts[0]) else {it: {} for it in state.names & {parts[0]}}
            rows = join(rows, [both for it, named in places.items() for both in join(solutions(state, it, parts[1]), [named])])
        elif name == "minus":
            others = solutions(state, graph, parts[0])
            rows = [row for row in rows if not any(compatible(row, it) and row.keys() & it.keys() for it in others)]
        else:
            members, conditions = parts[0]
            inside = solutions(state, graph, (members, ()))
            rows = [both for row in rows for both in fulfilled(join([row], inside), conditions) or [row]]
    return fulfilled(rows, group[1])


# the rows by their values from the left, no value first
in_order = lambda rows, columns: sorted(rows, key=lambda row: [row.get(it, ()) for it in columns])
TEXTS = {
    "basic": lambda triples: " ".join(" ".join(map(written, it)) + " ." for it in triples),
    "union": lambda groups: " UNION ".join(map(group_text, groups)),
    "graph": lambda name, group: f"GRAPH {written(name)} {group_text(group)}",
    "optional": lambda group: f"OPTIONAL {group_text(group)}",
    "minus": lambda group: f"MINUS {group_text(group)}",
}


def group_text(group):
    """A group, with its conditions behind its members."""
    texts = [TEXTS[name](*parts) for name, *parts in group[0]]
    return "{ " + " ".join([*texts, *(f"FILTER({condition_text(it)})" for it in group[1])]) + " }"


# ---- states and operations (SPARQL 1.1 Update, sections 3 and 4.3)

State = collections.namedtuple("State", "quads names next")
EMPTY = State(frozenset(), frozenset(), 0)
labels_in = lambda quads: len({slot for it in quads for slot in it if is_label(slot)})
counted = lambda before, after: f"ok +{len(after.quads - before.quads)} -{len(before.quads - after.quads)}"
graphs_of = lambda quads: {it[0] for it in quads} - {DEFAULT}
# the state with quads, in which so many new blank nodes stand
with_quads = lambda state, quads, labels: State(state.quads | {*quads}, state.names | graphs_of(quads), state.next + labels)


def instance(quad, row, default, first):
    """The quad that a template gives under a row, if it is one, where the label `_:y0` or `_:x0` gets the number `first`."""
    slots = [default if quad[0] == DEFAULT else quad[0], *quad[1:]]
    graph, subject, predicate, _ = terms = [row.get(it) if is_variable(it) else blank(first + int(it[3:])) if is_label(it) else it for it in slots]
    return tuple(terms) if None not in terms and (graph == DEFAULT or graph[0] < 2) and subject[0] < 2 and predicate[0] == 1 else None


def modified(state, default, delete, insert, group):
    """Each solution gives instances, with blank nodes of its own; all are deleted before any is inserted."""
    rows, labels = in_order(solutions(state, default, group), sorted(visible(group))), labels_in(insert)
    gone = {instance(it, row, default, 0) for row in rows for it in delete}
    came = [instance(it, row, default, state.next + labels * at) for at, row in enumerate(rows) for it in insert]
    return with_quads(state._replace(quads=state.quads - gone), [it for it in came if it], labels * len(rows))


def managed(state, name, source, *to):
    """CREATE, CLEAR or DROP of graphs, or COPY, MOVE or ADD of one to another."""
    if source in to:
        return state
    chosen = {"DEFAULT": {DEFAULT}, "NAMED": state.names, "ALL": state.names | {DEFAULT}}.get(source, {source})
    emptied = {"CREATE": set(), "ADD": set(), "COPY": {*to}, "MOVE": {source, *to}}.get(name, chosen)
    left = frozenset(it for it in state.quads if it[0] not in emptied)
    came = {(graph, *it[1:]) for graph in to for it in state.quads if it[0] == source}
    begun, gone = chosen if name == "CREATE" else {*to}, chosen if name in ("DROP", "MOVE") else set()
    return State(left | came, (state.names | begun - {DEFAULT}) - gone, state.next)


def act(state, operation):
    """The state that an operation leaves, or what it is refused by, as text."""
    name, silent, *parts = operation
    if name == "INSERT DATA":
        return with_quads(state, [instance(it, {}, DEFAULT, state.next) for it in parts[0]], labels_in(parts[0]))
    if name == "DELETE DATA":
        return state._replace(quads=state.quads - {*parts[0]})
    if name == "MODIFY":
        return modified(state, *parts)
    is_missing = isinstance(parts[0], tuple) and parts[0] not in {*state.names, DEFAULT}
    if is_missing == (name != "CREATE"):
        return state if silent else "MissingGraph" if is_missing else "GraphExists"
    return managed(state, name, *parts)


def quads_text(quads):
    texts = [TEXTS["basic"]([it[1:]]) if it[0] == DEFAULT else TEXTS["graph"](it[0], ([("basic", [it[1:]])], [])) for it in quads]
    return "{ " + " ".join(texts) + " }"


def made(state, operations):
    """The state that operations leave, or what one of them is refused by, as text."""
    return functools.reduce(lambda left, it: left if isinstance(left, str) else act(left, it), operations, state)


def operation_text(operation):
    name, silent, *parts = operation
    if name in ("INSERT DATA", "DELETE DATA"):
        return f"{name} {quads_text(parts[0])}"
    if name == "MODIFY":
        default, delete, insert, group = parts
        texts = [f"WITH {written(default)}"] if default else []
        texts += [f"DELETE {quads_text(delete)}"] if delete else []
        texts += [f"INSERT {quads_text(insert)}"] if insert or not delete else []
        return " ".join([*texts, "WHERE", group_text(group)])
    graphs = ["DEFAULT" if it == DEFAULT else it if isinstance(it, str) else f"GRAPH {written(it)}" for it in parts]
    return f"{name} {'SILENT ' if silent else ''}{' TO '.join(graphs)}"
