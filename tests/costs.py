"""What `tools/count-allocations` counts: cases at n, 2n and 4n, of the commands of scripts and of the program's words, and comparisons."""
import collections

# how much more a cost may be over twice as much, but for cases that say another: n log n is about 2.2
TWICE, SAME = 2.3, 1.25
# what is run, over files that are texts of n; what is run for what it is counted behind, if anything; whether its instructions are counted too
Case = collections.namedtuple("Case", "words files behind n most seen")


def words(asked, n=1000, most=TWICE, seen=False, **files):
    """A run of the program's words."""
    return Case(asked, files, "", n, most, seen)


def script(before, asked, n=1000, most=TWICE, seen=False):
    """What the commands `asked` cost behind those of `before`."""
    begun = lambda n: "%mark start\n" + before(n)
    return Case("run script", {"before": begun, "script": lambda n: begun(n) + asked(n)}, "run before", n, most, seen)


quad = lambda number: f"<http://e/s{number:06}> <http://e/p> \"{number}\""
data = lambda kind, numbers: f"{kind} DATA {{ " + " . ".join(map(quad, numbers)) + " }"
body = lambda command, text: f"%{command}\n{text}\n%end\n"
update = lambda operations: body("update", operations)
query = lambda text: body("query", text)
inserted = lambda numbers: "".join(update(data("INSERT", [it])) for it in numbers)
# each second request takes back what the one before it brought
come_and_gone = lambda numbers: "".join(update(data(("INSERT", "DELETE")[it % 2], [it // 2])) for it in numbers)
lines = lambda numbers: "".join(f"{quad(it)} .\n" for it in numbers)
loaded = lambda numbers: f"%load nquads\n{lines(numbers)}%end\n"
changing = lambda it: update(f"DELETE {{ ?s <http://e/p> \"{it}\" }} INSERT {{ ?s <http://e/q> \"{it}\" }} WHERE {{ ?s <http://e/p> \"{it}\" }}")

# documents of n statements: ten quads a graph; a second property of each subject, one of ten values
in_graphs = lambda n: "".join(f"{quad(it)} <http://e/g{it // 10:05}> .\n" for it in range(n))
in_one_graph = lambda n: "".join(f"{quad(it)} <http://e/g> .\n" for it in range(n))
labels = lambda n: "".join(f"_:b{it:05} <http://e/p> _:b{it // 2:05} .\n" for it in range(n))
typed = lambda n: "".join(f"<http://e/s{it:06}> <http://e/q> \"{it % 10}\"^^<http://www.w3.org/2001/XMLSchema#integer> .\n" for it in range(n))
# all of n subjects but the first have one of n values, and n others have them too
valued = lambda subject, property, it: f"<http://e/{subject}{it:06}> <http://e/{property}> <http://e/v{it:06}> .\n"
values = lambda n: [valued("s", "q", it) for it in range(1, n)] + [valued("x", "r", it) for it in range(n)]
turtle = lambda n: "@prefix : <http://e/> .\n" + "".join(f":s{it:06} :p {it}, \"{it}\"@en ; :q [ :r ( :o{it % 10} ) ] .\n" for it in range(n // 8))
load = lambda text, format="nquads": f"%load {format}\n{text}%end\n"

none, one = lambda n: "", lambda text: lambda n: text
base = lambda n: loaded(range(n))
two = lambda n: load(lines(range(n)) + typed(n))
linked = lambda n: load(lines(range(n)) + "".join(values(n)))
graphs, graph = lambda n: load(in_graphs(n)), lambda n: load(in_one_graph(n))
both = lambda n: load(in_graphs(n) + lines(range(n)))
operations = lambda text: lambda n: update(" ;\n".join(text(it) for it in range(n)))
created = operations(lambda it: f"CREATE GRAPH <http://e/g{it:05}>")
asked = lambda text: one(query(text))
select = lambda pattern: query("SELECT * WHERE { " + pattern + " }")
selected = lambda pattern: one(select(pattern))
done = lambda text: one(update(text))
requests = lambda text: lambda n: "".join(text(it) for it in range(n))

prefixed = lambda it: f"@prefix p{it:05}: <http://e/{it:05}/> .\np{it:05}:s p{it // 2:05}:p p{it:05}:o .\n"
LOADS = {
    "%load nquads": script(none, base, seen=True),
    "%load nquads, ten quads a graph": script(none, graphs),
    "%load nquads, blank nodes": script(none, lambda n: load(labels(n))),
    "%load nquads, over as many": script(base, lambda n: loaded(range(n, 2 * n))),
    "%load nquads, the same again": script(base, base),
    "%load ntriples": script(none, lambda n: load(lines(range(n)), "ntriples")),
    "%load turtle": script(none, lambda n: load(turtle(n), "turtle"), seen=True),
    "%load turtle, n prefixes": script(none, lambda n: load("".join(map(prefixed, range(n))), "turtle")),
    "%load turtle, one long literal": script(none, lambda n: load(f"<http://e/s> <http://e/p> \"{'abc ' * 100 * n}\" .\n", "turtle"), n=100),
}
block = lambda at: f"GRAPH <http://e/g{at:05}> {{ " + " . ".join(map(quad, range(10 * at, 10 * at + 10))) + " }"
CHANGES = {
    "INSERT DATA": script(none, lambda n: update(data("INSERT", range(n)))),
    "INSERT DATA, over as many": script(base, lambda n: update(data("INSERT", range(n, 2 * n)))),
    "INSERT DATA, ten quads a graph": script(none, lambda n: update("INSERT DATA { " + " ".join(map(block, range(n // 10))) + " }")),
    "INSERT DATA, n operations": script(none, operations(lambda it: data("INSERT", [it])), n=500, seen=True),
    "DELETE DATA": script(base, lambda n: update(data("DELETE", range(n)))),
    "DELETE DATA, n operations": script(base, operations(lambda it: data("DELETE", [it]))),
    "INSERT and DELETE DATA, n operations in turn": script(none, operations(lambda it: data(("INSERT", "DELETE")[it % 2], [it // 2]))),
    "DELETE/INSERT WHERE": script(base, done("DELETE { ?s <http://e/p> ?o } INSERT { ?s <http://e/r> ?o } WHERE { ?s <http://e/p> ?o }"), n=500, seen=True),
    "DELETE/INSERT WHERE, each request a subject": script(base, requests(changing)),
    "INSERT WHERE": script(base, done("INSERT { ?o <http://e/r> ?s . _:b <http://e/r> ?s } WHERE { ?s <http://e/p> ?o }")),
    "INSERT WHERE, GRAPH": script(graphs, done("INSERT { GRAPH ?g { ?s <http://e/r> ?o } } WHERE { GRAPH ?g { ?s ?p ?o } }")),
    "DELETE WHERE": script(base, done("DELETE WHERE { ?s <http://e/p> ?o }")),
    "DELETE WHERE, GRAPH": script(graphs, done("DELETE WHERE { GRAPH ?g { ?s <http://e/p> ?o } }")),
    "CREATE, n operations": script(none, created),
    "CLEAR DEFAULT": script(both, done("CLEAR DEFAULT")),
    "CLEAR GRAPH": script(graph, done("CLEAR GRAPH <http://e/g>")),
    "CLEAR GRAPH, n operations": script(created, operations(lambda it: f"CLEAR GRAPH <http://e/g{it:05}>")),
    "CLEAR NAMED": script(both, done("CLEAR NAMED")),
    "CLEAR ALL": script(both, done("CLEAR ALL")),
    "CLEAR ALL, n operations, each behind a quad": script(base, operations(lambda it: f"{data('INSERT', [it])} ; CLEAR ALL"), n=500, seen=True),
    "DROP DEFAULT": script(both, done("DROP DEFAULT")),
    "DROP GRAPH": script(graph, done("DROP GRAPH <http://e/g>")),
    "DROP GRAPH, n operations": script(created, operations(lambda it: f"DROP GRAPH <http://e/g{it:05}>"), n=500, seen=True),
    "DROP NAMED": script(both, done("DROP NAMED"), n=2000),
    "DROP ALL": script(both, done("DROP ALL")),
    "COPY": script(graph, done("COPY <http://e/g> TO <http://e/h>")),
    "COPY, over as many": script(both, done("COPY DEFAULT TO <http://e/g00000>")),
    "MOVE": script(graph, done("MOVE <http://e/g> TO DEFAULT")),
    "ADD": script(graph, done("ADD <http://e/g> TO DEFAULT")),
    "ADD, n operations": script(created, operations(lambda it: f"ADD <http://e/g{it:05}> TO DEFAULT")),
}
gone = lambda n: update(data("INSERT", range(n)))
HISTORY = {
    "%undo": script(gone, one("%undo\n")),
    "%undo, of DELETE WHERE": script(lambda n: base(n) + update("DELETE WHERE { ?s ?p ?o }"), one("%undo\n")),
    "%undo, n requests": script(lambda n: inserted(range(n)), lambda n: "%undo\n" * n),
    "%redo": script(lambda n: gone(n) + "%undo\n", one("%redo\n")),
    "%redo, n requests": script(lambda n: inserted(range(n)) + "%undo\n" * n, lambda n: "%redo\n" * n, n=2000),
    "%mark, n names": script(none, requests(lambda it: f"%mark m{it:05}\n")),
    "%mark, n names, each behind a request": script(none, requests(lambda it: f"{inserted([it])}%mark m{it:05}\n"), n=500, seen=True),
    "%rollback": script(gone, one("%rollback start\n")),
    "%rollback, n requests": script(lambda n: inserted(range(n)), one("%rollback start\n"), seen=True),
    "%rollback, n requests that take each other back": script(lambda n: come_and_gone(range(n)), one("%rollback start\n")),
    "%rollback, n times": script(none, requests(lambda it: f"{inserted([it])}%rollback start\n")),
    "%changes": script(gone, one("%changes\n")),
    "%changes, n requests": script(lambda n: inserted(range(n)), one("%changes\n"), seen=True),
    "%print": script(base, one("%print\n"), seen=True),
    "%graphs": script(created, one("%graphs\n")),
    "%state": script(both, one("%state\n")),
}
one_of = lambda it: f"{{ <http://e/s{it:06}> <http://e/p> ?o }}"
UNBOUND = "?s <http://e/p> ?o OPTIONAL { ?s <http://e/q> ?v }"
QUERIES = {
    "%query, a basic graph pattern": script(base, selected("?s <http://e/p> ?o")),
    "%query, two triple patterns": script(two, selected("?s <http://e/p> ?o ; <http://e/q> ?v")),
    "%query, OPTIONAL": script(two, selected("?s <http://e/p> ?o OPTIONAL { ?s <http://e/q> ?v }")),
    "%query, UNION": script(two, selected("{ ?s <http://e/p> ?o } UNION { ?s <http://e/q> ?o }")),
    "%query, OPTIONAL in OPTIONAL": script(two, selected("?s <http://e/p> ?o OPTIONAL { ?s <http://e/q> ?v OPTIONAL { ?s <http://e/p> ?w } }")),
    "%query, OPTIONAL with FILTER": script(two, selected("?s <http://e/p> ?o OPTIONAL { ?s <http://e/q> ?v FILTER(?v < 5) }")),
    "%query, OPTIONAL that leaves a row unbound": script(linked, selected(f"{UNBOUND} {{ ?x <http://e/r> ?v }}"), n=500, seen=True),
    "%query, UNION behind a pattern": script(two, selected("?s <http://e/p> ?o { ?s <http://e/q> ?v } UNION { ?s <http://e/p> ?v }")),
    "%query, n groups of UNION": script(base, lambda n: select(" UNION ".join(map(one_of, range(n))))),
    "%query, MINUS": script(two, selected("?s <http://e/p> ?o MINUS { ?s <http://e/q> 1 }")),
    "%query, MINUS of as many": script(linked, selected("?s <http://e/p> ?o MINUS { ?s <http://e/q> ?v }")),
    "%query, MINUS that leaves a row unbound": script(linked, selected(f"?x <http://e/r> ?v MINUS {{ {UNBOUND} }}"), n=500, seen=True),
    "%query, GRAPH in GRAPH of one name": script(graphs, selected("GRAPH ?g { ?s <http://e/p> ?o GRAPH ?g { ?s <http://e/p> ?w } }")),
    "%query, GRAPH behind a pattern": script(both, selected("?s <http://e/p> ?o GRAPH ?g { ?s <http://e/p> ?w }"), n=500, seen=True),
    "%query, GRAPH": script(graphs, selected("GRAPH ?g { ?s <http://e/p> ?o }")),
    "%query, GRAPH of a name": script(graph, selected("GRAPH <http://e/g> { ?s <http://e/p> ?o }")),
    "%query, two groups": script(two, selected("{ ?s <http://e/p> ?o } { ?s <http://e/q> ?v }"), n=500, seen=True),
    "%query, a nested group": script(two, selected("?s <http://e/p> ?o { ?s <http://e/q> ?v }")),
    "%query, FILTER": script(two, selected("?s <http://e/q> ?v FILTER(?v + 1 < 5 || STR(?s) = \"x\")")),
    "%query, n FILTERs": script(lambda n: load(typed(10)), lambda n: select("?s <http://e/q> ?v" + " FILTER(?v < 20)" * n)),
    "%query, DISTINCT": script(two, asked("SELECT DISTINCT ?o ?v WHERE { ?s <http://e/p> ?o ; <http://e/q> ?v }")),
    "%query, DISTINCT of few": script(two, asked("SELECT DISTINCT ?v WHERE { ?s <http://e/p> ?o ; <http://e/q> ?v }")),
    "%query, ASK of none": script(two, asked("ASK { ?s <http://e/q> ?v FILTER(?v > 10) }")),
}
file = {"nquads": lambda n: lines(range(n)), "ntriples": lambda n: lines(range(n)), "turtle": turtle}
asking = {"data": lambda n: lines(range(n)) + typed(n), "text": one("SELECT * WHERE { ?s <http://e/p> ?o ; <http://e/q> ?v }")}
stated = {"data": lambda n: f"#% rdfkeep state 2\n#% next 0\n{lines(range(n))}", "text": one("ASK { }")}
moving = {"data": file["nquads"], "text": one("DELETE { ?s <http://e/p> ?o } INSERT { ?s <http://e/r> ?o } WHERE { ?s <http://e/p> ?o }")}
WORDS = {
    **{f"convert --from {it}": words(f"convert --from {it} data", data=file[it], seen=True) for it in file},
    "convert --from nquads, blank nodes": words("convert --from nquads data", data=labels),
    **{f"check --from {it}": words(f"check --from {it} data", data=file[it], seen=it == "turtle") for it in file},
    **{f"query --results {it}": words(f"query --data data --results {it} text", seen=it == "tsv", **asking) for it in ("tsv", "csv", "json")},
    **{f"update {it}": words(f"update --data data {it} text", seen=it == "--to nquads", **moving) for it in ("--to nquads", "--to state", "--changes")},
    "query of a state text": words("query --data data --format state text", **stated),
    "run --depth 10, n requests": words("run --depth 10 text", text=lambda n: inserted(range(n))),
}
# a small command over n quads, n graphs or behind n requests: what it asks for doesn't grow with them
small = lambda before, text: script(before, one(text), 1000, SAME)
SMALL = {
    "%load of a line": small(base, loaded([100000])),
    "INSERT DATA of a quad": small(base, inserted([100000])),
    "DELETE DATA of a quad": small(base, update(data("DELETE", [7]))),
    "INSERT DATA of a quad, behind n requests": small(lambda n: inserted(range(n)), inserted([100000])),
    "an update with WHERE": small(base, changing(7)),
    "DELETE WHERE of a subject": small(base, update("DELETE WHERE { <http://e/s000007> ?p ?o }")),
    "CREATE of a graph": small(graphs, update("CREATE GRAPH <http://e/h>")),
    "CLEAR of a graph": small(graphs, update("CLEAR GRAPH <http://e/g00007>")),
    "DROP of a graph": small(graphs, update("DROP GRAPH <http://e/g00007>")),
    "COPY of a graph": small(graphs, update("COPY <http://e/g00007> TO <http://e/h>")),
    "MOVE of a graph": small(graphs, update("MOVE <http://e/g00007> TO <http://e/h>")),
    "ADD of a graph": small(graphs, update("ADD <http://e/g00007> TO <http://e/g00003>")),
    "%undo of a quad": small(lambda n: base(n) + inserted([100000]), "%undo\n"),
    "%redo of a quad": small(lambda n: base(n) + inserted([100000]) + "%undo\n", "%redo\n"),
    "%mark": small(lambda n: inserted(range(n)), "%mark one\n"),
    "%rollback of a request": small(lambda n: inserted(range(n)) + "%mark one\n" + inserted([100000]), "%rollback one\n"),
    "%commit": small(lambda n: inserted(range(n)), "%commit\n"),
    "%changes of a request": small(lambda n: base(n) + "%commit\n" + inserted([100000]), "%changes\n"),
    "%changes again": small(lambda n: base(n) + "%commit\n" + inserted([100000]) + "%changes\n", "%changes\n"),
    "%graphs of none": small(base, "%graphs\n"),
    "%query of a subject": small(base, select("<http://e/s000007> ?p ?o")),
    "%query of an object": small(base, select("?s ?p \"7\"")),
    "%query of a graph": small(graphs, select("GRAPH <http://e/g00007> { ?s ?p ?o }")),
    "%query, OPTIONAL of a subject": small(two, select("?s <http://e/p> \"7\" OPTIONAL { ?s <http://e/q> ?v }")),
    "%query, MINUS of a subject": small(two, select("?s <http://e/p> \"7\" MINUS { ?s <http://e/q> 7 }")),
    "%query, UNION of a subject": small(two, select("?s <http://e/p> \"7\" { ?s <http://e/q> ?v } UNION { ?s <http://e/p> ?v }")),
    "%query, a nested group of a subject": small(two, select("?s <http://e/p> \"7\" { ?s <http://e/q> ?v }")),
    "%query, ASK": small(two, query("ASK { ?s ?p ?o }")),
    "%query, ASK of two triple patterns": small(two, query("ASK { ?s <http://e/p> ?o ; <http://e/q> ?v }")),
}
CASES = {**LOADS, **CHANGES, **HISTORY, **QUERIES, **WORDS, **SMALL}


# ---- comparisons

UPDATES, QUADS, CHANGED = 1000, 10000, 100
# how often each small request may ask
ASKS = {
    "INSERT DATA of a quad": (lambda it: inserted([it]), 22),
    "an update with WHERE": (changing, 65),
    "a query": (lambda it: query(f"ASK {{ ?s <http://e/p> \"{it}\" }}"), 35),
}
COME, GONE = range(200000, 200000 + CHANGED), range(0, 2 * CHANGED, 2)
INSERT, DELETE, AGAIN = (data(*it) for it in (("INSERT", COME), ("DELETE", GONE), ("INSERT", GONE[: CHANGED // 2])))
REQUESTS = {
    "a request of new quads": INSERT,
    "a request of quads that go": DELETE,
    "a request of both, and of some that come back": "; ".join([DELETE, INSERT, AGAIN]),
}


def comparisons(counted):
    """Each comparison's name, what is counted for it, and whether that is few."""
    more = lambda text, command: counted(text + command)[0] - counted(text)[0]
    for command in ("%changes\n", "%rollback start\n"):
        name = f"{command.split()[0]}, {UPDATES}"
        for kind, of in (("one quad each", inserted), ("each second taken back", come_and_gone)):
            one, two = more(of(range(UPDATES)), command), more(of(range(2 * UPDATES)), command)
            yield f"{name} and {2 * UPDATES} requests, {kind}: {one}, {two}", 2 * two <= 5 * one
        load, small = loaded(range(100000, 110000)), inserted(range(UPDATES))
        for place, both in (("behind", load + small), ("before", small + load)):
            alone, together = more(load, command), more(both, command)
            yield f"{name} requests {place} a load of 10000, and the load alone: {together}, {alone}", together <= 3 * alone + more(small, command)
    for name, request in REQUESTS.items():
        over, made = [loaded(range(count)) for count in (QUADS, 2 * QUADS)], update(request)
        for step, before, command in (("", "", made), (", its undo", made, "%undo\n"), (", its redo", made + "%undo\n", "%redo\n")):
            one, two = (more(load + before, command) for load in over)
            yield f"{name}{step}, over {QUADS} and {2 * QUADS} quads: {one}, {two}", 2 * two <= 3 * one + 8192
    for name, (request, most) in ASKS.items():
        warm = inserted(range(8)) + "".join(map(request, range(3)))
        times = counted(warm + request(3))[1] - counted(warm)[1]
        yield f"{name} asks {times} times, and may {most}", times <= most
