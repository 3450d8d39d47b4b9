#!/usr/bin/env python3
"""Prints how the time of hostile texts and sessions grows: hostile.py [RDFKEEP [SECONDS [WORD..]]], where RDFKEEP is the built program

Each shape below is given at sizes n that double from 256, each in a process of its own, until one takes SECONDS of a processor (1 if not
given) or the text is 32 MB long. A row has the times at the three largest sizes, and how many times that of half the size each is. A shape is
named again at the end where both times it is more than three. Of WORDs only the shapes whose names have one of them are tried.

Where a shape's name ends in `: Fault`, its last answer has to be that fault; else no answer may be a refusal.
"""
import os
import pathlib
import resource
import subprocess
import sys
import tempfile

LEAST, MOST, MEMORY, FLOOR = 256, 32_000_000, 8 << 30, 0.02
many = lambda n, text, between=" ": between.join(text.replace("%", str(i)) for i in range(n))
body = lambda command, text: f"{command}\n{text}\n%end\n"
nquads = lambda text: body("%load nquads", text)
turtle = lambda text: body("%load turtle", text)
update = lambda text: body("%update", text)
query = lambda text: body("%query", text)
data = lambda text: update(f"INSERT DATA {{ {text} }}")
# a chain p, its values q, and a graph for each
chain = lambda n: nquads(many(n, '<a:%> <a:p> <a:x%> .\n<a:x%> <a:q> "%" .', "\n"))
graphs = lambda n: nquads(many(n, "<a:s> <a:p> <a:o%> <a:g%> .", "\n"))
one_graph = lambda n: nquads(many(n, "<a:%> <a:p> <a:o> <a:g> .", "\n"))
# a UNION of n arms with a variable of their own each
unions = lambda n, text="": "{ } " + many(n, "UNION { ?s <a:p> ?o% " + text + " }")
over_unions = lambda text, own="": lambda n: data("<a:s> <a:p> 1") + query(text.replace("$", unions(n, own)))
over_chain = lambda text: lambda n: chain(n) + query(text)
over_graphs = lambda text: lambda n: graphs(n) + update(text)
levels = lambda n, opener, closer, inner="": " ".join([opener * 98 + inner + closer * 98] * (n // 98))
requests = lambda n: "".join(data(f"<a:{i}> <a:p> 1") for i in range(n))
marks = lambda n: "".join(f"%mark m{i}\n" for i in range(n))
flips = lambda n: (data("<a:s> <a:p> 1") + update("DELETE DATA { <a:s> <a:p> 1 }")) * (n // 2)

LINES = {
    "lines": lambda n: nquads(many(n, "<a:%> <a:p> <a:o> .", "\n")),
    "one line, again and again": lambda n: nquads("<a:s> <a:p> <a:o> .\n" * n),
    "lines that end in CR LF": lambda n: nquads(many(n, "<a:%> <a:p> <a:o> .\r", "\n")),
    "lines that end in CR": lambda n: nquads(many(n, "<a:%> <a:p> <a:o> .", "\r")),
    "empty lines": lambda n: nquads("\n" * n),
    "comments": lambda n: nquads("# x\n" * n),
    "a comment of n bytes": lambda n: nquads("#" * n),
    "white space": lambda n: nquads("<a:s>" + " \t" * n + "<a:p> <a:o> ."),
    "a literal of n bytes": lambda n: nquads('<a:s> <a:p> "' + "x" * n + '" .'),
    "a literal of n escapes": lambda n: nquads('<a:s> <a:p> "' + "\\n\\u00E9" * n + '" .'),
    "an IRI of n bytes": lambda n: nquads("<a:" + "x" * n + "> <a:p> <a:o> ."),
    "an IRI of n escapes": lambda n: nquads("<a:" + "\\u00E9" * n + "> <a:p> <a:o> ."),
    "a label of n dots": lambda n: nquads("_:a" + "." * n + "b <a:p> <a:o> ."),
    "a label that ends in n dots: Syntax": lambda n: nquads("_:a" + "." * n + " <a:p> <a:o> ."),
    "a tag of n parts": lambda n: nquads('<a:s> <a:p> "x"@en' + "-a1" * n + " ."),
    "labels": lambda n: nquads(many(n, "_:a% <a:p> _:b% .", "\n")),
    "labels that begin alike": lambda n: nquads(many(n, "_:" + "a" * 200 + "% <a:p> <a:o> .", "\n")),
    "tags and datatypes": lambda n: nquads(many(n, '<a:s> <a:p> "%"@en-a% , "%"^^<a:%> .'.replace(" , ", " .\n<a:s> <a:p> "), "\n")),
    "graphs": lambda n: graphs(n) + "%graphs\n%print\n",
    "long literals that begin alike": lambda n: nquads(many(n, '<a:s> <a:p> "' + "x" * 500 + '%" .', "\n")) + "%print\n",
    "a fault in the last line: Syntax": lambda n: nquads(many(n, "<a:%> <a:p> <a:o> .", "\n") + "\n<a:s> ."),
    "bytes without a line's end: NoEnd": lambda n: "%load nquads\n" + "x" * n,
}
TURTLE = {
    "open brackets: TooDeep": lambda n: turtle("<a:s> <a:p> " + "(" * n),
    "open braces: TooDeep": lambda n: turtle("{" * n),
    "closers: Syntax": lambda n: turtle(")" * n),
    "lists in lists, 98 deep": lambda n: turtle("<a:s> <a:p> " + " , ".join(["(" * 98 + ")" * 98] * (n // 98)) + " ."),
    "blank nodes in blank nodes, 98 deep": lambda n: turtle("<a:s> <a:p> " + " , ".join(["[<a:p>" * 98 + "1" + "]" * 98] * (n // 98)) + " ."),
    "a list of n items": lambda n: turtle("<a:s> <a:p> ( " + many(n, "%") + " ) ."),
    "n empty lists": lambda n: turtle("<a:s> <a:p> ( " + "() " * n + ") ."),
    "n blank nodes": lambda n: turtle("[] <a:p> [] .\n" * n),
    "n labels, each twice": lambda n: turtle(many(n, "_:a% <a:p> _:a% .")),
    "objects": lambda n: turtle("<a:s> <a:p> " + many(n, "%", " , ") + " ."),
    "verbs": lambda n: turtle("<a:s> " + many(n, "<a:%> 1", " ; ") + " ."),
    "semicolons": lambda n: turtle("<a:s> <a:p> 1 " + ";" * n + " ."),
    "prefixes": lambda n: turtle(many(n, "@prefix p%: <a:%> . p%:s <a:p> p%:o .")),
    "prefixes, all before their use": lambda n: turtle(many(n, "PREFIX p%: <a:%>") + many(n, "p%:s <a:p> 1 .")),
    "one prefix, declared again and again": lambda n: turtle(many(n, "PREFIX p: <a:%> p:s <a:p> 1 .")),
    "prefixes that begin alike": lambda n: turtle(many(n, "PREFIX " + "p" * 100 + "%: <a:%>") + many(n, "p" * 100 + "%:s <a:p> 1 .")),
    "a long base and n references": lambda n: turtle("BASE <http://e/" + "a/" * 100 + "> " + many(n, "<%> <../p> <#o> .")),
    "chained bases": lambda n: turtle("BASE <http://e/> " + "BASE <a/> " * n + "<s> <p> <o> ."),
    "chained bases, up and down": lambda n: turtle("BASE <http://e/> " + "BASE <a/../> " * n + "<s> <p> <o> ."),
    "chained bases that grow, up and down": lambda n: turtle("BASE <http://e/> " + "BASE <./a/../a/> " * n + "<s> <p> <o> ."),
    "chained bases that grow, up into the one before": lambda n: turtle("BASE <http://e/> " + "BASE <a/b/> BASE <../c> " * n + "<s> <p> <o> ."),
    "chained bases without an authority": lambda n: turtle("BASE <a:b/> " + "BASE <a/> " * n + "<s> <p> <o> ."),
    "queries of a long base": lambda n: turtle("BASE <http://e/" + "a/" * n + "> " + "BASE <?q> BASE <#f> " * n + "<s> <p> <o> ."),
    "queries of a long base with dot segments": lambda n: turtle("BASE <http://e/../" + "a/" * n + "> " + "BASE <?q> " * n + "<s> <p> <o> ."),
    "rooted bases behind a long authority": lambda n: turtle("BASE <http://" + "e" * n + "/> " + "BASE </a> " * n + "<s> <p> <o> ."),
    "bases with an authority behind a long one": lambda n: turtle("BASE <http://e/" + "a/" * n + "> " + "BASE <//e> BASE <a/> " * n + "<s> <p> <o> ."),
    "chained prefixes": lambda n: turtle("BASE <http://e/> " + many(n, "PREFIX p%: <x%>") + "<s> <p> <o> ."),
    "a reference of n steps": lambda n: turtle("BASE <http://e/> <" + "a/" * n + "../" * n + "s> <a:p> 1 ."),
    "a base of n steps, n steps up": lambda n: turtle("BASE <http://e/" + "a/" * n + "> <" + "../" * n + "s> <a:p> 1 ."),
    "a number of n digits": lambda n: turtle("<a:s> <a:p> " + "1" * n + " ."),
    "numbers and dots": lambda n: turtle("<a:s> <a:p> " + "1.5,1.e5,+.5," * n + "1."),
    "a name of n dots": lambda n: turtle("PREFIX p: <a:> p:a" + "." * n + "b <a:p> 1 ."),
    "a name that ends in n dots: Syntax": lambda n: turtle("PREFIX p: <a:> p:a" + "." * n + " <a:p> 1 ."),
    "a prefix of n dots": lambda n: turtle("PREFIX p" + ".p" * n + ": <a:> p" + ".p" * n + ":s <a:p> 1 ."),
    "a word of n dots: Syntax": lambda n: turtle("a" + ".a" * n),
    "a name of n bytes": lambda n: turtle("PREFIX p: <a:> p:" + "x" * n + " <a:p> 1 ."),
    "a name of n escapes": lambda n: turtle("PREFIX p: <a:> p:" + "%41\\-" * n + " <a:p> 1 ."),
    "a name of n colons": lambda n: turtle("PREFIX p: <a:> p:" + ":" * n + " <a:p> 1 ."),
    "a long string of quotes": lambda n: turtle('<a:s> <a:p> """' + '""\\"' * n + '""" .'),
    "strings of quotes": lambda n: turtle("<a:s> <a:p> " + "'''''' , \"\" , " * n + "1 ."),
    "a long string that isn't closed: Token": lambda n: turtle("<a:s> <a:p> '''" + "''x" * n),
    "strings that aren't closed: Token": lambda n: turtle("'x\n" * n),
    "IRIs that aren't closed: Syntax": lambda n: turtle("<a" * n),
    "signs that are no token alone": lambda n: turtle("<a:s> <a:p> " + "-1,+1," * n + "1 ."),
    "comments and white space": lambda n: turtle("# x\r\n \t" * n + "<a:s> <a:p> 1 ."),
    "a comment of n bytes, as Turtle": lambda n: turtle("#" + "x" * n),
    "an unknown prefix at the end: UnknownPrefix": lambda n: turtle(many(n, "<a:%> <a:p> 1 .") + " x:y <a:p> 1 ."),
    "a relative reference at the end: Relative": lambda n: turtle(many(n, "<a:%> <a:p> 1 .") + " <y> <a:p> 1 ."),
    "a sign that begins no token at the end: Token": lambda n: turtle(many(n, "<a:%> <a:p> 1 .") + " \x07"),
}
UPDATES = {
    "chained bases of an update": lambda n: update("BASE <http://e/> " + "BASE <a/> " * n + "INSERT DATA { <s> <p> <o> }"),
    "data": lambda n: data(many(n, "<a:%> <a:p> 1 .")),
    "data in blocks": lambda n: data(many(n, "GRAPH <a:g%> { <a:s> <a:p> 1 }")),
    "one block's graph, again and again": lambda n: data("GRAPH <a:g> { <a:s> <a:p> 1 } " * n),
    "empty blocks": lambda n: data("GRAPH <a:g> { } " * n),
    "labels of data": lambda n: data(many(n, "_:a% <a:p> _:a% .")),
    "labels in blocks": lambda n: data(many(n, "GRAPH <a:g> { _:a% <a:p> _:b }")),
    "prefixes of an update": lambda n: update(many(n, "PREFIX p%: <a:%>") + " INSERT DATA { p0:s <a:p> 1 }"),
    "operations of data": lambda n: update(many(n, "INSERT DATA { <a:%> <a:p> 1 }", " ; ")),
    "operations of data with a label each": lambda n: update(many(n, "INSERT DATA { _:a% <a:p> 1 }", " ; ")),
    "operations of deletions": lambda n: chain(n) + update(many(n, "DELETE DATA { <a:%> <a:p> <a:x%> }", " ; ")),
    "operations with WHERE": lambda n: update(many(n, "INSERT { <a:%> <a:p> 1 } WHERE { }", " ; ")),
    "operations with a label each in WHERE": lambda n: update(many(n, "INSERT { } WHERE { _:a% <a:p> _:a% }", " ; ")),
    "operations with WHERE, each over what the one before left": lambda n: data("<a:s> <a:p> 0") + update(many(n, "DELETE { ?s <a:p> ?o } INSERT { ?s <a:p> <a:%> } WHERE { ?s <a:p> ?o }", " ; ")),
    "a template of n quads": lambda n: update("INSERT { " + many(n, "<a:%> <a:p> ?o .") + " } WHERE { { } UNION { <a:s> <a:p> ?o } }"),
    "a template of n labels": lambda n: update("INSERT { " + many(n, "_:a% <a:p> 1 .") + " } WHERE { }"),
    "n solutions": lambda n: chain(n) + update("DELETE { ?s ?p ?o } INSERT { ?o <a:r> ?s ; <a:t> [ ] } WHERE { ?s ?p ?o }") + "%undo\n%redo\n",
    "DELETE WHERE of all": lambda n: chain(n) + update("DELETE WHERE { ?s ?p ?o }") + "%undo\n",
    "CREATE": lambda n: update(many(n, "CREATE GRAPH <a:g%>", " ; ")),
    "CREATE SILENT of one graph": lambda n: update("CREATE SILENT GRAPH <a:g> ; " * n),
    "DROP of each of n graphs": lambda n: graphs(n) + update(many(n, "DROP GRAPH <a:g%>", " ; ")),
    "CLEAR of each of n graphs": lambda n: graphs(n) + update(many(n, "CLEAR GRAPH <a:g%>", " ; ")),
    "CLEAR ALL of n graphs": over_graphs("CLEAR ALL"),
    "DROP ALL of n graphs": over_graphs("DROP ALL"),
    "CLEAR NAMED, n times over nothing": lambda n: update("CLEAR NAMED ; " * n),
    "CLEAR NAMED, often over n empty graphs": lambda n: update(many(n, "CREATE GRAPH <a:g%>", " ; ")) + update("CLEAR NAMED ; " * n),
    "CLEAR NAMED, often over n graphs": lambda n: graphs(n) + update("CLEAR NAMED ; " * n),
    "DROP ALL and one quad, n times": lambda n: graphs(n) + update(many(n, "DROP ALL ; INSERT DATA { <a:s> <a:p> % }", " ; ")),
    "DROP NAMED and one graph, n times": lambda n: graphs(n) + update(many(n, "DROP NAMED ; CREATE GRAPH <a:g%>", " ; ")),
    "CLEAR NAMED and one quad, n times": lambda n: graphs(n) + update(many(n, "CLEAR NAMED ; INSERT DATA { GRAPH <a:g%> { <a:s> <a:p> 1 } }", " ; ")),
    "CLEAR DEFAULT and one quad, n times over n quads": lambda n: chain(n) + update(many(n, "CLEAR DEFAULT ; INSERT DATA { <a:s> <a:p> % }", " ; ")),
    "CLEAR of one graph, n times over its n quads": lambda n: one_graph(n) + update("CLEAR GRAPH <a:g> ; " * n),
    "CLEAR of one graph and one quad, n times": lambda n: one_graph(n) + update(many(n, "CLEAR GRAPH <a:g> ; INSERT DATA { GRAPH <a:g> { _:a% <a:p> 1 } }", " ; ")),
    "CLEAR of two graphs by turns, n times": lambda n: one_graph(n) + data(many(n, "GRAPH <a:h> { <a:%> <a:p> 1 }")) + update("CLEAR GRAPH <a:g> ; CLEAR DEFAULT ; CLEAR GRAPH <a:h> ; " * n),
    "DROP and CREATE of one graph, n times": lambda n: one_graph(n) + update("DROP GRAPH <a:g> ; CREATE GRAPH <a:g> ; " * n),
    "COPY of nothing to one graph, n times": lambda n: one_graph(n) + update("CREATE GRAPH <a:e> ; " + "COPY <a:e> TO <a:g> ; " * n),
    "COPY of nothing to the default graph, n times": lambda n: chain(n) + update("CREATE GRAPH <a:e> ; " + "COPY <a:e> TO DEFAULT ; " * n),
    "ADD of a graph that was cleared, n times": lambda n: one_graph(n) + update("CLEAR GRAPH <a:g> ; " + "ADD <a:g> TO <a:h> ; " * n),
    "patterns over a graph that was cleared, n times": lambda n: one_graph(n) + update("CLEAR GRAPH <a:g> ; " + "INSERT { ?s <a:q> ?o } WHERE { GRAPH <a:g> { ?s ?p ?o } } ; " * n),
    "DELETE WHERE of all, n times over n quads": lambda n: chain(n) + update("DELETE WHERE { ?s ?p ?o } ; " * n),
    "DELETE WHERE of one predicate, n times beside n other quads": lambda n: chain(n) + update("DELETE WHERE { ?s <a:p> ?o } ; " * n),
    "DELETE WHERE of all in a named graph, n times": lambda n: one_graph(n) + update("DELETE WHERE { GRAPH <a:g> { ?s ?p ?o } } ; " * n),
    "DELETE DATA of all, then DELETE WHERE n times": lambda n: chain(n) + update(many(n, "DELETE DATA { <a:%> <a:p> <a:x%> }", " ; ") + " ; " + "DELETE WHERE { ?s ?p ?o } ; " * n),
    "DELETE WHERE of all and one quad by turns, n times over n quads": lambda n: chain(n) + update(many(n, "DELETE WHERE { ?s ?p ?o } ; INSERT DATA { <a:s> <a:p> % }", " ; ")),
    "COPY along n graphs": lambda n: data("GRAPH <a:g0> { <a:s> <a:p> 1 }") + update(" ; ".join(f"COPY <a:g{i}> TO <a:g{i + 1}>" for i in range(n))),
    "MOVE along n graphs": lambda n: data("GRAPH <a:g0> { <a:s> <a:p> 1 }") + update(" ; ".join(f"MOVE <a:g{i}> TO <a:g{i + 1}>" for i in range(n))),
    "ADD of n graphs to one": lambda n: graphs(n) + update(many(n, "ADD <a:g%> TO <a:g>", " ; ")),
    "COPY of n graphs to one": lambda n: graphs(n) + update(many(n, "COPY <a:g%> TO <a:g>", " ; ")),
    "MOVE of n graphs to one": lambda n: graphs(n) + update(many(n, "MOVE <a:g%> TO <a:g>", " ; ")),
    "COPY of a graph to itself": lambda n: chain(n) + update("COPY DEFAULT TO DEFAULT ; " * n),
    "MOVE of n quads": lambda n: chain(n) + update("MOVE DEFAULT TO <a:g>") + "%undo\n%redo\n",
    "a label in two operations at the end: BlankReused": lambda n: update(many(n, "INSERT DATA { _:a% <a:p> 1 }", " ; ") + " ; INSERT DATA { _:a0 <a:p> 1 }"),
    "a missing graph at the end: MissingGraph": lambda n: update(many(n, "INSERT DATA { <a:%> <a:p> 1 }", " ; ") + " ; DROP GRAPH <a:g>"),
}
QUERIES = {
    "open groups: TooDeep": lambda n: query("ASK " + "{" * n),
    "empty groups": lambda n: query("ASK { " + "{ } " * n + "}"),
    "groups in groups, 98 deep": lambda n: query("ASK { " + levels(n, "{", "}") + " }"),
    "dots and groups": lambda n: query("ASK { " + "{ } . " * n + "}"),
    "OPTIONALs": lambda n: data("<a:s> <a:p> 1") + query("SELECT * { ?s ?p ?o " + many(n, "OPTIONAL { ?s <a:q> ?o% } ") + "}"),
    "OPTIONALs of one variable": lambda n: data("<a:s> <a:p> 1") + query("SELECT * { ?s ?p ?o " + "OPTIONAL { ?s <a:q> ?x } " * n + "}"),
    "UNIONs": over_unions("SELECT ?s { $ }"),
    "UNIONs of two triple patterns": over_unions("SELECT ?s { $ }", ". ?s ?q ?x%"),
    "UNIONs behind UNIONs": lambda n: data("<a:s> <a:p> 1") + query("SELECT ?s { " + unions(n) + " { } " + many(n, "UNION { ?s <a:q> ?x% }") + " }"),
    "UNIONs with a FILTER each": over_unions("SELECT ?s { $ }", "FILTER(?o% > 0)"),
    "UNIONs behind a triple pattern": over_unions("SELECT ?s { ?s ?p ?o $ }"),
    "UNIONs before a triple pattern": over_unions("SELECT ?s { $ ?s ?p ?o }"),
    "UNIONs in OPTIONAL": over_unions("SELECT ?s { ?s ?p ?o OPTIONAL { $ } }"),
    "UNIONs in MINUS": over_unions("SELECT ?s { ?s ?p ?o MINUS { $ } }"),
    "UNIONs before a MINUS with a variable of its own": over_unions("SELECT ?s { $ MINUS { ?s <a:q> ?w } }"),
    "UNIONs before a MINUS with two of its own, as an update": lambda n: data("<a:s> <a:p> 1") + update("INSERT { ?s <a:r> 1 } WHERE { " + unions(n) + " MINUS { ?z <a:q> ?w } }"),
    "UNIONs in an update": lambda n: data("<a:s> <a:p> 1") + update("INSERT { ?s <a:q> 1 } WHERE { " + unions(n) + " }"),
    "UNIONs of one variable": lambda n: data("<a:s> <a:p> 1") + query("SELECT * { { } " + "UNION { ?s <a:p> ?o } " * n + "}"),
    "UNION behind UNION": lambda n: data("<a:s> <a:p> 1") + query("SELECT * { " + "{ ?s <a:p> ?o } UNION { ?s <a:q> ?o } " * n + "}"),
    "MINUS behind MINUS": lambda n: data("<a:s> <a:p> 1") + query("SELECT * { ?s ?p ?o " + many(n, "MINUS { ?s <a:q> ?o% } ") + "}"),
    "MINUS of nothing": lambda n: query("ASK { " + "MINUS { } " * n + "}"),
    "MINUS in MINUS, 98 deep": lambda n: data("<a:s> <a:p> 1") + query("ASK { " + levels(n, "?s ?p ?o MINUS {", "}") + " }"),
    "GRAPHs": lambda n: data("GRAPH <a:g> { <a:s> <a:p> 1 }") + query("SELECT * { " + "GRAPH ?g { ?s ?p ?o } " * n + "}"),
    "GRAPH in GRAPH, 98 deep": lambda n: data("GRAPH <a:g> { <a:s> <a:p> 1 } GRAPH <a:h> { }") + query("ASK { " + levels(n, "GRAPH ?g {", "}", "?s ?p ?o") + " }"),
    "OPTIONAL in OPTIONAL, 98 deep": lambda n: data("<a:s> <a:p> 1") + query("ASK { " + levels(n, "?s ?p ?o OPTIONAL {", "}") + " }"),
    "GRAPHs of n names": lambda n: data("GRAPH <a:g> { <a:s> <a:p> 1 }") + query("SELECT * { " + many(n, "GRAPH ?g% { } ") + "}"),
    "GRAPH ?g over n graphs": lambda n: graphs(n) + query("SELECT * { GRAPH ?g { ?s <a:p> ?o } }"),
    "GRAPH ?g behind itself over n graphs": lambda n: graphs(n) + query("SELECT * { GRAPH ?g { ?s <a:p> ?o } GRAPH ?g { ?t <a:p> ?o } }"),
    "GRAPH ?g in GRAPH ?g over n graphs": lambda n: graphs(n) + query("SELECT * { GRAPH ?g { ?s <a:p> ?o GRAPH ?g { ?s ?p ?o } } }"),
    "GRAPH ?h in GRAPH ?g over n graphs": lambda n: graphs(n) + query("SELECT * { GRAPH ?g { ?s <a:p> ?o GRAPH ?h { ?x <a:p> ?o } } }"),
    "triple patterns along a chain": lambda n: nquads("\n".join(f"<a:{i}> <a:p> <a:{i + 1}> ." for i in range(n))) + query(f"SELECT ?x{n} {{ <a:0> <a:p> ?x1 . " + " . ".join(f"?x{i} <a:p> ?x{i + 1}" for i in range(1, n)) + " }"),
    "triple patterns of one subject": lambda n: data("<a:s> <a:p> 1") + query("SELECT ?s { " + many(n, "?s <a:p> ?o%", " . ") + " }"),
    "the same triple pattern": lambda n: data("<a:s> <a:p> 1") + query("SELECT ?s { " + "?s <a:p> ?o . " * n + "}"),
    "triple patterns without a variable": lambda n: data("<a:s> <a:p> 1") + query("ASK { " + "<a:s> <a:p> 1 . " * n + "}"),
    "unlinked triple patterns": lambda n: data("<a:s> <a:p> 1") + query("ASK { " + many(n, "?s% <a:p> ?o%", " . ") + " }"),
    "labels of a pattern": lambda n: data("<a:s> <a:p> 1") + query("ASK { " + many(n, "_:a% <a:p> 1", " . ") + " }"),
    "labels in n groups": lambda n: data("<a:s> <a:p> 1") + query("ASK { " + many(n, "{ _:a% <a:p> 1 }") + " }"),
    "a list of n items in a query": lambda n: query("ASK { <a:s> <a:p> ( " + many(n, "%") + " ) }"),
    "columns": lambda n: query("SELECT " + many(n, "?x%") + " { }"),
    "one column, again and again": lambda n: query("SELECT " + "?x " * n + "{ }"),
    "columns that stand in the pattern": lambda n: data("<a:s> <a:p> 1") + query("SELECT " + many(n, "?x%") + " { " + many(n, "?x% <a:p> 1", " . ") + " }"),
    "all columns, by groups": lambda n: data("<a:s> <a:p> 1") + query("SELECT * { " + many(n, "{ ?x% <a:p> 1 }") + " }"),
    "FILTERs": lambda n: query("ASK { " + many(n, "FILTER(% = %)") + " }"),
    "FILTERs of variables": lambda n: data("<a:s> <a:p> 1") + query("SELECT * { ?s ?p ?o " + many(n, "FILTER(?s != <a:%>)") + " }"),
    "||": lambda n: data("<a:s> <a:p> 1") + query("ASK { ?s ?p ?o FILTER(" + many(n, "?o = <a:%>", " || ") + ") }"),
    "|| of variables": lambda n: data("<a:s> <a:p> 1") + query("ASK { ?s ?p ?o FILTER(" + many(n, "?x%", " || ") + ") }"),
    "+": lambda n: query("ASK { FILTER(" + "1 + " * n + "1 > 0) }"),
    "signed numbers": lambda n: query("ASK { FILTER(1 " + "-1 " * n + "< 0) }"),
    "factors": lambda n: query("ASK { FILTER(" + "1 * " * n + "1 > 0) }"),
    "brackets in filters, 98 deep": lambda n: query("ASK { " + " ".join(["FILTER" + "(" * 98 + "1" + ")" * 98] * (n // 98)) + " }"),
    "a number of n digits in a filter": lambda n: query("ASK { FILTER(" + "0" * n + "1 = 1) }"),
    "a string of n bytes in a filter": lambda n: query('ASK { FILTER(str("' + "x" * n + '") = "' + "x" * n + '") }'),
    "rows": over_chain("SELECT * { ?s ?p ?o }"),
    "rows, each twice, once": over_chain("SELECT DISTINCT ?o { { ?s <a:p> ?o } UNION { ?t <a:p> ?o } }"),
    "ASK of all": over_chain("ASK { ?s ?p ?o }"),
    "a join of two triple patterns": over_chain("SELECT ?a ?c { ?a <a:p> ?b . ?b <a:q> ?c }"),
    "a join of two groups": over_chain("SELECT ?a ?c { { ?a <a:p> ?b } { ?b <a:q> ?c } }"),
    "a join behind OPTIONAL": over_chain("SELECT ?a ?c { ?a <a:p> ?b OPTIONAL { ?b <a:q> ?c } { ?d <a:q> ?c } }"),
    "a join with a column that is unbound in all rows": over_chain("SELECT ?a ?c { { ?a <a:p> ?b OPTIONAL { ?a <a:z> ?c } } { ?b <a:q> ?c } }"),
    "a join with a column that is unbound in one row": lambda n: data("<a:y> <a:p> <a:z>") + over_chain("SELECT ?a ?c { ?a <a:p> ?b OPTIONAL { ?b <a:q> ?c } { ?d <a:q> ?c } }")(n),
    "OPTIONAL of OPTIONAL": over_chain("SELECT * { ?a <a:p> ?b OPTIONAL { ?b <a:q> ?c OPTIONAL { ?c <a:z> ?d } } }"),
    "OPTIONAL with a filter over both": over_chain("SELECT * { ?a <a:p> ?b OPTIONAL { ?b <a:q> ?c FILTER(?a != ?c) } }"),
    "OPTIONAL of a UNION": over_chain("SELECT * { ?a <a:p> ?b OPTIONAL { { ?b <a:q> ?c } UNION { ?b <a:z> ?c } } }"),
    "MINUS that shares a variable": over_chain("SELECT * { ?a <a:p> ?b MINUS { ?b <a:q> ?c } }"),
    "MINUS that shares two": over_chain("SELECT * { ?a <a:p> ?b MINUS { ?a <a:p> ?b } }"),
    "MINUS that shares none": over_chain("SELECT * { ?a <a:p> ?b MINUS { ?c <a:q> ?d } }"),
    "MINUS of what is unbound in half the rows": over_chain("SELECT * { ?a ?x ?b OPTIONAL { ?b <a:q> ?c } MINUS { ?d <a:q> ?c } }"),
    "MINUS whose rows bind this or that": over_chain("SELECT * { ?a <a:p> ?b MINUS { { ?a <a:z> ?c } UNION { ?b <a:z> ?c } UNION { ?c <a:p> ?a } } }"),
    "an unknown prefix behind all: UnknownPrefix": lambda n: query("ASK { " + many(n, "?s <a:%> ?o", " . ") + " . ?s x:y ?o }"),
    "a word outside the profile behind all: NotInProfile": lambda n: query("ASK { " + many(n, "?s <a:%> ?o", " . ") + " } LIMIT 1"),
}
SESSIONS = {
    "blank lines of a script": lambda n: " \n" * n,
    "comments of a script": lambda n: "# x\n" * n,
    "a script's line of n bytes: BadCommand": lambda n: "%" + "x" * n + "\n",
    "a command of n words: BadCommand": lambda n: "%undo" + " x" * n + "\n",
    "commands that are none: BadCommand": lambda n: "%x\n" * n,
    "prints of nothing": lambda n: "%print\n%graphs\n%changes\n" * n,
    "undos of nothing: NothingToUndo": lambda n: "%undo\n" * n,
    "updates": requests,
    "updates and undos": lambda n: requests(n) + "%undo\n" * n,
    "updates, undos, redos, and what changed": lambda n: requests(n) + "%undo\n" * n + "%redo\n" * n + "%changes\n",
    "an update, its undo and redo, again and again": lambda n: (data("<a:s> <a:p> 1") + "%undo\n%redo\n%undo\n") * n,
    "updates, and what changed": lambda n: requests(n) + "%changes\n",
    "updates, and back": lambda n: "%mark x\n" + requests(n) + "%rollback x\n" + "%redo\n" * n,
    "updates, and back a step at a time": lambda n: "".join(f"%mark m{i}\n" + data(f"<a:{i}> <a:p> 1") for i in range(n)) + "".join(f"%rollback m{i}\n" for i in range(n - 1, -1, -1)),
    "updates that change nothing, and what changed behind each": lambda n: (flips(2) + "%changes\n") * n,
    "updates, each behind a mark and back": lambda n: ("%mark x\n" + flips(2) + "%rollback x\n") * n,
    "marks": marks,
    "one mark, again and again": lambda n: "%mark m\n" * n,
    "marks, then an update, an undo and another": lambda n: marks(n) + (data("<a:s> <a:p> 1") + "%undo\n") * n,
    "marks, then an update, a mark, an undo, again and again": lambda n: marks(n) + (data("<a:s> <a:p> 1") + "%mark x\n%undo\n") * n,
    "marks, each behind an update that an undo takes back": lambda n: "".join(data(f"<a:{i}> <a:p> 1") + f"%mark m{i}\n%undo\n" for i in range(n)),
    "marks ahead: MarkAhead": lambda n: requests(n) + "%mark x\n" + "%undo\n" * n + "%rollback x\n" * n,
    "commits": lambda n: (data("<a:s> <a:p> 1") + "%commit\n") * n,
    "commits behind many quads": lambda n: chain(n) + "%commit\n" * n,
    "small requests over many quads": lambda n: chain(n) + (data("<a:s> <a:p> 1") + "%undo\n") * n,
    "small queries over many quads": lambda n: chain(n) + query("ASK { <a:1> <a:p> ?o }") * n,
    "small updates with WHERE over many quads": lambda n: chain(n) + (update("DELETE { <a:1> ?p ?o } INSERT { <a:1> ?p 1 } WHERE { <a:1> ?p ?o }") + "%undo\n") * n,
    "requests of CLEAR NAMED, n of them over n empty graphs": lambda n: update(many(n, "CREATE GRAPH <a:g%>", " ; ")) + update("CLEAR NAMED") * n,
    "small loads": lambda n: nquads("<a:s> <a:p> 1 .".replace("1", '"1"')) * n,
    "small loads of Turtle with a label": lambda n: turtle("_:a <a:p> 1 .") * n,
    "loads of what is there": lambda n: chain(n) + nquads("<a:1> <a:p> <a:x1> .") * n,
    "a load and its undo, each of all": lambda n: (chain(n // 32) + "%undo\n") * 32,
    "updates under a depth of 1": lambda n: ("--depth 1", requests(n) + "%changes\n"),
    "updates under a depth of 1000, and what changed behind each thousand": lambda n: ("--depth 1000", (requests(1000) + "%changes\n") * max(1, n // 1000)),
    "marks under a depth of 100": lambda n: ("--depth 100", "".join(f"%mark m{i}\n" + data(f"<a:{i}> <a:p> 1") for i in range(n))),
    "marks of one state under a depth of 1": lambda n: ("--depth 1", marks(n) + requests(n)),
}
CONVERSIONS = {
    "lines converted": lambda n: ("nquads", many(n, "<a:%> <a:p> <a:o> .", "\n") + "\n"),
    "labels converted": lambda n: ("nquads", many(n, "_:a% <a:p> _:b% .", "\n") + "\n"),
    "a line of n bytes converted": lambda n: ("ntriples", '<a:s> <a:p> "' + "x" * n + '" .\n'),
    "Turtle converted": lambda n: ("turtle", "PREFIX p: <a:>\n" + many(n, 'p:s% p:p "%", [ p:q ( % ) ] .', "\n")),
}


def spent(words, text, room):
    """The processor seconds of a run, its status, and what it says."""
    (room / "text").write_text(text, newline="")
    limit = lambda: resource.setrlimit(resource.RLIMIT_AS, (MEMORY, MEMORY))
    with open(room / "said", "wb") as said:
        process = subprocess.Popen([*words, room / "text"], stdout=said, stderr=subprocess.STDOUT, preexec_fn=limit)
        _, status, usage = os.wait4(process.pid, 0)
    process.returncode = status
    return usage.ru_utime + usage.ru_stime, os.waitstatus_to_exitcode(status)


def fits(name, status, room):
    """Whether the answers are those that a shape's name says."""
    fault, said = name.rpartition(": ")[2] if ": " in name else None, (room / "said").read_bytes()
    last = said.rstrip(b"\n").rpartition(b"\n")[2].decode(errors="replace")
    return status == 1 and last.startswith(f"refused: {fault}") if fault else status == 0 and b"\nrefused: " not in b"\n" + said


def measured(rdfkeep, seconds, name, make, room):
    """The sizes and times of a shape, and what is wrong with its answers."""
    found, size, wrong = [], LEAST, ""
    while True:
        made = make(size)
        words, text = made if isinstance(made, tuple) else ("", made)
        words = [rdfkeep, "convert", "--from", words] if name in CONVERSIONS else [rdfkeep, "run", *words.split()]
        time, status = spent(words, text, room)
        found.append((size, time))
        wrong = wrong or ("" if fits(name, status, room) else f"answers otherwise at {size}, status {status}")
        if time >= seconds or 2 * len(text) > MOST or wrong:
            return found, wrong
        size *= 2


def main(rdfkeep=str(pathlib.Path(__file__).resolve().parent.parent / "rdfkeep"), seconds="1", *words):
    grows = []
    print("%-68s %9s %28s   %s" % ("", "largest n", "seconds at n/4, n/2 and n", "times the one before"))
    with tempfile.TemporaryDirectory() as folder:
        for name, make in {**LINES, **TURTLE, **UPDATES, **QUERIES, **SESSIONS, **CONVERSIONS}.items():
            if words and not any(it in name for it in words):
                continue
            found, wrong = measured(rdfkeep, float(seconds), name, make, pathlib.Path(folder))
            times = [it[1] for it in found[-3:]]
            ratios = [now / max(before, 0.001) for before, now in zip(times, times[1:])]
            # (what takes next to no time tells nothing)
            if len(ratios) == 2 and min(ratios) > 3 and times[-1] > FLOOR:
                grows.append(name)
            print("%-68s %9d %28s   %s %s" % (name, found[-1][0], " ".join("%8.3f" % it for it in times), " ".join("%5.1f" % it for it in ratios), wrong), flush=True)
    print("grow faster:", "; ".join(grows) or "none")


if __name__ == "__main__":
    main(*sys.argv[1:])
