"""What `tools/fail-program` asks of the program, each of whose requests for memory is refused in turn."""

CHANGE = "DELETE { ?s <p> ?o } INSERT { GRAPH <g> { _:n <p> ?o } } WHERE { ?s <p> ?o }"
LINES = '<http://e/s> <http://e/p> "\\u0061"@EN .\n_:x <http://e/p> _:y <http://e/g> . # c\n'
COMMANDS = [
    "%load nquads\n<http://e/s> <http://e/p> _:b <http://e/g> .\n%end\n",
    "%mark a\n",
    f"%update\n{CHANGE}\n%end\n",
    "%print\n",
    "%undo\n",
    "%query\nSELECT * WHERE { ?s <p> ?o OPTIONAL { ?s <q> ?r } FILTER(?o = 4) }\n%end\n",
    "%redo\n",
    "%changes\n",
    "%graphs\n",
    "%rollback a\n",
    "%commit\n",
]
FILES = {"data": "@prefix : <> .\n:s :p 'a' , 4 ; :q [ :r ( :o ) ] .\n", "lines": LINES, "script": "".join(COMMANDS)}
RUN = "run --base http://e/ --data data --format turtle"
DATA = f"{RUN[4:]} --data lines"
# what the program is asked: its words, its standard input, and what a refusal may leave of its output
ASKED = {
    "run of a file": (f"{RUN} script", "", "answers"),
    "run of standard input": (f"{RUN} --depth 1", FILES["script"], "answers"),
    "convert from nquads": ("convert --from nquads lines", "", "lines"),
    "convert from ntriples": ("convert --from ntriples", LINES.replace(" <http://e/g>", ""), "lines"),
    "convert from turtle": ("convert --from turtle --base http://e/ data", "", "nothing"),
    "query": (f"query {DATA} --results json", "SELECT * WHERE { ?s <p> ?o OPTIONAL { ?s <q> ?r } }", "nothing"),
    "update": (f"update {DATA}", CHANGE, "nothing"),
    "what an update changed": (f"update {DATA} --changes", CHANGE, "nothing"),
    "check of lines": ("check --from nquads lines", "", "nothing"),
    "check of turtle": ("check --from turtle --base http://e/ data", "", "nothing"),
    "help": ("help run", "", "nothing"),
}
CASES = [(name, tuple(words.split()), text, left) for name, (words, text, left) in ASKED.items()]
