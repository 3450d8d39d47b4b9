"""Edits of functions' bodies, and how a check of them is prepared. It relies on the layout of `rt fmt`."""
import collections, os, re

HEAD = re.compile(r"^( *)(?:pub(?:\([^)]*\))? )?((?:(?:const|unsafe|final) )*)fn (\w+)")
# its parameters, its trait and that one's argument, where it is no lifetime, its type and that one's argument, which may have a lifetime
IMPL = re.compile(r"(?:unsafe )?impl(<[^{]*?>)? (?:(?:\w+::)*(\w+)(?:<(?:'\w+|(\w+).*?)>)? for )?(?:\w+::)*(\w+)(?:<(\w+)(?:<'\w+>)?>)?")
# a trait, some of whose methods may have bodies
TRAIT = re.compile(r"(?:pub(?:\([^)]*\))? )?trait (\w+)")
# behind the answers of each edited function stands a declaration that antt refuses. So it is never proved, and the check doesn't offer answers for what
# is left open, which would take a third of its time; each goal of the function is tried all the same, and the check says which it doesn't prove
REFUSED = "untried"
MARK = f"\n{REFUSED} : ⊥\n{REFUSED} = tt\n"
# `names` has for the function, or for each of its cycle of calls, patterns of what a check calls it, the most exact first; `cycle` names that cycle
Function = collections.namedtuple("Function", "file first opens last name names alone cycle")


def is_whole(lines):
    """Whether each bracket that these lines open is closed: a `;` inside a record of a clause ends no declaration."""
    text = "".join(lines)
    return text.count("{") == text.count("}")


def owner_of(outer):
    """What a check calls an impl: `VecQuadSink` that of `Sink` for `Vec<Quad>`, `ItemsModel` that of `Model` for `Items<T>`."""
    parameters, trait, argument, owner, own = outer.groups()
    is_given = own and trait and own not in re.findall(r"\w+", parameters or "")
    return f"{owner}{own if is_given else ''}{trait or ''}{argument or ''}"


def functions_of(crate, file, text):
    """The functions of a file in rt fmt's layout, their lines from 0. `names` are patterns of what a check calls them, most exact first."""
    lines, found = text.split("\n"), []
    module = "::".join([crate, *(it for it in file[4:-3].split("/") if it not in ("lib", "main", "mod"))])
    for at, line in enumerate(lines):
        head = HEAD.match(line)
        if not head:
            continue
        indent, first, opens = head[1], at, at
        while first and re.match(rf"{indent}(#|//)", lines[first - 1]):
            first -= 1
        if not line.endswith("}"):
            ends = re.compile(rf"{indent}(\S.*)?(\{{|\}})$")
            opens = next(n for n in range(at, len(lines)) if ends.match(lines[n]) or lines[n].endswith(";") and is_whole(lines[at : n + 1]))
        if lines[opens].endswith(";"):
            continue
        last = opens if lines[opens].endswith("}") else lines.index(f"{indent}}}", opens)
        around = next((lines[n] for n in range(at, -1, -1) if re.match(r"\S.*\{$", lines[n])), "") if indent else ""
        outer, trait = IMPL.match(around), TRAIT.match(around)
        owner = f"::{owner_of(outer)}" if outer else f"::{trait[1]}" if trait else ""
        names = [f"{module}{owner}::{head[3]}"] if owner or not indent else []
        names += [rf"\S*{owner}::{head[3]}"] if indent else []
        cycle = re.search(r"#\[cycle\((\w+)\)\]", "\n".join(lines[first:at]))
        found.append(Function(file, first, opens, last, head[3], [names], "const" in head[2], (file, cycle[1]) if cycle else None))
    # a cycle of calls has one proof, so what one of its functions does is judged at all of them
    mates = lambda it: [other for other in found if other is it or it.cycle and other.cycle == it.cycle]
    return [it._replace(names=[names for other in mates(it) for names in other.names]) for it in found]


class Edit:
    """An edit: its new lines by file and number, and the functions that it changes, or why it can't be taken. A wrong definition has new lines of specs/,
    and the law that it has to break."""

    def __init__(self, path, folder):
        self.path, self.name, self.is_definition = path, path.name, path.parent.name == "wrong-definitions"
        self.text = path.read_text(errors="replace") if path.is_file() else ""
        # the wrong body that it is, whatever its file says beside it
        self.turns = "\n".join(line for line in self.text.split("\n") if line and not line.startswith("#"))
        self.law = (re.findall(r"(?m)^law: (\S+)$", self.text) or [""])[0]
        # goals that the check doesn't prove either, and that need not be tried, since one is enough
        self.beside = [it for line in re.findall(r"(?m)^# also at: (.*)", self.text) for it in line.split(", ")]
        self.lines, self.functions, self.clauses, self.symbols, self.why = {}, [], [], [], None
        for file, (was, text) in self.read(folder).items():
            changed = [(at, *lines) for at, lines in enumerate(zip(was.split("\n"), text.split("\n"))) if lines[0] != lines[1]]
            self.lines.update({(file, at): new for at, _, new in changed})
            self.take_law(file, folder) if self.is_definition else self.take(file, was, changed, folder.name)
        self.why = self.why or (None if self.functions and self.lines else "it changes nothing")
        self.keys, self.alone = {(it.file, it.first) for it in self.functions}, self.is_definition or any(it.alone for it in self.functions)
        self.cycles = {it.cycle for it in self.functions if it.cycle}
        # what a check calls the first of them, whether its answers may be marked, and the goals that it leaves open
        self.at, self.may_be_marked, self.open = "", not self.is_definition, {}

    def is_apart(self, other):
        """Whether no check has both edits."""
        return self.alone or other.alone or bool(self.keys & other.keys)

    def read(self, folder):
        """The files that it changes, each as it was and as it becomes."""
        texts, file, old = {}, "", ""
        if self.path.suffix != ".edit" or not self.path.is_file():
            self.why = "a file in must-fail/ is an edit, and its name ends in .edit"
        for line in self.turns.split("\n") if not self.why else ():
            key, _, text = line.partition(":")
            text = re.sub(r"\A ", "", text)
            if key == "file":
                file = text.strip()
            elif key == "old":
                old = text
            elif key == "new" and (folder / file).is_file():
                was, now = texts.get(file) or [(folder / file).read_text()] * 2
                if now.count(old) != 1:
                    self.why = self.why or f"an 'old:' text is in {file} {now.count(old)} times, and not once"
                texts[file] = was, now.replace(old, text)
            elif key != "law" or not self.is_definition:
                self.why = f"there is no file {file}" if key == "new" else f"no line of an edit begins so: {line[:60]}"
        return texts

    def take(self, file, was, changed, crate):
        """Takes the changed lines of a file, each of which has to lie in a function's body."""
        functions = functions_of(crate, file, was) if re.match(r"src/.*\.rt$", file) else []
        for at, old, new in changed:
            inside = next((it for it in functions if it.opens <= at <= it.last), None)
            # on the line that opens the body only what stands behind its bracket is the body's
            is_head = inside and at == inside.opens and ("{" not in os.path.commonprefix((old, new)) or re.search(r"\b(ensures|requires)", old))
            if inside and inside not in self.functions:
                self.functions.append(inside)
                self.clauses += re.findall(r"(?m)^\s*ensures\*? (\w+) \{", "\n".join(was.split("\n")[inside.first : inside.opens + 1]))
            if not inside or is_head:
                self.why = self.why or f"{file}:{at + 1} is in no function's body: say the same wrong thing in a body"

    def take_law(self, file, folder):
        """Finds the law at which the new lines of a file of definitions are judged."""
        sources = sorted((folder / "src").rglob("*.rt"))
        functions = [it for at in sources for it in functions_of(folder.name, str(at.relative_to(folder)), at.read_text())]
        self.functions = [it for it in functions if f"{folder.name}::{self.law}" in it.names[0]]
        if not re.match(r"specs/.*\.antt$", file):
            self.why = self.why or f"{file} has no definitions"
        if len(self.functions) != 1:
            self.why = self.why or f"no one function of the crate is its law: {self.law or 'it names none'}"

    def folders(self):
        """The folders of proofs/ in which its functions' answers stand: of a cycle of calls it is one, beside those of its functions."""
        own = [it.split("::", 1)[1].replace("::", "/") for it in self.symbols]
        return sorted({f"{it.rpartition('/')[0]}/+{cycle}".lstrip("/") for it in own for _, cycle in self.cycles} if self.cycles else {*own})

    def write(self, folder):
        """Makes the edit in a copy of the crate, and marks the answers of its functions, unless one has a proof by hand, which has no goals."""
        for file in {file for file, _ in self.lines}:
            lines = (folder / file).read_text().split("\n")
            (folder / file).write_text("\n".join(self.lines.get((file, number), line) for number, line in enumerate(lines)))
        answers = {it: folder / "proofs" / it / "Answers.antt" for it in self.folders()}
        if self.may_be_marked and not any(at.with_name("Proof.antt").is_file() for at in answers.values()):
            for it, at in answers.items():
                at.parent.mkdir(parents=True, exist_ok=True)
                text = at.read_text() if at.is_file() else ""
                at.write_text(self.marked(text, f"Rattle.{folder.name}.proofs.{it.replace('/', '.')}.Goals"))

    def marked(self, text, module):
        """Answers to the goals of a module with the mark. What need not be tried is answered by what antt refuses."""
        text += "" if MARK in text else MARK
        others = [it for it in self.beside if not re.search(rf"(?m)^(pub |abbrev )*{re.escape(it)} :", text)]
        # (an answer file may have brought the module in, and under no second name)
        known = re.search(rf"(?m)^use {re.escape(module)} as (\S+)$", text)
        goals = known[1] if known else "the_others"
        use = f"use {module} as {goals}\n" if others and not known else ""
        return use + text + "".join(f"\npub {it} : {goals}.{it}\n{it} = absurd {REFUSED}\n" for it in others)


def without_body(lines, function):
    """The lines of a file without a function's body, which only says that it is never reached. Each other line keeps its number."""
    indent = re.match(" *", lines[function.opens])[0]
    body = [f"{indent}    unreachable!()"] + [""] * (function.last - function.opens - 2)
    return lines[: function.opens + 1] + body + lines[function.last :]


def has_its_body_left_out(function, lines):
    """Whether nothing but its own proof can see the function's body: what a `const fn` says is computed, and what an `impl` stands for is seen."""
    head = " ".join(lines[function.first : function.opens + 1])
    return not function.alone and function.last - function.opens >= 2 and lines[function.opens].endswith("{") and "-> impl" not in head


def is_of(symbol, function):
    """Whether what a check calls so is the function, or a closure in it."""
    return f"{symbol}::".replace("::fn::", "::").startswith(f"{function}::")
