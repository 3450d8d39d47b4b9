#!/usr/bin/env python3
"""Writes a script of many lines of N-Quads into the current folder, with what the program has to answer.

    line_texts.py changed     ten good lines, with each byte changed to each other one
    line_texts.py fronts      the same lines, cut short at each byte

What is told of each is given by hand: where a line holds a statement, and what may stand in the place of each byte.
"""
import string
import sys
from pathlib import Path

# A line, and a mark for each of its bytes, which says what may stand there: F the first byte, for which a # makes a comment;
# D a byte that no other may replace; s the first letter of a scheme, and : the colon behind it; i what an IRI holds; _ a gap,
# g one behind a label, h one behind a tag, e one before a comment; l a label's one character, m one amid a label, n its last
# one, N its last one behind a dot; t what a string holds, T the same before an escape; b the backslash of an escape, u what
# follows it, x a digit of its number; a a tag's first letter, z its last one; c what a comment holds; 1 and 2 the bytes of a
# character.
GOOD = [
    (rb"<a:s> <a:p> <a:o> .", "Fs:iD_Ds:iD_Ds:iD_D"),
    (rb"<a:s><a:p><a:o>.", "Fs:iDDs:iDDs:iDD"),
    (rb"_:b <a:p> _:kmn .", "FDlgDs:iD_DDlmngD"),
    (rb"<a:s> <a:p> _:k.n .", "Fs:iD_Ds:iD_DDlmNgD"),
    (rb'<a:s> <a:p> "mama" .', "Fs:iD_Ds:iD_DttttD_D"),
    (rb'<a:s> <a:p> "x\u00e9y" .', "Fs:iD_Ds:iD_DTbuxxxxtD_D"),
    (rb'<a:s> <a:p> "o"@en .', "Fs:iD_Ds:iD_DtDDazhD"),
    (rb'<a:s> <a:p> "1"^^<a:d> .', "Fs:iD_Ds:iD_DtDDDDs:iD_D"),
    (rb"<a:s> <a:p> <a:o> <a:g> . # end", "Fs:iD_Ds:iD_Ds:iD_Ds:iD_DeDcccc"),
    ('<a:s> <a:p> "é" .'.encode(), "Fs:iD_Ds:iD_D12D_D"),
]

LETTERS, DIGITS, GAPS, ENDS = string.ascii_letters, string.digits, " \t", "\n\r"
LABEL = LETTERS + DIGITS + "_:-"
FORBIDDEN = "".join(map(chr, range(33))) + '<>"{}|^`\\'
ASCII = "".join(map(chr, range(128)))
# the ASCII characters that may stand in the place of a byte with this mark
MAY_STAND = {
    "F": "#",
    "s": LETTERS,
    "i": set(ASCII) - set(FORBIDDEN),
    "_": GAPS,
    "g": GAPS + LABEL,
    "n": GAPS + LABEL,
    "h": GAPS + LETTERS,
    "z": GAPS + LETTERS,
    "e": GAPS + "#",
    "l": set(LABEL) - {"-"},
    "m": LABEL + ".",
    "N": LABEL + "#",
    "a": LETTERS,
    "t": set(ASCII) - set('"\\' + ENDS),
    "T": set(ASCII) - set('"' + ENDS),
    "b": set(ASCII) - set('"' + ENDS),
    "u": "tbnrf\"'\\",
    "x": string.hexdigits,
    "c": ASCII,
}
# the bytes that may stand in the place of a character's first, or of its second
MAY_STAND_IN_UTF8 = {"1": range(0xC2, 0xE0), "2": range(0x80, 0xC0)}
READ, SYNTAX, RELATIVE, NOT_UTF8 = "", "Syntax", "Relative", "NotUtf8"


def told(mark, byte):
    """What a good line is told for in which a byte with this mark is another one: as read, or its fault."""
    if mark in MAY_STAND_IN_UTF8:
        return READ if byte in MAY_STAND_IN_UTF8[mark] else NOT_UTF8
    if byte > 127:
        return NOT_UTF8
    if mark in "s:" and chr(byte) not in FORBIDDEN:
        return READ if chr(byte) in MAY_STAND.get(mark, "") else RELATIVE
    return READ if chr(byte) in MAY_STAND.get(mark, "") else SYNTAX


def told_of_front(front):
    """What the first bytes of a good line are told for. Each line ends with a dot, but the ninth; a dot amid a label may be the statement's."""
    if front.endswith(b"\xc3"):
        return NOT_UTF8
    is_statement = not front or front.endswith(b".") or front.startswith(b"<a:s> <a:p> <a:o> <a:g> .")
    return READ if is_statement else SYNTAX


def told_in_two(line, place):
    """What the lines are told for that a line end in this place makes of a good line: the fault and its line."""
    front, rest = told_of_front(line[:place]), line[place + 1 :].strip()
    return (front, 1) if front else (SYNTAX if rest and not rest.startswith(b"#") else READ, 2)


def write(texts):
    """Writes the script that loads each text and takes it back, and its answers. Beside a text stand the number of its statements, its fault and the
    fault's line."""
    script, answers = [b"%mark start\n"], ["ok\n"]
    for text, statements, fault, line in texts:
        script.append(b"%load nquads\n" + text + b"\n%end\n%rollback start\n")
        answers.append(f"refused: {fault} line {line}\nok +0 -0\n" if fault else f"ok +{statements} -0\nok +0 -{statements}\n")
    Path("script").write_bytes(b"".join(script) + b"%print\n")
    Path("stdout").write_text("".join(answers) + "ok 0\n")


def changed():
    texts = []
    for line, marks in GOOD:
        for place, mark in enumerate(marks):
            for byte in range(256):
                text = line[:place] + bytes([byte]) + line[place + 1 :]
                statements = int(not text.startswith(b"#"))
                if text == line:
                    fault, number = READ, 1
                elif chr(byte) in ENDS:
                    fault, number = told_in_two(line, place)
                else:
                    fault, number = told(mark, byte), 1
                texts.append((text, statements, fault, number))
    write(texts)


def fronts():
    sizes = [(line, size) for line, _ in GOOD for size in range(len(line) + 1)]
    write([(line[:size], int(size > 0), told_of_front(line[:size]), 1) for line, size in sizes])


if __name__ == "__main__":
    {"changed": changed, "fronts": fronts}[sys.argv[1]]()
