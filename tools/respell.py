#!/usr/bin/env python3
"""Brings the definitions and lemmas of specs/ and proofs/ to snake case: `firstBits` becomes `first_bits`, `endTag-local` `end_tag_local`.

usage: python3 tools/respell.py [--list]      at the top of the repository

Types, facts and modules keep their capitals; functions of src/, exported C names, strings, inputs and outputs keep their names.
A name is turned only if an .antt file has it; `getD` becomes the library's `get_or`. In .rt and .edit files it is turned outside strings
and `//` comments; in these comments and in pages only between backticks, and there and in comments of .antt files only where it is no
name of the XML schemas. Where two turned names fall together, they are printed and nothing is written. With --list the names are printed, also
those whose new form some .antt file has already: a function or a parameter of another place, or a lemma to be renamed by hand.

Lemmas, fields and constructors follow the list tools/respelled.tsv, old name and new: a dash stays between two names that stand in the
statement, and a plain word is joined by `_` (by `_` throughout where a name is declared more than once and the two would differ). Where
the new name would be that of something else in one of the files, `_lem` is added in every file. A name that some file took from a library
is not in the list; no file may take one that is, since it would be turned too. In the proofs of functions a step or a goal that the
checker names (after `c.`, `w.`, `l.` or `goal.`) stays.
"""

import collections
import os
import re
import sys

# Names of the XML schemas that definitions bear too: as text between backticks they mean the schema's.
SCHEMA = set("""assistenteNonFamiliare codASL confermaPrecedente dataAD dataFine dataInizio gradoMobilita idRec motivazioneConclusione
motivazioneSospensione motivoRivalutazione nucleoFamiliare numAccessi numPrestazione patologiaPrevalente presaInCarico quantitaPrestazione
regioneErogazione regioneResidenza rischioInfettivo soggettoRichiedente statoCivile statoEstero supportoSociale tipoOperatore tipoPrestazione
tipoTrasmissione tipologiaCI trattamentiRiab validitaCI""".split())
# The library's name for what an older one called getD.
FIXED = {"getD": "get_or"}


def snake(word):
    """firstBits -> first_bits; codASL -> cod_asl; a part that begins with a capital is a type's or a fact's and stays."""
    if word in FIXED:
        return FIXED[word]
    parts = []
    for part in word.split("-"):
        if part[:1].islower() and re.search(r"[a-z0-9][A-Z]", part):
            part = re.sub(r"(?<=[a-z0-9])([A-Z]+)(?=[A-Z][a-z]|[^A-Za-z]|$)|(?<=[a-z0-9])([A-Z])", lambda m: "_" + (m.group(1) or m.group(2)), part).lower()
        parts.append(part)
    return "-".join(parts)


def files(top, ends):
    for folder, dirs, names in os.walk(top):
        dirs[:] = sorted(d for d in dirs if d not in ("out", ".git", "__pycache__"))
        for name in sorted(names):
            if name.endswith(ends):
                yield os.path.join(folder, name)


def read(path):
    with open(path, encoding="utf8") as f:
        return f.read()


def code_of(text):
    """The text without comments."""
    text = re.sub(r"--.*", "", text)
    return text


def tokens(text):
    return set(re.findall(r"(?<![\w'′])[a-zA-Z_][\w'′₀-₉]*(?:-[\w'′₀-₉]+)*", text))


def rename(text, names):
    def one(m):
        word = m.group(0)
        return "-".join(names.get(p, p) for p in word.split("-"))
    return re.sub(r"(?<![\w'′₀-₉-])[a-z][\w'′₀-₉]*(?:-[\w'′₀-₉]+)*", one, text)


def in_rt(text, names):
    """Renames outside strings, characters and comments; between backticks in comments too."""
    out = []
    for piece in re.split(r'(//[^\n]*|b?"(?:\\.|[^"\\])*"|b?\'(?:\\.|[^\'\\])\')', text):
        if piece.startswith("//"):
            piece = in_page(piece, names)
        elif not re.match(r"b?[\"']", piece):
            piece = rename(piece, names)
        out.append(piece)
    return "".join(out)


def in_page(text, names):
    return re.sub(r"`[^`\n]+`", lambda m: rename(m.group(0), {k: v for k, v in names.items() if k not in SCHEMA}), text)


def in_antt(text, names):
    out = []
    for line in text.split("\n"):
        code, dash, comment = line.partition("-- ") if "-- " in line and '"' not in line else (line, "", "")
        plain = {k: v for k, v in names.items() if k not in SCHEMA}
        pieces = re.split(r'("(?:\\.|[^"\\])*")', code)
        code = "".join(p if p.startswith('"') else rename(p, names) for p in pieces)
        out.append(code + dash + rename(comment, plain))
    return "\n".join(out)


def listed():
    path = os.path.join(os.path.dirname(os.path.abspath(__file__)), "respelled.tsv")
    return dict(line.split("\t") for line in read(path).split("\n") if line)


DASHED = re.compile(r"(?<![\w'′₀-₉-])[a-z][\w'₀-₉]*(?:-[\w'₀-₉]+)+(?![\w'₀-₉-])")


def relisted(text, names, is_proof=False):
    """Renames whole dashed names; in a function's proof not those that the checker makes."""
    def one(m):
        before = text[max(0, m.start() - 40):m.start()]
        if is_proof and re.search(r"(?<![\w)\]])(?:[cwl]|goal|l\.initial|l\.fn)\.$", before):
            return m.group(0)
        if is_proof and re.search(r"(?m)^pub $", before) and text.startswith(f"{m.group(0)} : goal.", m.start()):
            return m.group(0)
        return names.get(m.group(0), m.group(0))
    return DASHED.sub(one, text)


def relist(path, text, names):
    if path.endswith(".antt"):
        pieces = re.split(r'("(?:\\.|[^"\\\n])*")', text)
        is_proof = re.search(r"/proofs/.+/(Answers|Invariants|Proof)\.antt$", path)
        return "".join(p if p.startswith('"') else relisted(p, names, bool(is_proof)) for p in pieces)
    if path.endswith(".md"):
        return re.sub(r"`[^`\n]+`", lambda m: relisted(m.group(0), names), text)
    out = []
    for piece in re.split(r'(//[^\n]*|b?"(?:\\.|[^"\\])*")', text):
        out.append(piece if re.match(r'//|b?"', piece) else relisted(piece, names))
    return "".join(out)


def parts_of(word):
    return [p for p in word.split("-") if p[:1].islower() and re.search(r"[a-z0-9][A-Z]", p) and "_" not in p]


def main():
    words = collections.Counter()
    every = set()
    for path in files("crates", ".antt"):
        for word in tokens(code_of(read(path))):
            for p in word.split("-"):
                every.add(p)
            for p in parts_of(word):
                words[p] += 1
    names = {w: snake(w) for w in words}
    back = collections.defaultdict(list)
    for w, s in names.items():
        back[s].append(w)
    bad = 0
    for s, ws in sorted(back.items()):
        if len(ws) > 1:
            print("fall together:", s, ws)
            bad += 1
        if s in every and "--list" in sys.argv:
            print("stands already:", ws, s)
    if "--list" in sys.argv:
        for w in sorted(names):
            print(w, names[w], words[w])
        return
    if bad:
        raise SystemExit(2)
    lemmas = listed()
    # The port's page has the old names beside the new.
    pages = [p for top in ("docs", "bench", "host") for p in files(top, ".md") if p != os.path.join("docs", "PORT.md")] + ["README.md"]
    for path in [*files("crates", (".antt", ".rt", ".edit")), *pages]:
        text = read(path)
        turn = in_antt if path.endswith(".antt") else in_page if path.endswith(".md") else in_rt
        new = relist(path, turn(text, names), lemmas)
        if new != text:
            with open(path, "w", encoding="utf8") as f:
                f.write(new)


if __name__ == "__main__":
    main()
