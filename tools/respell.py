#!/usr/bin/env python3
"""Brings the repository's own words to the toolchain's spelling: a word of specs/ and proofs/ is in snake case.

Run once, at the top, after the toolchain's own porting script. It takes the words that still begin small and go on with
capitals, as `wellFormed`, and writes `well_formed`, in the definitions and proofs (*.antt), in what only contracts see of the
sources (*.rt: Rust has no such words), and where documents name them. Types, facts and modules, which begin with a capital,
keep their names, and so do strings. It stops where two words of one file would fall together.

Then it turns the dashes of the lemmas' names. A dash stays where it joins the two calls on the left side of a lemma's equation,
as in `length-swept`, and an underscore stands before a plain word, as in `four_back`. A lemma that would have the name of a
definition gets `_lem`. Names that the toolchain makes, as those of goals, are not touched.
"""
import pathlib
import re
import sys

WORD = re.compile(r"(?<![A-Za-z0-9_])[a-z][a-z0-9]*(?:[A-Z][A-Za-z0-9]*)+(?![A-Za-z0-9_])")
STRING = re.compile(r'"(?:[^"\\\n]|\\.)*"')
# words of other libraries, which only a comment names
KEPT = {"quotZ"}
# words that the porting script has respelled in the sources, and that documents still have in the old spelling
IN_DOCUMENTS = {"valueAt", "valuesOf", "rowAt", "bytesOf"}

# a lemma whose name falls together with a word that is respelled here: the file, the lemma, its name from now on, and the word
LEMMAS = [("crates/machine/proofs/Soundness.antt", "same_flag", "same_flag-itself", "sameFlag")]
# lemmas whose dash joins two calls on the left side of their equation
JOINED = {
    "cycled-append", "first-cycled", "first-drop", "first-newest", "first-push", "length-full", "length-shifted", "length-swept",
    "swept-nil", "length-shape", "length-below", "shape-set", "shape-given", "shape-copied", "mask-none", "mask-push", "mask-take",
    "mask-drop", "mask-zero", "provided-ok", "entry-byte", "row-byte", "upwards-suc",
}
# lemmas that would have the name of a definition
LEM = {
    "counts-right", "entry-right", "first-place", "level-at", "marked-first", "or-refused", "or-trip", "same-shape", "sheet-then",
}
# the same of a lemma that the porting script has named so: its name, and the files that cite it
LEM_IN = [
    ("row_at", ["proofs/Lookup.antt", "proofs/Keeps.antt", "proofs/rules/target_holds/Answers.antt"], "crates/module/"),
]
DECLARED = re.compile(r"^\s*(?:pub )?([a-z][^\s:(){}.]*-[^\s:(){}.]*)\s*(?:(?:\{[^}]*\}|\([^)]*\))\s*)*:\s(?!goal\.)")
# functions of the sources that have the name of the word which their own contract cites: a clause sees only the word
FUNCTIONS = {"breach_in", "entry_right", "row_from", "callee_signature", "body_row"}


def snake(word):
    return re.sub(r"[A-Z]", lambda m: "_" + m.group(0).lower(), word)


def outside_strings(text, turn):
    parts, at = [], 0
    for m in STRING.finditer(text):
        parts += [turn(text[at:m.start()]), m.group(0)]
        at = m.end()
    return "".join(parts + [turn(text[at:])])


def main():
    sources = sorted(pathlib.Path("crates").glob("**/*.antt")) + sorted(pathlib.Path("crates").glob("**/*.rt"))
    sources = [p for p in sources if "out" not in p.parts]
    for name, lemma, new, word in LEMMAS:
        path = pathlib.Path(name)
        if path.exists() and word in path.read_text():
            path.write_text(re.sub(r"(?<![\w'-])%s(?![\w'-])" % lemma, new, path.read_text()))
    found, clash = set(), False
    for path in sources:
        text = path.read_text()
        here = set(WORD.findall(STRING.sub("", text))) - KEPT
        found |= here
        for word in here:
            if snake(word) not in FUNCTIONS and re.search(r"(?<![A-Za-z0-9_'-])%s(?![A-Za-z0-9_'-])" % re.escape(snake(word)), text):
                print(f"look: {path}: {word} and {snake(word)} are both here")
                clash = True
    if clash:
        sys.exit("nothing is written")
    turn = lambda text: WORD.sub(lambda m: snake(m.group(0)) if m.group(0) in found else m.group(0), text)
    for path in sources:
        text = path.read_text()
        new = outside_strings(text, turn)
        if new != text:
            path.write_text(new)
    named = found | IN_DOCUMENTS
    for path in [pathlib.Path("README.md"), *sorted(pathlib.Path("docs").glob("*.md"))]:
        if path.name.startswith("PORT"):
            continue
        text = path.read_text()
        new = WORD.sub(lambda m: snake(m.group(0)) if m.group(0) in named else m.group(0), text)
        if new != text:
            path.write_text(new)
    print(f"respell: {len(found)} words")
    turn_lemmas(sources)


def undashed(lemma):
    return lemma.replace("-", "_") + ("_lem" if lemma in LEM else "")


def turn_lemmas(sources):
    lemmas = set()
    for path in sources:
        if path.suffix == ".antt":
            for line in path.read_text().splitlines():
                m = DECLARED.match(line)
                if m and not line.startswith("use ") and m.group(1) not in JOINED:
                    lemmas.add(m.group(1))
    if not lemmas:
        return
    any_lemma = re.compile(r"(?<![\w'.-])(?:%s)(?![\w'-])" % "|".join(sorted(map(re.escape, lemmas), key=len, reverse=True)))
    pages = [pathlib.Path("README.md"), *(p for p in sorted(pathlib.Path("docs").glob("*.md")) if not p.name.startswith("PORT"))]
    for path in [*sources, *pages]:
        text = path.read_text()
        new = any_lemma.sub(lambda m: undashed(m.group(0)), text)
        if new != text:
            path.write_text(new)
    for name, files, folder in LEM_IN:
        for file in files:
            path = pathlib.Path(folder + file)
            if path.exists():
                path.write_text(re.sub(r"(?<![\w'.-])%s(?![\w'-])" % name, name + "_lem", path.read_text()))
    print(f"respell: {len(lemmas)} lemmas")


main()
