#!/usr/bin/env python3
"""Brings the repository's own definitions, lemmas and fields to the spelling of today's Rattle: words in snake case.

usage, from the project's root, once, right after the toolchain's port.py:  python3 tools/snake_names.py [--check]

A name that a file of specs/ or proofs/ declares and that begins with a small letter is respelled: `topBound` and `top-bound` become
`top_bound`. Types, modules, functions of src/ and whatever a file imports from the toolchain keep their names, and so do the names of
goals, which the toolchain makes. It goes by words, over .antt and .rt files, must-fail edits and the pages' code spans.
--check writes nothing, and lists names that would fall together.
Later it would respell the answers to goals too: it is kept to show what the port did.
"""
import pathlib
import re
import sys

WORD = r"[^\s(){}.;,@`\"«»\[\]\\]+"
TOKEN = re.compile(WORD)
# behind a dot stands a field, or a step that is named after a function
STEP = re.compile(rf"(\.?)({WORD})")
# a lemma whose name would fall together with a definition's of the same file gets an ending
LEMMAS = """allowed-by-label far-word from-little held-reply in-shape level-word met-word modular-edge modular-vertex open-rows row-text
rules-by-label unlabelled-edge"""
OTHER = {n: n.replace("-", "_") + "_lem" for n in LEMMAS.split()} | {"slice-val": "lent_val"}
TOP = pathlib.Path("crates")


def snake(name):
    words = re.sub(r"(?<=[a-z0-9])(?=[A-Z])", "_", name).replace("-", "_")
    return "_".join(w if re.fullmatch(r"[A-Z]", w) else w[:1].lower() + w[1:] for w in words.split("_"))


def files(*ends):
    return sorted(p for p in TOP.rglob("*") if p.suffix in ends and "out" not in p.parts and p.is_file())


def declared(path, text):
    """The names that a file declares: signatures, fields and constructors, not the answers to goals."""
    # names that an import gives, too
    out = {n for line in re.findall(r"(?m)^ *(?:pub |ghost )*use [^;\n]*", text) for n in re.findall(rf" as ({WORD})", line) if re.match(r"[a-z]", n)}
    if path.suffix != ".antt":
        return out
    for m in re.finditer(rf"(?m)^ *(?:(?:abbrev|unfoldable|pub|ruleset|infix[lr]?) +)*({WORD})((?: +{WORD})*) +: *(.*)$", text):
        names = [m[1], *m[2].split()]
        if m[3].startswith("tie.") or "=" in names or "↦" in names:
            continue
        out.update(names)
    for m in re.finditer(rf"(?m)^ *(?:pub )?ruleset +(?:pub )?({WORD})", text):
        out.add(m[1])
    return {n for n in out if re.match(r"[a-z]", n)}


def foreign(text):
    """The names that a file takes from the toolchain."""
    out = set()
    for m in re.finditer(r"(?m)^ *(?:pub |ghost )*use ([^\s{;]+?)(?:\.\{([^}]*)\})?;?\s*$", text):
        if m[1].startswith("Rattle.") and m[1].split(".")[1] in OWN:
            if re.match(r"Rattle\.\w+\.specs\.(declared|contracts)", m[1]):
                out.update(re.findall(WORD, m[2] or ""))
            continue
        out.update(w for w in re.findall(WORD, m[2] or ""))
    return out


OWN = {p.name for p in TOP.iterdir() if p.is_dir()}


def main():
    check = "--check" in sys.argv[1:]
    texts = {p: p.read_text(encoding="utf-8") for p in files(".antt", ".rt")}
    names = set()
    for p, t in texts.items():
        names |= declared(p, t)
    turn = {n: OTHER.get(n, snake(n)) for n in names if snake(n) != n or n in OTHER}
    back = {}
    for old, new in turn.items():
        back.setdefault(new, []).append(old)
    clash = []
    for p, t in texts.items():
        here = set(TOKEN.findall(t))
        clash += [f"{p}: {new}: {' '.join(olds)}" for new, olds in sorted(back.items()) if len(here & set(olds)) > 1]
        for old in here & set(turn):
            if turn[old] in here and old not in foreign(t):
                clash.append(f"{p}: {old} and {turn[old]}")
    if check:
        print("\n".join(clash))
        print(len(turn), "names")
        return
    for p, t in texts.items():
        keep = foreign(t)
        new = STEP.sub(lambda m: m[1] + (m[2] if m[2] not in turn or m[2] in keep else snake(m[2]) if m[1] else turn[m[2]]), t)
        if new != t:
            p.write_text(new, encoding="utf-8")
    for p in files(".edit"):
        t = p.read_text(encoding="utf-8")
        new = TOKEN.sub(lambda m: turn.get(m[0], m[0]), t)
        if new != t:
            p.write_text(new, encoding="utf-8")
    pages = [pathlib.Path("README.md"), *sorted(pathlib.Path("docs").glob("*.md"))]
    for p in pages:
        t = p.read_text(encoding="utf-8")
        new = re.sub(r"`([^`\n]*)`", lambda s: "`" + TOKEN.sub(lambda m: turn.get(m[0], m[0]), s[1]) + "`", t)
        if new != t:
            p.write_text(new, encoding="utf-8")


main()
