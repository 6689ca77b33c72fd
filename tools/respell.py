#!/usr/bin/env python3
"""Brings the repository's own names in specs/ and proofs/ to today's spelling; run once, after the port's own script.

A word (definition, lemma, field, constructor) is in snake case. A dash stays only where it joins two names that stand alone somewhere
in the repository; else it becomes an underscore. Types keep their capitals. Names of src/ that no .antt file declares stay as they are.
tools/respell.py [--list]: rewrites the .rt and .antt files of crates/, or only lists what it would."""
import pathlib, re, sys

ROOT = pathlib.Path(__file__).resolve().parent.parent
TOKEN = r"[^\s(){}\[\];,.«»`\"]+"
KEYWORDS = {"use", "pub", "mod", "module", "abbrev", "unfoldable", "record", "data", "where", "let", "in", "open", "as", "elim"}
# where the plain rule would make one name of two, or a name that something else has
BY_HAND = {n: re.sub("-", "_", n) + "_lem" for n in (
    "add_at add-with by_place found_in in-slots lay-slots moved-end no_key not-laid one_side only_child peek-slot rank-of "
    "rotates-twice side-in stand-spot step_in takes_out turn_at").split()}
# two names of one file each that the port's own script made one with a definition elsewhere
IN_FILE = {
    "crates/queue_of_store/proofs/Live.antt": {"entry_at": "entry_at_lem"},
    "crates/remove_means/proofs/Means.antt": {"entry_at": "entry_at_lem"},
    "crates/remove_means/proofs/Ends.antt": {"end_of": "end_of_lem"},
    "crates/sound/proofs/No.antt": {"end_of": "end_of_lem"},
    "crates/sound/proofs/Walks.antt": {"end_of": "end_of_lem"},
}


def files():
    for folder, _, names in sorted((p, None, None) for p in ROOT.glob("crates/**/*")):
        if folder.is_file() and "out" not in folder.relative_to(ROOT).parts:
            yield folder


def declared():
    names = set()
    for path in files():
        if path.suffix != ".antt" or path.name == "Proof.antt":
            continue
        for line in path.read_text(encoding="utf-8").splitlines():
            if line.lstrip().startswith("--"):
                continue
            found = re.match(rf"\s*(?:(?:pub|abbrev|unfoldable) )*((?:{TOKEN} )*{TOKEN}) : ", line)
            if found and not set(found.group(1).split()) & KEYWORDS:
                names |= set(found.group(1).split())
            found = re.match(rf"\s*(?:pub )?(?:record|data|mod|module) ({TOKEN})", line)
            if found:
                names.add(found.group(1))
    return {n for n in names if re.fullmatch(r"[A-Za-z][\w'-]*", n)}


def snake(part):
    if part[:1].isupper():
        return part
    part = re.sub(r"(?<=[a-z0-9])(?=[A-Z])|(?<=[A-Z])(?=[A-Z][a-z])", "_", part)
    return re.sub(r"(?<=[a-z])(?=[0-9]+$)", "_", part).lower() if "_" in part else part


def respelled(name, alone):
    if name in BY_HAND:
        return BY_HAND[name]
    parts = name.split("-")
    text = snake(parts[0])
    for before, part in zip(parts, parts[1:]):
        text += ("-" if before in alone and part in alone else "_") + snake(part)
    return text


def table():
    names = declared()
    alone = {n for n in names if "-" not in n and len(n) > 1}
    return {n: respelled(n, alone) for n in sorted(names) if respelled(n, alone) != n}, names


def rewritten(text, new):
    return re.sub(r"(?<![\w'-])[A-Za-z][\w'-]*(?![\w'-])", lambda m: new.get(m.group(0), m.group(0)), text)


def main():
    new, names = table()
    made = {}
    for old, name in new.items():
        made.setdefault(name, []).append(old)
    for name, olds in sorted(made.items()):
        if len(olds) > 1 or name in names:
            print("falls together:", name, olds, "there already" if name in names else "")
    if "--list" in sys.argv:
        for old, name in new.items():
            print(old, name)
        return
    code = {old: name for old, name in new.items() if re.search(r"[A-Z-]", old)}
    for path in files():
        if path.suffix in (".antt", ".rt"):
            text = path.read_text(encoding="utf-8")
            here = code if path.suffix == ".rt" else new | IN_FILE.get(str(path.relative_to(ROOT)), {})
            if rewritten(text, here) != text:
                path.write_text(rewritten(text, here), encoding="utf-8")


main()
