#!/usr/bin/env python3
"""Respells this repository's own definitions and lemmas from kebab case to snake case.

usage: python3 tools/snake_case.py     at the top of the repository, once, after the toolchain's own port script

A name is the repository's own where an .antt file of crates/ declares it (a definition, a lemma, a field, a local
lemma), or a clause binds it (LOCALS), and no line imports it from a library. Goals that an answer file answers keep
their names: they are made from the source. Functions of src/, strings, inputs and outputs are not touched. It stops
where two names would fall together.
"""
import os
import re
import sys

DECLARED = re.compile(r"^\s*(?:(?:abbrev|pub|unfoldable)\s+)*([A-Za-z][\w'-]*-[\w'-]*)(?:\s+[A-Za-z][\w'-]*)*\s*:(?!=)")
ANSWER = re.compile(r"^\s*(?:abbrev\s+)?pub\s+([\w'-]+)\s*:\s*(?:goal|need)\.\1\s*$")
IMPORT = re.compile(r"^\s*(?:ghost )?use (\S+?)\.\{(.*)\}")
TOKEN = re.compile(r"(?<![\w'·-])([A-Za-z][\w']*(?:-[\w']+)+)(?![\w'·-])")
STRING = re.compile(r'b?"(?:[^"\\\n]|\\.)*"')
# a law of one of the repository's operators: a plain word is added with '_', and a dash joins two operators
LAW = re.compile(r"(?<![\w'·-])([⊑≃⊕⊖⊗])-([a-z]+(?:-[a-z]+)*)(?![\w'·⊑≃⊕⊖⊗-])")

# bound by a clause or a lambda, not declared
LOCALS = {
    "above-last",
    "chosen-with",
    "down-part",
    "from-here",
    "held-under",
    "list-now",
    "litres-per-metre",
    "low-enough",
    "rule-answered",
    "up-part",
    "whole-n",
    "word-left",
    "word-now",
    "word-with",
    "zero-first",
    "z-size",
}


def files():
    for folder, dirs, names in os.walk("crates"):
        dirs[:] = sorted(d for d in dirs if d != "out")
        for name in sorted(names):
            if name.endswith((".rt", ".antt")):
                yield os.path.join(folder, name)


def snake(name):
    return name.replace("-", "_")


def own_names(texts):
    crates = "|".join(sorted(os.listdir("crates")))
    ours = re.compile(r"Rattle\.(?:" + crates + r")\.")
    declared, imported = set(LOCALS), set()
    for path, text in texts.items():
        for line in text.splitlines():
            found = DECLARED.match(line)
            if found and path.endswith(".antt") and not ANSWER.match(line):
                declared.add(found.group(1))
            found = IMPORT.match(line)
            if found and not ours.match(found.group(1)):
                imported |= {n.strip().split(" as ")[0] for n in found.group(2).split(",")}
    return declared - imported


def fall_together(names, texts):
    bad = []
    by_snake = {}
    for name in sorted(names):
        by_snake.setdefault(snake(name), []).append(name)
    bad += [f"{v} are one name" for v in by_snake.values() if len(v) > 1]
    declared = re.compile(r"^\s*(?:(?:abbrev|pub|unfoldable)\s+)*([a-z]\w*_\w*)(?:\s+[A-Za-z]\w*)*\s*:(?!=)")
    for path, text in texts.items():
        if path.endswith(".antt"):
            for line in text.splitlines():
                found = declared.match(line)
                if found and found.group(1) in by_snake:
                    bad.append(f"{path}: {found.group(1)} is there already")
    return bad


def respell(path, text, names):
    def one(found):
        name = found.group(1)
        return snake(name) if name in names else name

    def law(found):
        return found.group(1) + "_" + snake(found.group(2))

    if path.endswith(".antt"):
        return LAW.sub(law, TOKEN.sub(one, text))
    parts, last = [], 0
    for string in STRING.finditer(text):
        parts += [TOKEN.sub(one, text[last : string.start()]), string.group(0)]
        last = string.end()
    return "".join(parts) + TOKEN.sub(one, text[last:])


def main():
    texts = {}
    for path in files():
        with open(path, encoding="utf-8") as f:
            texts[path] = f.read()
    names = own_names(texts)
    bad = fall_together(names, texts)
    if bad:
        print("\n".join(bad), file=sys.stderr)
        return 1
    changed = 0
    for path, text in texts.items():
        new = respell(path, text, names)
        if new != text:
            changed += 1
            with open(path, "w", encoding="utf-8") as f:
                f.write(new)
    print(f"{len(names)} names, {changed} files")
    return 0


if __name__ == "__main__":
    raise SystemExit(main())
