#!/usr/bin/env python3
"""Brings the repository's own definitions and lemmas to snake case, once, after the kit's port.py.

usage: tools/respell.py [--dry]      at the top of the repository

A name that specs/ or a lemma file of proofs/ declares, or that any proof binds, loses its capitals; a declared name loses its dashes
too, since they joined plain words. Types and modules keep their capitals, functions of src/ their names. Where two names would
become one, the lemma (the one with the dash) takes `_lem`. What the kit's library declares is left, and so are the names that the
check makes for the goals of a function. Comments and strings of code keep their words.
"""
import os
import re
import sys

IDENT = r"[^\s(){}\[\]:;,.λ⌜⌝«»\"|→×∷]+"
DECLARED = re.compile(
    r"^[ ]*(?:[|]\s*)?(?:(?:abbrev|pub|unfoldable|record|data|ruleset)\s+)*(" + IDENT + r")(?:\s+[({].*?)?\s*:(?!:)", re.M
)


# Lemmas and fields in whose way a definition's name comes; the last is a local name of one file.
MOVED = "end_fits held_after last_digits moved_in put_front root_in run_room takes_none too_long".split()
LOCAL = {"crates/degrees/proofs/Numbers.antt": {"at_y": "at_y_lem"}}


def snake(name):
    name = name.replace("′", "'")
    name = re.sub(r"(?<=[a-z0-9])[A-Z]", lambda m: "_" + m.group(0).lower(), name)
    return name.replace("-", "_")


def files(*ends):
    for folder, dirs, names in os.walk("crates"):
        dirs[:] = sorted(d for d in dirs if d != "out")
        for name in sorted(names):
            if name.endswith(ends):
                yield os.path.join(folder, name)


def read(path):
    with open(path, encoding="utf-8") as f:
        return f.read()


def code(text):
    return re.sub(r"--.*", "", text)


def is_shared(path):
    """A file of definitions or lemmas, and not the proof of one function."""
    return os.path.basename(os.path.dirname(path)) in ("specs", "proofs")


def imported_from_library():
    """The names that the repository takes from a library: they keep their spelling."""
    own = set(os.listdir("crates"))
    found = set()
    for path in files(".antt", ".rt"):
        for module, names in re.findall(r"^\s*(?:ghost |pub )*use ([^\s{]+?)(?:\.\{([^}]*)\})?(?: as \S+?)?;?$", read(path), re.M):
            parts = module.split(".")
            if parts[0] == "Rattle" and len(parts) > 1 and parts[1] in own:
                continue
            for name in re.split(r",\s*", names):
                found.add(name.split(" as ")[0].strip())
            found.add(parts[-1])
    return found


def table():
    library = imported_from_library()
    declared, bound = set(), set()
    for path in files(".antt"):
        text = code(read(path))
        if is_shared(path):
            declared.update(DECLARED.findall(text))
        bound.update(re.findall(r"(?<![\w.'-])[a-z][a-z0-9]*[A-Z][A-Za-z0-9'′-]*", text))
    for path in files(".rt"):  # what a file of code calls a definition that has a function's name
        bound.update(re.findall(r"\bas ([a-z]+[A-Z]\w*)", read(path)))
    names = {n for n in declared if re.match(r"[a-z]", n) and snake(n) != n and n not in library}
    names |= {n for n in bound if snake(n) != n and n not in library and not re.match(r"(Need|Else|Then|Loop)", n)}
    new = {}
    taken = {n for n in declared if snake(n) == n} - set(MOVED) - {n for local in LOCAL.values() for n in local}
    for n in sorted(names, key=lambda n: ("-" in n, n)):
        to = snake(n)
        if to in taken or to in library:
            to += "_lem"
        if to in taken:
            sys.exit(f"respell: two names become {to}")
        taken.add(to)
        new[n] = to
    if not any(re.search("[A-Z]", n) for n in new):
        sys.exit("respell: nothing to do")
    for n in MOVED:
        new[n] = n + "_lem"
    return new


def respell(text, new, keep):
    """Each token that the table has, outside what `keep` matches."""
    out, at = [], 0
    token = re.compile(keep + r"|(?P<name>" + IDENT + r")")
    for m in token.finditer(text):
        name = m.group("name")
        if name and name in new:
            out.append(text[at : m.start()] + new[name])
            at = m.end()
    return "".join(out) + text[at:]


def main():
    new = table()
    if "--dry" in sys.argv:
        for n in sorted(new):
            print(n, new[n])
        return
    for path in files(".antt", ".rt", ".edit"):
        text = read(path)
        if path.endswith(".antt"):
            done = respell(text, dict(new, **LOCAL.get(path, {})), r"--.*|\"[^\"]*\"")
        elif path.endswith(".rt"):
            done = respell(text, new, r"//.*|b?\"(?:[^\"\\]|\\.)*\"")
        else:
            done = "".join(
                respell(line, new, r"^(?:old|new):|b?\"(?:[^\"\\]|\\.)*\"") if re.match(r"(old|new):", line) else line
                for line in text.splitlines(True)
            )
        done = done.replace("′", "'") if path.endswith(".antt") else done
        if done != text:
            with open(path, "w", encoding="utf-8") as f:
                f.write(done)


main()
