#!/usr/bin/env python3
"""Brings the names of this repository's own definitions and lemmas to today's spelling: words in snake case, types in camel case,
an apostrophe for a prime. Run once, at the top, on what port.py left; a second run finds nothing to do.

A name is one that a line of crates/*/specs or crates/*/proofs declares. What the language makes (the goals that a proof answers, the
fields of what a place knows) and what Rust source declares (functions, fields, variants) keep their spelling, and so do strings. A lemma
whose new name would be another's, a library's too, ends in _lem."""
import collections
import glob
import os
import re

DECLARED = re.compile(r"^\s*((?:(?:abbrev|unfoldable|pub)\s+)*)([^\s(){}\[\]:;,.]+)\s*:(\s|$)(.*)")
USED = re.compile(r"use ([^\s{]+)\.\{([^}]*)\}")
TOKEN = re.compile(r"(?<![^\s(){}\[\]:;,.`«»|])[^\s(){}\[\]:;,.`«»|]+")
OWN = ("Rattle.", "Rattle·")


def own_libraries():
    with open("crates.txt", encoding="utf8") as f:
        return {it.split()[0].rstrip(":") for it in f if it.strip() and not it.startswith("#")}


def spelled(name):
    name = name.replace("′", "'")
    if name[0].isupper():
        return "".join(part[:1].upper() + part[1:] for part in name.split("-"))
    return re.sub(r"(?<=[a-z0-9])(?=[A-Z])|(?<=[A-Z])(?=[A-Z][a-z])", "_", name.replace("-", "_")).lower()


def texts(*patterns):
    return sorted({f for p in patterns for f in glob.glob(p, recursive=True) if "/out/" not in f})


def new_names():
    libraries = own_libraries()
    declared, foreign = collections.defaultdict(list), set()
    for path in texts("crates/*/specs/**/*.antt", "crates/*/proofs/**/*.antt"):
        with open(path, encoding="utf8") as f:
            text = f.read()
        for line in text.split("\n"):
            m = DECLARED.match(line)
            if m and m[2] not in ("let", "λ", "--") and not m[4].startswith(("tie.", "goal.")):
                declared[m[2]].append((path, m[1]))
        for module, names in USED.findall(text):
            parts = module.split(".")
            if not (parts[0] == "Rattle" and len(parts) > 1 and parts[1] in libraries):
                foreign |= {it.strip().split(" as ")[0] for it in names.split(",")}
    for path in texts("crates/*/src/**/*.rt"):
        with open(path, encoding="utf8") as f:
            for module, names in USED.findall(f.read()):
                if not (module.startswith("Rattle.") and module.split(".")[1] in libraries):
                    foreign |= {it.strip().split(" as ")[0] for it in names.split(",")}
    # definitions first, those of specs/ before others, so that a lemma gives way to them
    def rank(name):
        of_specs = any("/specs/" in path for path, _ in declared[name])
        defined = any(re.search("abbrev|unfoldable", words) for _, words in declared[name])
        return (not of_specs, not defined, spelled(name) != name, name)

    taken, new = set(), {}
    for name in sorted(declared, key=rank):
        if name in foreign:
            taken.add(name)
            continue
        to = spelled(name)
        while to in taken or (to != name and to in foreign):
            to += "_lem"
        taken.add(to)
        if to != name:
            new[name] = to
    return new


def renamed(text, new):
    return TOKEN.sub(lambda m: new.get(m[0], m[0]), text)


def quoted(text, new):
    """Prose: only what stands in backticks."""
    return re.sub(r"`[^`\n]*`", lambda m: renamed(m[0], new), text)


def lines(text, new, mark, is_code):
    """Code up to the mark of a comment, and the comment as prose."""
    out = []
    for line in text.split("\n"):
        code, at, rest = line, "", ""
        m = re.search(rf"(^|\s){mark}(\s|$)", line)
        if m:
            code, rest = line[: m.start()], line[m.start() :]
        out.append((renamed(code, new) if is_code(code) else code) + quoted(rest, new))
    return "\n".join(out)


CLAUSE = re.compile(r"^\s*(ghost use|requires|ensures)\b")


def main():
    new = new_names()
    os.makedirs("build", exist_ok=True)
    with open("build/respelled.txt", "w", encoding="utf8") as f:
        for old, to in sorted(new.items()):
            f.write(f"{old} {to}\n")
    plain = {k: v for k, v in new.items() if re.search(r"[A-Z-]", k)}

    def respell(change, *patterns):
        for path in texts(*patterns):
            with open(path, encoding="utf8") as f:
                was = f.read()
            text = change(was)
            if text != was:
                with open(path, "w", encoding="utf8") as f:
                    f.write(text)

    respell(lambda t: lines(t, new, "--", lambda _: True), "crates/*/specs/**/*.antt", "crates/*/proofs/**/*.antt")
    respell(lambda t: lines(t, new, "//", CLAUSE.match), "crates/*/src/**/*.rt")
    respell(lambda t: quoted(t, plain), "docs/*.md", "README.md")
    respell(
        lambda t: "\n".join(renamed(it, plain) if re.match(r"(old|new):|wrong: ", it) else it for it in t.split("\n")),
        "crates/*/must-fail/*.edit",
        "wrong/*/*.edit",
    )
    print(f"{len(new)} names spelled anew: build/respelled.txt")


main()
