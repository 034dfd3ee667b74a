#!/usr/bin/env python3
"""Spells this repository's own definitions and lemmas in snake case, once, after the toolchain's port.py.

usage: spell_names.py [--check]     at the top of the repository

A name that a file of crates/*/specs or crates/*/proofs declares, and that begins with a small letter, gets its words joined by `_`.
Where a definition and a lemma would then fall together, the lemma gets `_lem` behind it. A name that a file imports from a library stays in that file.
Functions of src/, strings and what a proof cites of the toolchain's making stay. must-fail edits are turned alike; in comments and pages only what stands in backticks.
"""
import collections
import os
import re
import sys

WORD = re.compile(r"[^\s(){}\[\].;,:@\"`«»]+(?:::[^\s(){}\[\].;,:@\"`«»]+)*")
DECLARED = re.compile(r"(?m)^ *(?:(?:pub|abbrev|unfoldable|opaque) +)*([^\s(){}.;,@\"«»:]+)(?: \{[^{}\n]*\})* :(?= |$)")
USE = re.compile(r"\buse ([^\s;{]+)(\{[^;]*?\}(?=;|[ \t]*$))?(?: as ([^\s;]+))?", re.M)
COMMENT = re.compile(r"--[^\n]*|\"(?:\\.|[^\"\\])*\"")
RUST_COMMENT = re.compile(r"//[^\n]*|\"(?:\\.|[^\"\\])*\"|b?'(?:\\.|[^'\\\n])'")
# What the toolchain makes: goals of a walk by hand stand behind these.
MADE = re.compile(r"(?:tie|goal)\.$")


def snake(name):
    name = re.sub(r"(?<=[a-z0-9])[A-Z]", lambda m: "_" + m[0].lower(), name)
    name = re.sub(r"(?<=[a-z])ℤ", "_ℤ", name)
    return name.replace("-", "_")


def files(end, *tops):
    for top in tops:
        for folder, dirs, names in os.walk(top):
            dirs[:] = sorted(d for d in dirs if d not in ("out", ".git", "target"))
            for name in sorted(names):
                if name.endswith(end):
                    yield os.path.join(folder, name)


def read(path):
    with open(path, encoding="utf-8") as f:
        return f.read()


def is_own(module, crates):
    steps = module.strip(".").split(".")
    return steps[0] == "Rattle" and len(steps) > 1 and steps[1] in crates or steps[0] in ("package", "super", "self")


def from_libraries(text, crates):
    found = set()
    for module, items, _ in USE.findall(text):
        if not is_own(module, crates):
            found.update(WORD.findall(items) or [module.split(".")[-1]])
    return found - {"as"}


def table(crates):
    """Each name that is to be turned, with its new spelling."""
    at = collections.defaultdict(set)
    of_specs = set()
    for path in files(".antt", "crates"):
        for name in DECLARED.findall(COMMENT.sub(" ", read(path))):
            if name[0].islower():
                at[name].add(path)
                if "/specs/" in path:
                    of_specs.add(name)
    groups = collections.defaultdict(set)
    for name in at:
        groups[snake(name)].add(name)
    new = {}
    for spelled, names in groups.items():
        if len(names) == 1:
            name = next(iter(names))
            if name != spelled:
                new[name] = spelled
            continue
        # The definition keeps the plain word: the one of specs/, else the one in camel case, else the one that is so spelled.
        def rank(name):
            return (name not in of_specs, "-" in name, name == spelled, name)

        first, *others = sorted(names, key=rank)
        if first != spelled:
            new[first] = spelled
        for i, other in enumerate(others):
            new[other] = spelled + "_lem" + ("" if i == 0 else str(i + 1))
            print(f"look: {first} is {spelled}, and {other} is {new[other]} ({', '.join(sorted(at[other]))})")
    # Nor may a lemma fall together with what a file of its brings from a library.
    for path in files(".antt", "crates"):
        text = read(path)
        lib = from_libraries(text, crates)
        for name in (set(WORD.findall(text)) & set(new)) - lib:
            if new[name] in lib:
                new[name] += "_lem"
                print(f"look: {name} is {new[name]}, beside a library's word ({path})")
    return new


def turned(text, new, stay, kept):
    """text with its words turned, but where kept matches; there only what stands in backticks."""
    def words(part):
        def one(m):
            word = m[0]
            if word in stay or word not in new or MADE.search(part[: m.start()]):
                return word
            return new[word]

        return WORD.sub(one, part)

    out, at = [], 0
    for m in kept.finditer(text):
        out.append(words(text[at : m.start()]))
        if m[0].startswith(("--", "//")):
            out.append(re.sub(r"`[^`\n]*`", lambda q: words(q[0]), m[0]))
        else:
            out.append(m[0])
        at = m.end()
    return "".join(out) + words(text[at:])


def main():
    check = "--check" in sys.argv[1:]
    crates = {d for d in os.listdir("crates") if os.path.isdir(os.path.join("crates", d, "src"))}
    new = table(crates)
    n = 0
    for path in [*files(".antt", "crates"), *files(".rt", "crates"), *files(".edit", "crates"), *files(".md", "docs"), "README.md"]:
        text = read(path)
        mine = new
        if path.endswith(".md"):
            result = re.sub(r"`[^`\n]*`", lambda q: turned(q[0], {a: b for a, b in new.items() if a != snake(a)}, set(), re.compile(r"(?!)")), text)
        elif path.endswith(".antt"):
            result = turned(text, mine, from_libraries(text, crates), COMMENT)
        else:
            # In Rust's text a word in snake case is Rust's own, unless a `ghost use` brings it.
            ghost = set()
            for module, items, _ in USE.findall(text):
                if is_own(module, crates) and (".specs." in module or ".proofs." in module):
                    ghost.update(WORD.findall(items))
            mine = {a: b for a, b in new.items() if a != snake(a) or a in ghost}
            result = turned(text, mine, from_libraries(text, crates), RUST_COMMENT if path.endswith(".rt") else re.compile(r"(?!)"))
            if path.endswith(".rt"):
                clash = {mine[a] for a in set(WORD.findall(text)) & set(mine)} & set(re.findall(r"\b(\w+): ", text))
                if clash:
                    print(f"look: {path}: a parameter or field is called like a definition now: {', '.join(sorted(clash))}")
        if result != text:
            n += 1
            if not check:
                with open(path, "w", encoding="utf-8") as f:
                    f.write(result)
    print(f"{len(new)} names, {n} files")


if __name__ == "__main__":
    main()
