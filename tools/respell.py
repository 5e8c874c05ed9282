#!/usr/bin/env python3
"""Brings the repository's own names in specs/ and proofs/ to snake case, once, after the scripts of the kit.

Run at the top of the repository. A definition, a field, a constructor or a lemma that is declared in specs/ or in a
lemma file of proofs/ loses its inner capitals and its dashes: `backFrom` and `came-in` become `back_from` and
`came_in`. A lemma whose new name another name has already gets `_lem` behind it. Names that the checker makes from the
code (goals, steps, the files in proofs/F/) and all of src/ but its clauses stay as they are.
"""
import glob
import re
import sys

# A name: what stands between blanks and the signs of the language.
NAME = re.compile(r"[^\s(){}\[\],;.:«»`\"]+")
DECLARED = re.compile(r"^(\s*)((?:pub\s+|abbrev\s+|unfoldable\s+)*)([^\s:(){}]+)\s+:\s")
# Ghost text in a .rt file: imports and clauses.
GHOST = re.compile(r"^\s*(ghost use\b|ghost\b|requires\b|ensures\b)")


# Names of the kit that stand inside a name of ours.
AS_THE_KIT = {"get-d-bits": "get_or_bits"}


def lemma_files():
    return sorted(glob.glob("crates/*/proofs/*.antt"))


def spec_files():
    return sorted(glob.glob("crates/*/specs/*.antt"))


def answer_files():
    return sorted(set(glob.glob("crates/*/proofs/**/*.antt", recursive=True)) - set(lemma_files()))


def declared(path):
    for line in open(path):
        if line.lstrip().startswith("--"):
            continue
        found = DECLARED.match(line)
        if found:
            yield found.group(3), bool(found.group(1))


def plain(name):
    """Whether a name is one word or several, of letters, digits, dashes and primes, that begins with a small letter."""
    return re.fullmatch(r"[a-z][A-Za-z0-9_'-]*", name) is not None


def snake(name):
    return re.sub(r"(?<=[a-z0-9])([A-Z])", lambda m: "_" + m.group(1).lower(), name).replace("-", "_")


def renames():
    """The old and the new name of each that changes: for every file, and for lemma files alone."""
    spec_names = {n for f in spec_files() for n, _ in declared(f) if plain(n)}
    lemma_names = {n for f in lemma_files() for n, _ in declared(f) if plain(n)} - spec_names
    table = {n: AS_THE_KIT.get(n, snake(n)) for n in spec_names}
    taken = set(table.values())
    inside = {}
    # Definitions of specs/ keep the plain name, so that a lemma gives way; a lemma that is spelled so already comes first.
    for name in sorted(lemma_names, key=lambda n: (snake(n) != n, n)):
        new = AS_THE_KIT.get(name, snake(name))
        if new in taken:
            print(f"falls together: {name} becomes {new}_lem")
            new += "_lem"
        if new in taken:
            sys.exit(f"{new} is taken twice")
        taken.add(new)
        inside[name] = new
    everywhere = {n: t for n, t in {**table, **inside}.items() if n != t and n != snake(n)}
    return everywhere, {n: t for n, t in {**table, **inside}.items() if n != t}


def aliases(text):
    """The names that imports of this file give with `as`, where they have inner capitals."""
    given = re.findall(r"\bas\s+([a-z][a-z0-9_]*[A-Z][A-Za-z0-9_]*)", text)
    return {n: snake(n) for n in given}


def respell(text, table):
    table = {**table, **aliases(text)}
    return NAME.sub(lambda m: table.get(m.group(0), m.group(0)), text)


def respell_answers(text, table, fields):
    """In a file of answers a field behind a dot may be one that the checker makes: those in -is stay."""
    out = []
    last = 0
    for m in NAME.finditer(text):
        word = m.group(0)
        behind_dot = m.start() > 0 and text[m.start() - 1] == "."
        made = word.endswith("-is") or word.startswith(("in-", "then-", "else-", "if-", "loop-", "index-", "returns-"))
        goal = text.rfind("goal.", 0, m.start()) == m.start() - 5
        if word in table and not goal and not (behind_dot and (made or word not in fields)):
            out.append(text[last:m.start()] + table[word])
            last = m.end()
    return "".join(out) + text[last:]


def respell_source(text, table):
    """Only imports of ghosts and clauses; a clause goes on to the line that closes its brace."""
    out = []
    depth = 0
    table = {**table, **aliases(text)}
    for line in text.splitlines(keepends=True):
        if depth > 0 or GHOST.match(line):
            depth += line.count("{") - line.count("}")
            line = respell(line, table)
        out.append(line)
    return "".join(out)


def rewrite(path, change):
    old = open(path).read()
    new = change(old)
    if new != old:
        open(path, "w").write(new)


def main():
    fields = {n for f in spec_files() + lemma_files() for n, inner in declared(f) if inner}
    table, in_lemmas = renames()
    for path in spec_files():
        rewrite(path, lambda t: respell(t, table))
    for path in lemma_files():
        rewrite(path, lambda t: respell(t, in_lemmas))
    for path in answer_files():
        rewrite(path, lambda t: respell_answers(t, table, fields))
    for path in sorted(glob.glob("crates/*/src/**/*.rt", recursive=True)):
        rewrite(path, lambda t: respell_source(t, table))
    known = set(table.values()) | {n for f in spec_files() + lemma_files() for n, _ in declared(f)}
    for path in sorted(glob.glob("docs/*.md")) + ["README.md"]:
        rewrite(path, lambda t: re.sub(r"`[^`\n]+`", lambda m: respell_page(m.group(0), table, known), t))
    print(f"{len(table)} names respelled")


def respell_page(quoted, table, known):
    """The pages name definitions between back quotes."""
    word = quoted.strip("`")
    if word in table and re.search(r"[A-Z-]", word):
        return f"`{table[word]}`"
    if plain(word) and snake(word) != word and snake(word) in known:
        return f"`{snake(word)}`"
    return quoted


if __name__ == "__main__":
    main()
