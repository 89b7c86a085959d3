#!/usr/bin/env python3
"""Spells the repository's own definitions and lemmas as today's Rattle does: functions, lemmas, fields and constructors in snake case.

usage: tools/respell.py [ROOT]

It ran once, after /opt/rattle/port/port.py, which respells only some of them. The names are those that the files of specs/ and the shared
files of proofs/ declare; a name of the toolchain's library is left, and so is what Rattle makes: goals, steps and their fields. Functions of
src/, exported names and strings keep their spelling. Where two names would fall together, OTHER says what one of them is called.
"""
import os
import re
import subprocess
import sys

ROOT = sys.argv[1] if len(sys.argv) > 1 else "."
CHAR = r"[\w'′◌·-]"
TOKEN = re.compile(r"(?<![\w'′◌·-])[A-Za-zμ_◌][\w'′◌·-]*")
DECLARED = re.compile(r"^\s*(?:(?:pub|abbrev|unfoldable)\s+)*([^\s(){}:.;,=]+(?:\s+[^\s(){}:.;,=]+)*)\s*:(?=\s|$)")
NAMED = re.compile(r"^\s*(?:pub\s+)?(?:ruleset|record|data)\s+([^\s(){}:.;,=]+)")
WORDS = {"pub", "abbrev", "unfoldable", "ruleset", "record", "data", "module", "let", "use", "where", "in"}
# a lemma or a field that had the name that a definition takes now
OTHER = {
    "fold_at": "fold_at_lem",
    "held_in": "held_in_lem",
    "in_order": "readings_in_order",
    "none_found": "none_found_lem",
    "ran_on": "ran_on_lem",
    "no_value": "no_value_lem",
    "not_code": "not_code_lem",
}
# the same, in one crate alone: elsewhere it is a function of src/
OTHER_IN = {"soundness": {"is_word": "is_word_lem"}, "models": {"is_word": "is_word_lem"}}
# names that the library has too, and that files import from there
KEPT = {"and-false", "and-true", "not-false", "not-true", "or-false", "or-true"}


def files(root, *ends):
    for folder, dirs, names in os.walk(root):
        dirs[:] = sorted(d for d in dirs if d not in ("out", ".git", "target"))
        for n in sorted(names):
            if n.endswith(ends):
                yield os.path.join(folder, n)


def read(path):
    with open(path, encoding="utf-8") as f:
        return f.read()


def code_of(line):
    return line.split("-- ")[0] if "-- " in line else line


def committed(root):
    """The names that the last commit declares: port.py turned some of them in the work tree, and not in documents and edits."""
    git = ["git", "-C", root]
    paths = subprocess.run([*git, "ls-tree", "-r", "--name-only", "HEAD", "crates"], capture_output=True, text=True, check=True).stdout.split()
    return names_in(subprocess.run([*git, "show", "HEAD:" + p], capture_output=True, text=True, check=True).stdout for p in paths if shared(p))


def shared(path):
    return path.endswith(".antt") and os.path.basename(path) != "Proof.antt"


def declared(root):
    return names_in(read(p) for p in files(os.path.join(root, "crates"), ".antt") if shared(p))


def names_in(texts):
    found = set()
    for text in texts:
        for line in text.splitlines():
            if line.lstrip().startswith("--"):
                continue
            m = DECLARED.match(line)
            if m:
                found |= {n for n in m.group(1).split() if n not in WORDS}
            m = NAMED.match(line)
            if m:
                found.add(m.group(1))
    return found


def snake(name):
    parts = []
    for part in re.split(r"[-·]", name):
        if re.match(r"^[A-Z]", part):
            parts.append(part)
            continue
        part = re.sub(r"([a-z0-9])([A-Z])", lambda m: m.group(1) + "_" + m.group(2).lower(), part)
        parts.append(re.sub(r"([A-Z])", lambda m: m.group(1).lower(), part))
    return "_".join(parts).replace("′", "'")


def mapping(root):
    own = declared(root)
    local = {n for names in OTHER_IN.values() for n in names}
    taken = {OTHER.get(n, n) for n in own if not turns(n) and n not in local}
    turned = dict(OTHER)
    turned = {n: new for n, new in turned.items() if n in own}
    for n in sorted((n for n in own if turns(n)), key=lambda n: ("-" in n, n)):
        new = snake(n)
        if new in taken and "-" in n:
            new += "_lem"
        if new in taken:
            raise SystemExit(f"falls together: {n} and {new}")
        taken.add(new)
        turned[n] = new
    return own, turned


def turns(name):
    if name in KEPT or re.match(r"^[A-Z]", name) and "-" not in name:
        return False
    return snake(name) != name


def rust_names(root):
    names = set()
    for p in files(os.path.join(root, "crates"), ".rt"):
        for line in read(p).splitlines():
            line = line.split("//")[0]
            if not line.startswith("ghost use"):
                names |= set(re.findall(r"\b[a-z]\w*_\w+", line))
    return names


# what Rattle calls a goal: a dash joins its parts, and a name of src/ keeps its spelling
GOAL = [
    (r"^(Need-)overflow-(add|sub|mul|shl|shr|cast|step)-", r"\1overflow_\2-"),
    (r"^(Need-)nonzero-(div|rem)-", r"\1nonzero_\2-"),
    (r"^(Need-)slice-bounds-", r"\1slice_bounds-"),
    (r"^(Need-)offset-bounds-", r"\1offset_bounds-"),
]


def joined(name, rust):
    """Names of src/ inside a name that Rattle makes: the longest first."""
    parts = name.split("-")
    done = []
    while parts:
        for n in range(len(parts), 0, -1):
            word = "_".join(parts[:n])
            bare = re.sub(r"\d+$", "", word)
            if n == 1 or word in rust or bare in rust:
                done.append(word)
                parts = parts[n:]
                break
    return "-".join(done)


def made(name, rust):
    for old, new in GOAL:
        name = re.sub(old, new, name)
    return joined(name, rust)


def respell(text, turned, code, local=None, rust=None):
    """text with its names turned; in a proof file `local` are names that it declares, and a name after a dot is Rattle's or a field's."""
    lines = []
    for line in text.split("\n"):
        at = len(line)
        if code:
            mark = re.search(r"(^|\s)(--|//)(\s|$)", line)
            at = mark.start() if mark else at
        body, comment = line[:at], line[at:]

        def in_code(m):
            t = m.group(0)
            if rust is not None and m.start() and body[m.start() - 1] == ".":
                if t.startswith(("Need-", "Lts-")):
                    return made(t, rust)
                word = t.replace("-", "_")
                if "-" in t and (word in rust or re.sub(r"\d+$", "", word) in rust):
                    return word
                return turned.get(t, t)
            if local and t in local:
                return local[t]
            return turned.get(t, t)

        def in_words(m):
            t = m.group(0)
            if "-" in t:
                return t
            return turned.get(t, t) if t != t.lower() else t

        def in_ticks(m):
            return TOKEN.sub(lambda k: turned.get(k.group(0), k.group(0)), m.group(0))

        body = TOKEN.sub(in_code, body) if code else body
        if not code:
            body, comment = "", line
        comment = TOKEN.sub(in_words, re.sub(r"`[^`]*`", in_ticks, comment))
        lines.append(body + comment)
    return "\n".join(lines)


def main():
    own, turned = mapping(ROOT)
    before = {n: snake(n) for n in committed(ROOT) if turns(n) and n not in own and snake(n) in own}
    before = {n: OTHER.get(new, new) for n, new in before.items()}
    rust = rust_names(ROOT)
    for p in list(files(os.path.join(ROOT, "crates"), ".antt", ".rt", ".edit")) + list(files(os.path.join(ROOT, "docs"), ".md")) + [os.path.join(ROOT, "README.md")]:
        old = read(p)
        here = dict(turned) if p.endswith((".antt", ".rt")) else before | turned
        crate = p.split(os.sep + "crates" + os.sep)[-1].split(os.sep)[0] if os.sep + "crates" + os.sep in os.sep + p else ""
        for n, new in OTHER_IN.get(crate, {}).items():
            here[n] = new
        if os.path.basename(p) == "Proof.antt":
            local = {}
            for line in old.splitlines():
                m = None if line.lstrip().startswith("--") else DECLARED.match(line)
                for n in m.group(1).split() if m else []:
                    if n not in WORDS and turns(n) and not n.startswith(("invariant-", "decreases-")):
                        local[n] = turned.get(n, snake(n))
            new = respell(old, here, True, local, rust)
        else:
            new = respell(old, here, not p.endswith(".md"))
        if new != old:
            with open(p, "w", encoding="utf-8") as f:
                f.write(new)


if __name__ == "__main__":
    main()
