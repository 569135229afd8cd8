#!/usr/bin/env python3
"""Brings the names of this repository's own definitions and lemmas to the spelling of today's Rattle.

usage: spelling.py [FOLDER]

It ran once, right after the kit's port.py. A definition, a field or a lemma is in snake case; a dash joins the
names of two definitions, of which the lemma's statement has both; a type is in upper camel case. Names of src/, strings,
inputs and outputs stay. It prints names that would fall together: there the lemma has its name with `_lem`, and the definition none.
"""

import collections
import glob
import os
import re
import sys

ROOT = sys.argv[1] if len(sys.argv) > 1 else "."
TOKEN = re.compile(r"[^\s(){}\[\]:,;=λ.\"«»@#`|\\]+")
DECLARED = re.compile(r"^(\s*)((?:(?:pub|abbrev|unfoldable)\s+)*)(record |data )?([^\s(){}:,;=λ.]+)((?:\s+[({].*?[)}])*)\s*:(?!:)(.*)")
CAMEL = re.compile(r"^[a-z][A-Za-z0-9]*[A-Z][A-Za-z0-9₀-₉']*$")
# A definition whose values are types, by the file that declares it: those that import it from there.
TYPES = {"demands/specs/Grounds.antt": {"isProgram": "IsProgram", "isProtected": "IsProtected"}}
# The definitions of lists that lemmas are named after.
OUTER = set("length take drop set append replicate map get_or reverse sum".split())


# A field, which is read off a value and falls together with nothing.
FIELDS = {"row_is"}


def files(*patterns):
    found = []
    for pattern in patterns:
        found += glob.glob(os.path.join(ROOT, "crates", "*", pattern), recursive=True)
    return sorted(set(found))


def read(path):
    with open(path, encoding="utf-8") as f:
        return f.read()


def snake(name):
    return re.sub(r"(?<=[a-z0-9])([A-Z])", r"_\1", name).lower()


def code_lines(text):
    for n, line in enumerate(text.split("\n")):
        if not line.lstrip().startswith("--"):
            yield n, line


def is_generated(line):
    """Whether a declaration of a Proof.antt answers a goal, so that its name is Rattle's."""
    return bool(re.search(r":\s*tie\.(Need-|invariant-|decreases-)", line))


def statement(lines, n, name):
    """The signature that begins in line n, up to the definition."""
    out = [lines[n]]
    for line in lines[n + 1 : n + 40]:
        word = line.strip().split(" ")[0] if line.strip() else ""
        if word in (name, "unfolding") or not line.strip():
            break
        out.append(line)
    return " ".join(out)


def declarations():
    found = collections.defaultdict(list)
    for path in files("specs/**/*.antt", "proofs/**/*.antt"):
        text = read(path)
        lines = text.split("\n")
        for n, line in code_lines(text):
            m = DECLARED.match(line)
            if m and not (os.path.basename(path) == "Proof.antt" and is_generated(line)):
                found[m.group(4)].append((path, line, statement(lines, n, m.group(4))))
    return found


def renamings(declared):
    specs = {k for k, v in declared.items() if any("/specs/" in p for p, _, _ in v)}
    plain = {snake(k) if CAMEL.match(k) else k for k in specs} | OUTER
    names = {}
    for name, places in declared.items():
        if CAMEL.match(name):
            names[name] = snake(name)
    taken = set(names.values()) | {k for k in declared if "-" not in k and not CAMEL.match(k)}
    for name, places in declared.items():
        if "-" in name and not name.startswith("-") and not name.endswith("-") and not name.endswith("-spec"):
            said = [words_of(s) for _, _, s in places]
            parts = named_parts(name.split("-"), plain, said)
            new = parts[0]
            for before, part in zip(parts, parts[1:]):
                new += ("-" if is_said(before, plain, said) and is_said(part, plain, said) else "_") + part
            names[name] = new + "_lem" if new in taken else new
    # A lemma of the spelling that a definition comes to have.
    for name in list(declared):
        if "-" not in name and not CAMEL.match(name) and name not in names and name not in FIELDS and any(CAMEL.match(k) and v == name for k, v in names.items()):
            names[name] = name + "_lem"
    return {k: v for k, v in names.items() if k != v}


def named_parts(parts, plain, said):
    """The parts of a name, with those joined that are the name of one definition of the statement."""
    out, at = [], 0
    while at < len(parts):
        for end in range(len(parts), at, -1):
            word = "_".join(parts[at:end])
            if end == at + 1 or is_said(word, plain, said):
                out.append(word)
                at = end
                break
    return out


def is_said(word, plain, said):
    return word in plain and all(word in words for words in said)


def words_of(statement):
    """The names in a signature, in their new spelling, but for its own and those that it binds."""
    bound = set(re.findall(r"[({]([^:(){}]*):", statement))
    bound = {word for words in bound for word in words.split()}
    head = statement.split(":", 1)[1] if ":" in statement else statement
    return {snake(t) if CAMEL.match(t) else t for t in TOKEN.findall(head)} - bound


def turn(text, names, is_proof=False, camel=True):
    def one(m):
        t = m.group(0)
        before = text[: m.start()][-1:] if m.start() else ""
        if before == "." and "-" in t and is_proof:
            return t
        if t in names and not (before == "." and "-" not in t and not CAMEL.match(t)):
            return names[t]
        if camel and CAMEL.match(t):
            return snake(t)
        return t

    return TOKEN.sub(one, text)


def theirs(text):
    """The names that a file imports from the kit."""
    own = "|".join(os.path.basename(p) for p in glob.glob(os.path.join(ROOT, "crates", "*")))
    found = set()
    for m in re.finditer(r"(?m)^\s*(?:pub )?(?:ghost )?use ([^\s{}]+)\.\{([^}]*)\}", text):
        if not re.match(r"Rattle\.(" + own + r")\.", m.group(1)):
            found |= {word.strip().split(" ")[0] for word in m.group(2).split(",")}
    return found


def turn_antt(text, names, is_proof):
    out = []
    for line in text.split("\n"):
        cut = line.find("--")
        if line.lstrip().startswith("--"):
            head, comment = "", line
        elif cut >= 0 and line[cut - 1 : cut] == " ":
            head, comment = line[:cut], line[cut:]
        else:
            head, comment = line, ""
        comment = re.sub(r"`[^`]*`", lambda m: turn(m.group(0), names), comment)
        out.append(turn(head, names, is_proof) + comment)
    return "\n".join(out)


def turn_rt(text, names):
    """The ghost lines and the clauses: in code a word in lower camel case is none of Rust's."""
    out = []
    for line in text.split("\n"):
        if line.lstrip().startswith("//"):
            line = re.sub(r"`[^`]*`", lambda m: turn(m.group(0), names), line)
        elif '"' not in line:
            line = turn(line, {k: v for k, v in names.items() if CAMEL.match(k)})
        out.append(line)
    return "\n".join(out)


def main():
    declared = declarations()
    names = renamings(declared)
    by_new = collections.defaultdict(set)
    for old, new in names.items():
        by_new[new].add(old)
    for new, olds in sorted(by_new.items()):
        both = set(olds) | ({new} if new in declared and new not in names else set())
        if len(both) > 1:
            print("fall together:", new, "from", ", ".join(sorted(both)))
    changed = 0
    for path in files("specs/**/*.antt", "proofs/**/*.antt"):
        text = read(path)
        kit = theirs(text)
        here = {k: v for k, v in names.items() if k not in kit}
        for module, types in TYPES.items():
            if path.endswith("crates/" + module) or re.search(r"use Rattle\." + module[:-5].replace("/", r"\.") + r"\.\{[^}]*\b(" + "|".join(types) + r")\b", text):
                here.update(types)
        new = turn_antt(text, here, os.path.basename(path) == "Proof.antt")
        if new != text:
            changed += 1
            with open(path, "w", encoding="utf-8") as f:
                f.write(new)
    for path in files("src/**/*.rt"):
        text = read(path)
        new = turn_rt(text, names)
        if new != text:
            changed += 1
            with open(path, "w", encoding="utf-8") as f:
                f.write(new)
    edits = {os.path.basename(p)[:-5] for p in files("must-fail/*.edit")}
    for path in sorted(glob.glob(os.path.join(ROOT, "**", "*.md"), recursive=True)):
        text = read(path)
        for t in sorted(set(TOKEN.findall(" ".join(re.findall(r"`[^`\n]*`", text)))) & edits & set(names)):
            print("an edit too:", path[len(ROOT) + 1 :], t)
        plain_names = {k: v for k, v in names.items() if k not in edits and ("-" in k or CAMEL.match(k))}
        new = re.sub(r"`[^`\n]*`", lambda m: turn(m.group(0), plain_names, camel=False), text)
        if new != text:
            changed += 1
            with open(path, "w", encoding="utf-8") as f:
                f.write(new)
    print(len(names), "names,", changed, "files")


main()
