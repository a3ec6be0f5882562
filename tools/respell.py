#!/usr/bin/env python3
"""Respells the names of this repository's own definitions and lemmas.

usage: python3 tools/respell.py [--try] [ROOT]

Words, fields and lemmas are in snake case, types in camel case. Run once, after the toolchain's port.py, on files that nobody edited since; --try writes nothing.
Names of src/, goals and invariants, and names that a file takes from the standard library or the logic stay as they are.
"""

import collections
import os
import re
import sys

# Names that would be a tactic, or fall together with another word.
OTHER = {"first-of": "first_refusal", "room-byte": "room_byte_of"}
# What the record of a pair's trait calls its kind of samples.
MEMBERS = [("Sample-as-Kind", "P.Sample.Kind")]
TOKEN = re.compile(r"[^\s(){}.;,«»\"]+")
HEAD = re.compile(r"^(\s*)((?:abbrev |unfoldable |pub |record |data |ruleset )*)([A-Za-z][^\s(){}.;,«»\"]*)(?=\s*[:({]|\s+=)")


def files(root):
    for folder, dirs, names in os.walk(os.path.join(root, "crates")):
        dirs[:] = sorted(d for d in dirs if d != "out")
        for name in sorted(names):
            if name.endswith((".antt", ".rt")):
                yield os.path.join(folder, name)


def camel(name):
    return "".join(part[:1].upper() + part[1:] for part in name.split("-"))


def declared(texts):
    """Each own name with a dash, with what it becomes; and the own fields."""
    names, fields, goals = {}, set(), set()
    for path, text in texts.items():
        goals |= set(re.findall(r"\b(?:goal|need|given)\.([^\s(){}.;,]+)", text))
    for path, text in texts.items():
        if not path.endswith(".antt"):
            continue
        inside = None
        for line in text.split("\n"):
            it = HEAD.match(line)
            if inside is not None and line.strip() and len(line) - len(line.lstrip()) <= inside:
                inside = None
            if not it:
                continue
            indent, words, name = len(it.group(1)), it.group(2), it.group(3)
            if re.search(r"\b(record|data)\b", words):
                inside = indent
            elif inside is not None:
                fields.add(name)
            if "-" not in name or name in goals or name.startswith("--"):
                continue
            if not re.search(r"\b(record|data|ruleset)\b", words) and not re.match(r"\s*:", line[it.end(3):]) and not words:
                continue
            is_type = name[:1].isupper() and (re.search(r"\b(record|data)\b", words) or re.search(r"Type [01]\s*$", line))
            if name[:1].isupper() and not is_type:
                continue
            names[name] = OTHER.get(name) or (camel(name) if is_type else name.replace("-", "_"))
    return names, fields


def foreign(text, crates):
    """The names that a file takes from elsewhere than this repository's crates."""
    found = set()
    for it in re.finditer(r"^\s*(?:ghost )?(?:pub )?use ([^\s{;]+?)\.\{([^}]*)\}", text, re.M):
        parts = it.group(1).split(".")
        if not (parts[0] == "Rattle" and parts[1] in crates):
            found |= {w.strip() for w in it.group(2).split(",")}
    return found


def code_parts(line, rust):
    """A line as (is code, text) parts: comments and strings are no code."""
    mark = "//" if rust else "--"
    out, at, start, quoted = [], 0, 0, False
    while at < len(line):
        if line[at] == '"' and not (at and line[at - 1] in "'\\"):
            out.append((not quoted, line[start:at]))
            out.append((False, '"'))
            quoted, at = not quoted, at + 1
            start = at
        elif not quoted and line.startswith(mark, at) and (at == 0 or line[at - 1].isspace()):
            out.append((True, line[start:at]))
            out.append((False, line[at:]))
            return out
        else:
            at += 1
    out.append((not quoted, line[start:]))
    return out


def respell(text, names, kept, rust):
    def one(it):
        word, line = it.group(0), it.string
        if word not in names:
            return word
        # A field is this repository's own also where a lemma of that name comes from elsewhere.
        is_field = line[: it.start()].endswith(".") or re.match(r"\s+=\s", line[it.end():])
        return names[word] if word not in kept or is_field else word

    out = []
    for line in text.split("\n"):
        done = ""
        for is_code, part in code_parts(line, rust):
            if is_code:
                for old, new in MEMBERS:
                    if rust:
                        part = part.replace(old, new)
                part = TOKEN.sub(one, part)
                part = re.sub(r"\.«([a-z][a-z0-9_]*)»", r".\1", part)
            else:
                part = re.sub(r"`([^`\s]+)`", lambda it: "`" + names.get(it.group(1), it.group(1)) + "`", part)
            done += part
        out.append(done)
    return "\n".join(out)


def main(argv):
    trying = "--try" in argv
    roots = [a for a in argv if not a.startswith("--")]
    root = roots[0] if roots else "."
    texts = {}
    for path in files(root):
        with open(path, encoding="utf-8") as f:
            texts[path] = f.read()
    crates = set(os.listdir(os.path.join(root, "crates")))
    names, fields = declared(texts)
    new_words = collections.defaultdict(set)
    for old, new in names.items():
        new_words[new].add(old)
    for new, olds in sorted(new_words.items()):
        if len(olds) > 1:
            print(f"look: {sorted(olds)} fall together in {new}")
    changed = 0
    for path, text in texts.items():
        kept = foreign(text, crates)
        words = set(TOKEN.findall(text))
        for word in sorted(words & set(names)):
            if word in kept:
                print(f"look: {path}: {word} is taken from elsewhere, and stays")
            elif names[word] in words:
                print(f"look: {path}: {word} becomes {names[word]}, which stands there too")
        for it in re.finditer(r"\b\w+\.([A-Za-z][^\s(){}.;,«»\"]*)", text):
            if it.group(1) in names and it.group(1) not in fields:
                print(f"look: {path}: .{it.group(1)} is no field of a record here")
        new = respell(text, names, kept, path.endswith(".rt"))
        if new != text:
            changed += 1
            if not trying:
                with open(path, "w", encoding="utf-8") as f:
                    f.write(new)
    print(f"{len(names)} names, {changed} files changed")
    return 0


if __name__ == "__main__":
    raise SystemExit(main(sys.argv[1:]))
