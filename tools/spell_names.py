#!/usr/bin/env python3
"""Gives the repository's own definitions and lemmas the spelling of today's Rattle: words in snake case.

usage: tools/spell_names.py [--dry]       at the top of the repository, once, after port.py

A name that a file of specs/ or proofs/ declares and that is written as `oneWord` or `one-word` becomes `one_word`, wherever that file or
another one names it: in specs/, proofs/, contracts, edits and pages. What a file brings in from the kit keeps its name there, and so do
the functions and types of src/. Prints the names that would fall together with another one, and then changes nothing.
"""

import glob
import os
import re
import sys

NAME = r"[A-Za-z_α-ωΑ-Ω][A-Za-z0-9_'α-ω-]*"
TOKEN = re.compile(r"(?<![A-Za-z0-9_'α-ω-])" + NAME)
SIGNATURE = re.compile(
    r"\s*(?:(?:abbrev|opaque|unfoldable|pub)\s+)*(?:(?:record|data)\s+)?(" + NAME + r"(?:\s+" + NAME + r")*)(?:\s*\([^)]*\)|\s*\{[^}]*\})*\s*:(?:\s|$)")
USE = re.compile(r"^\s*(?:pub\s+)?(?:ghost\s+)?(?:pub\s+)?use\s+([^\s{;]+?)\.?\{([^}]*)\}", re.M)
# a law and the definition that it is about had names that differ in spelling alone
LAWS = ["first-run", "hex-text", "in-normal", "kept-in", "lines-behind", "mode-sound", "passive-sound", "run-in", "same-ticks", "sent-loaded",
        "to-normal", "to-ready", "to-repeat", "to-repeat-active", "to-repeat-asked", "traffic-sound", "with-message"]
CRATES = sorted(os.listdir("crates"))


def read(path):
    with open(path, encoding="utf-8") as f:
        return f.read()


def spelled(name):
    if name in LAWS:
        return name.replace("-", "_") + "_law"
    name = re.sub(r"(?<=[a-z0-9])([A-Z])", lambda m: "_" + m[1].lower(), name) if name[0].islower() else name
    return name.replace("-", "_")


def of_kit(text):
    """The names that a file brings in from elsewhere than the repository's crates."""
    names = set()
    for module, listed in USE.findall(text):
        parts = module.split(".")
        if not (len(parts) > 1 and parts[0] == "Rattle" and parts[1] in CRATES):
            names.update(n.split(" as ")[-1].strip() for n in listed.split(","))
    return names


def by_hand(path):
    return os.path.basename(path) == "Proof.antt"


def declared(path):
    names = set()
    for line in read(path).split("\n"):
        line = re.sub(r"\s*--.*", "", line)
        m = SIGNATURE.match(line)
        if m and not (by_hand(path) and ("tie." in line or "statement" in line)):
            names.update(m[1].split())
        if not by_hand(path):
            names.update(re.findall(r"\blet (" + NAME + r")(?= )", line))
    return names


def law_names(path, text):
    """The text with the names of LAWS that port.py has spelled already, where it speaks of the law."""
    if by_hand(path) or not path.endswith(".antt"):
        return text
    for name in LAWS:
        law = name.replace("-", "_")
        text = re.sub(r"(?<![\w.'-])" + law + r"(?![\w'-]|\.\{)", law + "_law", text)
    return text


def main(argv):
    logic = sorted(glob.glob("crates/*/specs/**/*.antt", recursive=True) + glob.glob("crates/*/proofs/**/*.antt", recursive=True))
    code = sorted(glob.glob("crates/*/src/**/*.rt", recursive=True))
    edits = sorted(glob.glob("crates/*/must-fail/*.edit"))
    pages = ["README.md"] + sorted(glob.glob("docs/**/*.md", recursive=True))
    own = {path: declared(path) for path in logic}
    new = {}
    for names in own.values():
        for name in names:
            if spelled(name) != name and not name.startswith(("returns-", "overflow-")):
                new[name] = spelled(name)
    together = {}
    for name, to in new.items():
        together.setdefault(to, []).append(name)
    for to, names in together.items():
        if len(names) > 1:
            print(f"two names: {names} -> {to}")
    texts, clash = {}, 0
    for path in logic + code + edits + pages:
        text = law_names(path, read(path))
        kit = of_kit(text)
        is_logic = path.endswith(".antt")
        tokens = {m[0] for m in TOKEN.finditer(re.sub(r"--.*|\bRattle\.[\w.]*", "", text) if is_logic else text)}
        used = {n for n in tokens & set(new) if n not in kit and (is_logic or "-" not in n or path.endswith(".edit"))}
        for n in sorted(used):
            if is_logic and new[n] in tokens | kit:
                print(f"falls together: {path}: {n} -> {new[n]}")
                clash += 1

        def put(m):
            return new[m[0]] if m[0] in used else m[0]

        if is_logic:
            lines = []
            for line in text.split("\n"):
                i = line.find("--")
                head, note = (line, "") if i < 0 else (line[:i], line[i:])
                note = TOKEN.sub(lambda m: put(m) if "-" not in m[0] else m[0], note)
                lines.append(TOKEN.sub(put, head) + note)
            texts[path] = "\n".join(lines)
        elif path.endswith(".md"):
            marked = {n for n in tokens & set(new)}
            text = re.sub(r"`[^`\n]+`", lambda m: TOKEN.sub(lambda t: new[t[0]] if t[0] in marked else t[0], m[0]), text)
            texts[path] = TOKEN.sub(put, text)
        else:
            texts[path] = TOKEN.sub(put, text)
    changed = [p for p in texts if texts[p] != read(p)]
    print(f"{len(new)} names, {len(changed)} files, {clash} places where names fall together")
    if "--dry" in argv or clash:
        return 1 if clash else 0
    for path in changed:
        with open(path, "w", encoding="utf-8") as f:
            f.write(texts[path])
    return 0


if __name__ == "__main__":
    sys.exit(main(sys.argv[1:]))
