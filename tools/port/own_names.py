#!/usr/bin/env python3
"""Brings the repository's own definitions and lemmas to snake case, once, behind port.py: run it at the top of the repository.

A name that a file of specs/ or proofs/ declares and that has a dash or a hump turns to plain underscores, in files of specs/ and proofs/, in the clauses and ghost items of .rt
files and in comments. Types and modules keep their camel case. A name that a library has stays, and so does one that would fall together with another: both are listed.
The words of a rename are replaced by snake.py of the kit, which must stand in the folder of port.py.
"""
import glob
import os
import re
import subprocess
import sys
import tempfile

KIT = "/opt/rattle/port/notes/2026-11-18-names-are-in-snake-case/snake.py"
NAME = r'[^\s(){}.;,@"«»]+'
DECLARED = re.compile(r"(?m)^ *(?:(?:pub|abbrev|unfoldable|opaque) )*(" + NAME + r")(?: \{[^{}\n]*\})* :(?: |$)(?!\s*tie\.)")
LET = re.compile(r"\blet (" + NAME + r") (?::|=)")
BOUND = re.compile(r"λ ((?:\((?:" + NAME + r" )+: [^)]*\) ?|" + NAME + r" ?)+)\.")
PARAMETERS = re.compile(r"[({]((?:" + NAME + r" )+): ")
CLAUSE = re.compile(r"(?m)^ *(" + NAME + r")((?: [^=:\n]+)?) =(?: |$)")
USE = re.compile(r"(?m)^\s*(?:pub )?(?:ghost )?use ([\w.·+-]+)\.\{([^}]*)\}")
QUIET = re.compile(r'"(?:[^"\\\n]|\\.)*"|(?<![^\s(){}.;,@"«»])--[^\n]*')


def in_snake_case(name):
    words = re.sub(r"(?<=[a-z0-9])([A-Z])", lambda m: "_" + m[1].lower(), name) if name[0].islower() else name
    return words.replace("-", "_")


def main():
    files = sorted(glob.glob("crates/*/specs/**/*.antt", recursive=True) + glob.glob("crates/*/proofs/**/*.antt", recursive=True))
    mine, library, words = set(), set(), set()
    own = {os.path.basename(os.path.dirname(f)) for f in glob.glob("crates/*/src")}
    crates = {f.split("/")[1] for f in files}
    for f in files:
        text = QUIET.sub(" ", open(f, encoding="utf-8").read())
        for path, items in USE.findall(text):
            parts = path.split(".")
            if not (parts[0] == "Rattle" and len(parts) > 1 and parts[1] in crates):
                library.update(i.split(" as ")[0].strip() for i in items.split(","))
        mine.update(DECLARED.findall(text))
        mine.update(LET.findall(text))
        for bound in BOUND.findall(text):
            mine.update(re.findall(NAME, re.sub(r": [^)]*", "", bound)))
        for names in PARAMETERS.findall(text):
            mine.update(names.split())
        for head, names in CLAUSE.findall(text):
            mine.update(n for n in re.findall(NAME, names))
        words.update(re.findall(NAME, text))
    for f in glob.glob("crates/*/src/**/*.rt", recursive=True):
        text = open(f, encoding="utf-8").read()
        for path, items in USE.findall(text):
            parts = path.split(".")
            if path.startswith("Rattle.") and parts[1] not in crates:
                library.update(i.split(" as ")[0].strip() for i in items.split(","))
    table, met = {}, {}
    for name in sorted(mine):
        if name in library or not re.search(r"^[^-].*-.|^[a-z].*[a-z0-9][A-Z]", name) or not name[0].isalpha():
            continue
        if re.match(r"(tie|goal)\b|[A-Z][a-z]+-", name) and "-" in name and name[0].isupper() and name not in words:
            continue
        new = in_snake_case(name)
        if new != name:
            table[name] = new
            met.setdefault(new, []).append(name)
    # A lemma or a local name with a dash that would meet a definition, or a name that is spelled so already, gets the ending of a lemma.
    for new, olds in sorted(met.items()):
        if len(olds) > 1 or new in mine or new in library:
            for old in olds:
                if "-" in old:
                    table[old] = new + "_lem"
                    print("lemma:", old, "->", new + "_lem", "beside", ", ".join(o for o in olds if o != old) or new)
                elif new in mine or new in library:
                    if new != "is_whole":
                        table[new] = new + "_lem"
                    print("lemma:", new, "->", new + "_lem", "beside", old)
    for f in files:
        text = QUIET.sub(" ", open(f, encoding="utf-8").read())
        text = re.sub(r"(?m)^\s*(?:pub )?use [\w.+-]+", " ", text)
        here = {}
        for word in set(re.findall(r"(?<!\.)(?<![\w-])" + NAME, text)):
            here.setdefault(table.get(word, word), []).append(word)
        for new, olds in here.items():
            if len(olds) > 1:
                print("in one file:", f, olds)
    for f in glob.glob("crates/*/src/**/*.rt", recursive=True):
        text = open(f, encoding="utf-8").read()
        used = {i.split(" as ")[0].strip() for _, items in USE.findall(text) for i in items.split(",")}
        code = re.sub(r"(?s)ghost use[^;]*;|(requires|ensures)\*?[^{}\n]*\{.*?\}\s*\n|//[^\n]*", " ", text)
        for word in sorted(used):
            new = table.get(word, word)
            if re.search(r"(?<![\w:.])" + re.escape(new) + r"\b", code):
                print("in rust:", f, word, "->", new, re.findall(r"[^\n]*(?<![\w:.])" + re.escape(new) + r"\b[^\n]*", code)[0].strip()[:90])
    if "--list" in sys.argv:
        for old, new in table.items():
            print(old, new)
        return 0
    with tempfile.NamedTemporaryFile("w", suffix=".tsv", delete=False, encoding="utf-8") as out:
        out.writelines(f"{old}\t{new}\n" for old, new in table.items())
    return subprocess.run([sys.executable, KIT, "--table", out.name, "--only", "antt,rt", "--prose", "file", "crates"]).returncode


if __name__ == "__main__":
    sys.exit(main())
