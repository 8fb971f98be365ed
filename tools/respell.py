#!/usr/bin/env python3
"""Brings the repository's own names to the spelling of today's Rattle. Run once, at the top, right after port.py (docs/PORT.md).

  - a word of specs/ and proofs/ in snake case: isCapital -> is_capital, afterLine -> after_line; types, modules and facts keep their capitals
  - a lemma's dash stays where it joins two names, and is an underscore before or after a plain word: slot-within -> slot_within
  - the proof of a function f is f_spec
  - the crate base64 is base64text, since the kit has a library of the old name

Names of src/ stay, and strings. It prints what it renamed where two names would fall together: such a name is left alone.
Usage: tools/respell.py [--list]      (--list writes nothing, and prints each old and new name)
"""
import glob
import os
import re
import subprocess
import sys

# the folder of the kit's library, beside the page that `rt doc` names
KIT = os.path.join(os.path.dirname(subprocess.run(["rt", "doc"], capture_output=True, text=True, check=True).stdout.strip()), "rattle")
CAMEL = re.compile(r"[a-z][a-z0-9]*[A-Z]")
WORD = r"[A-Za-z0-9_'ℕ₀-₉-]"
DECLARED = re.compile(r"^\s*(?:(?:abbrev|unfoldable|pub|data|record|\|)\s+)*((?:[^\s:=(){}\[\],.]+\s+)+):(?!=)", re.M)


# lemmas that port.py gave the name that their definition takes here, and a field that shares its function's name
LEMMAS = {"header_read": "header_read_lem", "opens_as": "opens_as_lem"}
FIELDS = {"signed_in"}


def antt_files(*roots):
    return sorted(f for root in roots for f in glob.glob(root + "/**/*.antt", recursive=True))


def declared_names(text):
    names = set()
    for found in DECLARED.finditer(text):
        names.update(found.group(1).split())
    return {name for name in names if re.fullmatch(r"[a-z]" + WORD + "*", name)} - {"module", "let", "in", "use", "as", "where"}


def read(path):
    with open(path, encoding="utf-8") as file:
        return file.read()


def code(text):
    return re.sub(r"--.*", "", text)


def snake(name):
    """Small words between underscores, each dash-joined part by itself; a part that begins with a capital is a type's name and stays."""
    return re.sub(r"(?<=[a-z0-9])([A-Z])(?=[a-z0-9_]|$|')", lambda m: "_" + m.group(1).lower(), name)


def snake_parts(name):
    return "-".join(part if part[:1].isupper() else snake(part) for part in name.split("-"))


def function_names():
    names = set()
    for path in glob.glob("crates/*/src/*.rt"):
        names.update(re.findall(r"\bfn (\w+)", read(path)))
    return names


def library_names():
    names = set()
    for path in antt_files(KIT + "/std", KIT + "/core", KIT + "/logic", KIT + "/antt/lib", KIT + "/std_alloc", KIT + "/antt/port", KIT + "/std/lemmas"):
        try:
            names |= declared_names(read(path))
        except (OSError, UnicodeDecodeError):
            pass
    return names


def own_names():
    """The definitions; the lemmas; what stands in one function's proof alone."""
    specs, lemmas, inner = set(), set(), set()
    for path in antt_files("crates"):
        names = declared_names(read(path))
        if "/specs/" in path:
            specs |= names
        elif re.fullmatch(r"crates/\w+/proofs/\w+\.antt", path):
            lemmas |= names
        else:
            inner |= names
    return specs, lemmas, inner


def undashed(name, words):
    """Each dash joins two names or becomes an underscore."""
    parts = name.split("-")
    out = parts[0]
    for before, part in zip(parts, parts[1:]):
        out += ("-" if before in words and part in words else "_") + part
    return out


def renamings():
    specs, lemmas, inner = own_names()
    functions, library = function_names(), library_names()
    texts = [set(re.findall(r"(?<![.\w'-])" + WORD + "+", code(read(path)))) for path in antt_files("crates")]
    together = lambda old, new: any(old in text and new in text for text in texts)
    words = {snake_parts(name) for name in specs} | functions | {name for name in library if re.fullmatch(r"[a-z_0-9]+", name)}
    table, clashes = dict(LEMMAS), []
    camel = {name for name in specs | lemmas | inner if CAMEL.search(name)}
    for name in sorted(camel) + sorted((specs | lemmas) - camel):
        if name in library or name in table:
            continue
        new = snake_parts(name)
        if "-" in new:
            new = undashed(new, words)
        if new == name:
            continue
        if new in table.values() or (new not in FIELDS and new not in LEMMAS and together(name, new)):
            clashes.append((name, new))
            continue
        table[name] = new
    return table, clashes


def respell(text, table, pattern):
    return pattern.sub(lambda m: table[m.group(0)], text)


def rename_crate(text, path):
    if path.endswith(".rt"):
        text = re.sub(r"(?<![\w.\"])base64::", "base64text::", text)
        return re.sub(r"(Rattle)\.base64\.", r"\1.base64text.", text)
    return re.sub(r"(Rattle)\.base64\.", r"\1.base64text.", text)


def main():
    table, clashes = renamings()
    if "--list" in sys.argv:
        for old, new in sorted(table.items()):
            print(old, new)
        for old, new in clashes:
            print("left:", old, "since", new, "is taken")
        return
    names = "|".join(re.escape(name) for name in sorted(table, key=len, reverse=True))
    # a name after a dot is a definition of a module (M.name), a field in camel case, or else a name that Rattle made, which stays
    pattern = re.compile(rf"(?<!{WORD})(?:(?<!\.)|(?<=[A-Z][a-z0-9]\.)|(?<=[a-z]\.)(?=[a-z0-9]*[A-Z]))(?:{names})(?!{WORD})")
    paths = glob.glob("crates/*/src/*.rt") + antt_files("crates") + glob.glob("crates/*/must-fail/*.edit") + glob.glob("crates/*/wrong/*.edit")
    for path in sorted(set(paths)):
        text = read(path)
        new = respell(text, table, pattern)
        new = rename_crate(new, path)
        parts = path.split("/")
        if parts[-1] == "Proof.antt" and "proofs" in parts:
            function = parts[-2]
            new = re.sub(rf"(?<!{WORD}){re.escape(function).replace('_', '[-_]')}[-_]spec(?!{WORD})", function + "_spec", new)
        if new != text:
            with open(path, "w", encoding="utf-8") as file:
                file.write(new)
    if os.path.isdir("crates/base64"):
        subprocess.run(["git", "mv", "crates/base64", "crates/base64text"], check=True)
        listed = read("crates.txt")
        with open("crates.txt", "w", encoding="utf-8") as file:
            file.write(re.sub(r"\bbase64\b", "base64text", listed))
    print(len(table), "names")
    for old, new in clashes:
        print("left:", old, "since", new, "is taken")


main()
