#!/usr/bin/env python3
"""Brings the repository's own definitions and lemmas to today's spelling, once, after the kit's port.py.

usage: tools/respell.py        at the top of the repository: rewrites crates/ and the names that docs/ and README.md quote, and prints what it changed

Words become snake case, variables and other names of what is imported too, and a dash stays only between two names of definitions (`length-tabulate`); types, modules, constructors that begin with a
capital, and names of Rattle source stay. A lemma that would have a definition's name gets `_lem`.
"""
import os
import re
import sys

TOKEN = re.compile(r'[^\s(){};,."`]+')
HEAD = re.compile(r"\s*(?:(?:abbrev|unfoldable|pub) )*(?:(?:record|data) )?([^\s(){};,.:]+(?: [^\s(){};,.:]+)*) (?:\([^:]*:.*\) )*:(?: |$)")
PLAIN = set("a an the of at in on to by as is be and or not no one two more most some any all each every next first last other others then else end same".split())
STD = "length take drop map get_or set replicate reverse sum append foldr not and or xor le lt eq add sub mul div suc zero cons nil bit pick within sets even odd".split()


def files(ending, below=("specs", "proofs")):
    for top in sorted(os.listdir("crates")):
        for part in below:
            for folder, dirs, names in os.walk(os.path.join("crates", top, part)):
                dirs[:] = sorted(d for d in dirs if d != "out")
                for name in sorted(names):
                    if name.endswith(ending):
                        yield os.path.join(folder, name)


def read(path):
    with open(path, encoding="utf-8") as f:
        return f.read()


def is_lemma_file(path):
    """Not one of the files that prove one function, whose names the check makes."""
    return os.path.basename(path) not in ("Proof.antt", "Answers.antt", "Invariants.antt", "Loop.antt")


def declared(text):
    """The names that a file declares, at the left of a colon; imports and comments aside."""
    names = set()
    for line in text.splitlines():
        if line.lstrip().startswith(("--", "use ", "pub use ", "ghost use ")):
            continue
        head = HEAD.match(line)
        if head:
            names.update(n for n in head[1].split() if not n[0].isdigit())
    return names


def snake(word):
    word = re.sub(r"(?<=[a-z0-9])(?=[A-Z])|(?<=[A-Z])(?=[A-Z][a-z])", "_", word)
    return word.lower()


def respelled(name, words):
    if "◌" in name or name[0].isupper() or not re.match(r"[A-Za-z_]", name):
        return name
    parts = [p if p[:1].isupper() else snake(p) for p in name.split("-")]
    if any(not p for p in parts):
        return name
    if len(parts) > 1 and parts[-1] == "A":
        parts[-1] = "a"
    names = all(p in words or p[0].isupper() or not re.match(r"\w", p) for p in parts)
    return ("-" if names or not all(re.match(r"\w", p) for p in parts) else "_").join(parts)


def main():
    own, used = set(), set()
    for path in files(".antt"):
        text = read(path)
        used.update(TOKEN.findall(re.sub(r"^(pub )?use [\w.-]+|\.[\w-]+", "", text, flags=re.M)))
        if is_lemma_file(path):
            own |= declared(text)
    imported = set()
    for path in files(".antt"):
        for module, names in re.findall(r"^(?:pub )?use ([\w.◌+-]+)\.\{([^}]*)\}", read(path), re.M):
            if not module.startswith("Rattle.") or module.startswith("Rattle.std."):
                imported.update(n.split(" as ")[0].strip() for n in names.split(","))
    words = {snake(n) for n in own if "-" not in n and n[0].islower()} - PLAIN | set(STD)
    renamed, kept = {}, []
    # Definitions come first; a lemma that would have its function's name gets `_lem`.
    for name in sorted(own, key=lambda n: ("-" in n, n)):
        new = respelled(name, words)
        if name in imported or new == name:
            continue
        if new in own and new not in imported and "-" not in name:
            renamed[new] = new + "_lem"
        elif new in used or new in renamed.values():
            new += "_lem"
        if new in used and new not in own or new in renamed.values():
            kept.append(name)
        else:
            renamed[name] = new
    for name in kept:
        print("kept: %s" % name)
    # What is left are variables, and other names of what is imported.
    texts = [read(p) for p in list(files(".antt")) + list(files(".rt", ("src",)))]
    quoted = {w for text in texts for s in re.findall(r'"[^"\n]*"', text) for w in TOKEN.findall(s)}
    aliases = {a for text in texts for a in re.findall(r" as (\w+)[,}]", text)}
    for name in sorted((used | imported | aliases) - quoted):
        if re.fullmatch(r"[a-z]\w*[A-Z]\w*", name) and name not in renamed:
            new = snake(name)
            renamed[name] = new if new not in used and new not in own and new not in renamed.values() else "the_" + new
    turn = lambda text: TOKEN.sub(lambda m: renamed.get(m[0], m[0]), text)
    changed = 0
    for path in list(files(".antt")) + list(files(".rt", ("src",))) + list(files(".edit", ("must-fail",))):
        text = read(path)
        new = turn(text)
        if new != text:
            changed += 1
            with open(path, "w", encoding="utf-8") as f:
                f.write(new)
    for path in ["README.md"] + ["docs/" + n for n in sorted(os.listdir("docs")) if n.endswith(".md") and n != "PORT.md"]:
        text = read(path)
        new = re.sub(r"`([^`\n]+)`", lambda m: "`" + renamed.get(m[1], m[1]) + "`", text)
        if new != text:
            with open(path, "w", encoding="utf-8") as f:
                f.write(new)
    for name in sorted(renamed):
        print("%s -> %s" % (name, renamed[name]))
    print("%d names, %d files" % (len(renamed), changed), file=sys.stderr)


main()
