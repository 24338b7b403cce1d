#!/usr/bin/env python3
"""respell.py: brings this repository's own names in clauses, definitions, lemmas and pages to one spelling: words in snake case, types and modules as they are.

Usage: tools/respell.py [--dry]      at the top of the repository, once, after the port of the spelling of the language itself

A name is our own if no `use` line of its file takes it from the language's library. Names of goals, in proofs/FUNCTION/, stay: the check makes them. In comments and pages a
name is respelled where it is in capitals within (areaSize), or stands in backquotes. --dry prints what would be respelled, and the names that would fall together.
"""
import collections, glob, os, re, sys

TOKEN = re.compile(r"[^\s(){}\[\],;.λ\"`:]+")
HYPHENED = re.compile(r"[A-Za-z0-9?'][-][A-Za-z0-9]")
CAMEL = re.compile(r"^◌?[a-z][a-z0-9_?']*[A-Z]")
MADE = {"decreases-loop", "invariant-loop"}
# lemmas whose names would fall together with definitions that have the plain name already
BY_HAND = {"up-to": "up_to_law", "parts-of": "parts_of_law", "in-range": "in_range", "withDevice": "with_device_at", "with-device": "with_device"}
# names in snake case already that would fall together with a definition's, by file
IN_FILE = {
    "crates/rules/proofs/page/NoneAbove.antt": {"row_fits": "row_fits_law"},
}


def snake(name):
    name = name.replace("-", "_")
    # a capital that begins a word inside a name; R, R4, T03 and 8000h stay as the page writes them
    def lower(m):
        return m.group(1) + "_" + (m.group(2) if re.match(r"[RT]\d*(_|$|◌)", name[m.start(2):]) else m.group(2).lower())
    return re.sub(r"([a-z0-9])([A-Z])", lower, name)


def is_ours(name):
    return bool(HYPHENED.search(name) or CAMEL.match(name)) and not name.startswith("-") and name not in MADE


def of_function(path):
    folder = os.path.dirname(path)
    return os.path.basename(os.path.dirname(folder)) == "proofs" and any(
        os.path.exists(folder + "/" + f) for f in ("Proof.antt", "Answers.antt", "Invariants.antt"))


def cut(line):
    """the code of a line, and its comment"""
    m = re.search(r"(^|\s)(--|//) ", line)
    return (line, "") if not m else (line[: m.start() + len(m.group(1))], line[m.start() + len(m.group(1)):])


def crates():
    return {os.path.basename(p) for p in glob.glob("crates/*")}


def kit_names(lines, own):
    names = set()
    for line in lines:
        m = re.match(r"^\s*(?:pub |ghost )*use ([^\s.]+)\.(.*)$", line)
        if not m:
            continue
        root, rest = m.groups()
        if root == "Rattle" and rest.split(".")[0] in own:
            continue
        names |= set(TOKEN.findall(rest))
    return names


def respell_code(code, spelling, kit):
    return TOKEN.sub(lambda m: spelling[m.group(0)] if m.group(0) in spelling and m.group(0) not in kit else m.group(0), code)


def respell_in_function(code, spelling, kit):
    """behind a dot stands a name that the check makes, or a field: in snake case as it is in the source"""
    def one(m):
        t = m.group(0)
        if t not in spelling or t in kit:
            return t
        if m.start() > 0 and code[m.start() - 1] == "." and "-" in t:
            return snake(t)
        return spelling[t]
    return TOKEN.sub(one, code)


def respell_comment(text, spelling):
    text = re.sub(r"`[^`]*`", lambda m: TOKEN.sub(lambda t: spelling.get(t.group(0), t.group(0)), m.group(0)), text)
    return TOKEN.sub(lambda m: spelling[m.group(0)] if m.group(0) in spelling and "-" not in m.group(0) else m.group(0), text)


def main():
    dry = "--dry" in sys.argv
    own = crates()
    antt = sorted(glob.glob("crates/*/specs/**/*.antt", recursive=True) + glob.glob("crates/*/proofs/**/*.antt", recursive=True))
    rt = sorted(glob.glob("crates/*/src/**/*.rt", recursive=True))
    spelling = {}
    text = {p: open(p).read() for p in antt + rt}
    kit_all = set()
    for p in antt + rt:
        kit_all |= kit_names(text[p].split("\n"), own)
    for p in antt:
        if of_function(p):
            continue
        lines = text[p].split("\n")
        kit = kit_names(lines, own)
        for line in lines:
            code, _ = cut(line)
            if re.match(r"^\s*(pub )?use ", code) and not re.match(r"^\s*(pub )?use Rattle\.(" + "|".join(own) + r")\.", code):
                continue
            for t in TOKEN.findall(code):
                if is_ours(t) and t not in kit:
                    spelling[t] = snake(t)
    # a lemma whose name would fall together with a definition's is called the definition's law
    together = collections.defaultdict(set)
    for old, new in spelling.items():
        together[new].add(old)
    for new, olds in together.items():
        for old in olds:
            if len(olds) > 1 and "-" in old and "◌" not in old:
                spelling[old] = new + "_law"
    spelling.update(BY_HAND)
    if dry:
        for new, olds in sorted(together.items()):
            if len(olds) > 1:
                print("together:", new, sorted(olds))
        for p in antt + rt:
            tokens = set()
            for line in text[p].split("\n"):
                tokens |= set(TOKEN.findall(cut(line)[0]))
            for t in tokens & set(spelling):
                if spelling[t] in tokens and not p.endswith(".rt"):
                    print("meets:", p, t, spelling[t])
        return
    for p in antt:
        lines = text[p].split("\n")
        kit = kit_names(lines, own)
        out = []
        for line in lines:
            code, comment = cut(line)
            if re.match(r"^\s*(pub )?use ", code) and not re.match(r"^\s*(pub )?use Rattle\.(" + "|".join(own) + r")\.", code):
                out.append(line)
                continue
            code = respell_code(code, IN_FILE.get(p, {}), set())
            if of_function(p):
                out.append(respell_in_function(code, spelling, kit) + respell_comment(comment, spelling))
            else:
                out.append(respell_code(code, spelling, kit) + respell_comment(comment, spelling))
        new = "\n".join(out)
        if new != text[p]:
            open(p, "w").write(new)
    camel = {k: v for k, v in spelling.items() if "-" not in k}
    for p in rt:
        lines = text[p].split("\n")
        kit = kit_names(lines, own)
        out = []
        for line in lines:
            code, comment = cut(line)
            ghost = re.search(r"\b(ghost|requires|ensures|invariant)\b", code)
            out.append(respell_code(code, spelling if ghost else camel, kit) + respell_comment(comment, spelling))
        new = "\n".join(out)
        if new != text[p]:
            open(p, "w").write(new)
    for p in ["README.md"] + sorted(glob.glob("docs/**/*.md", recursive=True)) + sorted(glob.glob("crates/*/README.md")):
        if not os.path.exists(p):
            continue
        old = open(p).read()
        new = "\n".join(respell_comment(line, spelling) for line in old.split("\n"))
        if new != old:
            open(p, "w").write(new)


main()
