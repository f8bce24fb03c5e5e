#!/usr/bin/env python3
"""Brings this repository's own names in antt to today's spelling, once, right after port.py.

    tools/respell.py            rewrites crates/, the edits of tests/ and what papers cite in backticks
    tools/respell.py --list     prints each name that changes, and what it becomes

A definition, a lemma, a field or a constructor is in snake case: `goodWindow` becomes `good_window`. A dash stays where it joins the names
of two definitions, as in `length-put_byte`, and is `_` elsewhere. Types and modules keep their camel case. The names are those that the
files of specs/ and proofs/ declare at this commit; names of libraries, of goals and of Rust items are left alone.
"""
import pathlib
import re
import sys

ROOT = pathlib.Path(__file__).resolve().parent.parent
WORD = r"[^\s(){}.;,@\"«»\[\]\\`'|:]+'*"
TOKEN = re.compile(r"--[^\n]*|\"(?:[^\"\\]|\\.)*\"|" + WORD)
SIGNATURE = re.compile(r"^(\s*)((?:abbrev |unfoldable |pub |private )*)((?:" + WORD + r" +)*?" + WORD + r")(?: *$| *:(?:\s|$))")
USE = re.compile(r"^\s*(?:pub )?(?:ghost )?use ([^\s{]+?)\.?\{([^}]*)\}|^\s*(?:pub )?(?:ghost )?use (\S+)", re.M)
# names that would be a definition's, and no lemmas: constructors, and a definition of two crates
TAKEN = {
    "export-name": "export_name_field",
    "import-batch": "import_batch_field",
    "string-byte": "string_byte_at",
    "wordNumber": "number_of_word",
}
# names of std that a lemma's dash may stand beside
OF_STD = set(
    "length take drop set get get_or append map reverse sum all any add sub mul div mod min max not and or le lt eq cons nil repeat concat flat filter "
    "zero suc fst snd slice_index slice_set".split()
)


def antt_files():
    return sorted(f for part in ["specs", "proofs"] for f in ROOT.glob(f"crates/*/{part}/**/*.antt"))


def is_walk(path):
    """Whether a file is a function's proof, whose names of goals are not ours."""
    return path.name in ("Proof.antt", "Invariants.antt", "Answers.antt") and path.parts[-3:-1] != ("crates", "proofs")


def snake(part):
    if not part[:1].islower():
        return part
    part = re.sub(r"([a-z0-9])([A-Z])(?=[a-z]|$|[A-Z0-9_'])", lambda m: m.group(1) + "_" + m.group(2).lower(), part)
    return re.sub(r"_([A-Z]+)", lambda m: "_" + m.group(1).lower(), part) if re.search("[A-Z]", part) else part


def declared():
    """The names that the files declare, and those of them that are definitions."""
    names, definitions = set(), set()
    for path in antt_files():
        if is_walk(path):
            continue
        lines = path.read_text().split("\n")
        for line, after in zip(lines, lines[1:] + [""]):
            found = SIGNATURE.match(line)
            if not found or line.lstrip().startswith(("--", "use ", "let ", "in ", "module ", "open ")) or not (":" in line or re.match(r"\s+:\s", after)):
                continue
            each = found.group(3).split()
            names.update(each)
            if "abbrev" in found.group(2) or "unfoldable" in found.group(2):
                definitions.update(each)
    return names, definitions


def imported():
    """The names that come from libraries."""
    found = set()
    for path in antt_files() + sorted(ROOT.glob("crates/*/src/**/*.rt")):
        for module, names, one in USE.findall(path.read_text()):
            own = re.match(r"Rattle\.(\w+)\.", module or one)
            if own and (ROOT / "crates" / own.group(1)).is_dir():
                continue
            found.update(re.split(r"[\s,]+", names.strip()) if names else [one.split(".")[-1]])
    return found


def new_name(name, known):
    parts = [snake(part) for part in name.split("-")]
    text = parts[0]
    for n in range(1, len(parts)):
        lefts = {"_".join(parts[k:n]) for k in range(n)}
        rights = {"_".join(parts[n:k]) for k in range(n + 1, len(parts) + 1)}
        is_type = parts[n - 1][:1].isupper() and len(parts[n - 1]) > 1 or parts[n][:1].isupper()
        text += ("-" if lefts & known and rights & known or is_type else "_") + parts[n]
    return text


def renaming():
    names, definitions = declared()
    libraries = imported()
    known = {snake(d) for d in definitions if "-" not in d} | OF_STD
    new = {n: TAKEN.get(n) or new_name(n, known) for n in names if n not in libraries and re.match(r"\w", n)}
    groups = {}
    for n, m in new.items():
        groups.setdefault(m, []).append(n)
    for m, group in groups.items():
        # the definition has the name, and what is not one gets an ending
        first = sorted(group, key=lambda n: (n not in definitions, "-" in n, n == m))[0]
        new.update({n: m + "_lem" for n in group if n != first})
    assert len(set(new.values())) == len(new), "names fall together"
    return {n: m for n, m in new.items() if n != m}


def turn(text, new, comments):
    """The text with new names; in comments only camel case and what stands in backticks."""

    def one(found):
        word = found.group(0)
        if word.startswith('"'):
            return word
        if word.startswith("--") and comments:
            word = re.sub(r"`[^`]*`", lambda m: turn(m.group(0), new, False), word)
            return re.sub(r"\b[a-z]+[0-9]*[A-Z]\w*", lambda m: new.get(m.group(0), m.group(0)), word)
        return new.get(word, word)

    return TOKEN.sub(one, text)


def turn_rt(text, new):
    """A source: its clauses and ghost items; in code no name is in camel case, and none has a dash."""
    camel = {n: m for n, m in new.items() if "-" not in n and snake(n) != n}
    word = re.compile(r"//[^\n]*|b?\"(?:[^\"\\]|\\.)*\"|'(?:[^'\\]|\\.)'|" + WORD)

    def one(found):
        it = found.group(0)
        if it.startswith("//"):
            return re.sub(r"\b[a-z]+[0-9]*[A-Z]\w*", lambda m: new.get(m.group(0), m.group(0)), it)
        return it if it[-1:] in "\"'" and it[:1] in "b\"'" else camel.get(it, it)

    return word.sub(one, text)


class WithPort(dict):
    """The renaming for papers and edits, which port.py does not turn: its own renamings too."""

    def __init__(self, new):
        super().__init__(new)
        self.names = declared()[0]
        self.names = {new.get(n, n) for n in self.names}

    def get(self, name, default=None):
        turned = super().get(name)
        if turned or name in self.names or not re.search(r"[a-z0-9][A-Z]|-", name):
            return turned or default
        parts = [snake(part) for part in name.split("-")]
        found = [n for n in ["-".join(parts), "_".join(parts)] if n in self.names]
        return found[0] if found else default


def main(words):
    new = renaming()
    papers = WithPort(new)
    if words == ["--list"]:
        for n in sorted(new):
            print(n, new[n])
        return
    for path in antt_files():
        text = path.read_text()
        path.write_text(turn(text, new, True))
    for path in sorted(ROOT.glob("crates/*/src/**/*.rt")):
        text = path.read_text()
        path.write_text(turn_rt(text, new))
    for path in sorted(ROOT.glob("crates/*/must-fail/*.edit")) + sorted(ROOT.glob("tests/must-*/*/*.edit")):
        text = path.read_text()
        path.write_text(turn(text, papers, False))
    for path in sorted(ROOT.glob("docs/**/*.md")) + [ROOT / "README.md", ROOT / "CONTRIBUTING.md"]:
        text = path.read_text()
        path.write_text(re.sub(r"`[^`\n]*`", lambda m: turn(m.group(0), papers, False), text))


main(sys.argv[1:])
