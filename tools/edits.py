"""What an edit is, which edits are tried together, and what a check's log says of them. `tests/edits` tries them.

An edit has a comment, then lines `file: PATH`, `old: TEXT`, `new: TEXT`; the old text stands once in its file. A test that is changed may have
another name in the proof of its function, as if-n-eq0 and if-n-eq1; a line `names: FOLDER OLD NEW` says that OLD is NEW in the names that the
proof in this folder cites, so that it is refused for what it says and not for a name that is missing. Before `file:` an edit that
must be refused has a line `# refused at: PLACE NAME`, the first failure that the check reports there. Of a function PLACE is the folder of
its proof, as proofs/name/copy_name, without the + of one that calls itself, and NAME the goal that is not proved, whether a file there answers
it or `search` does; of a lemma PLACE is its file, as specs/Cases.antt, and NAME the lemma. What fails there must be a fact (FACT), and nowhere
may the check miss a name or a field (MISSING), since there a proof only no longer fits.
"""
import collections
import os
import re

# what the prover says of a fact that fails: two types or sides that differ, a goal that does not follow, an equation that is left over; a goal that
# `search` did not prove is one too, unless all that is said of it is that `search` gave up at a limit
FACT = re.compile(
    r"expected type `|does not hold|`omega`: (?:the (?:goal|part) |a listed rule )|`grind`: the goal does not follow|`cc`: the equations do not join"
    r"|`search`: no proof of |what it leaves must be a path|allow values at which this goal is false"
    r"|^note: src/\S+: it is not proved that (?!.*gave up at one of its limits)"
)
MISSING = re.compile(r"has no field|has no `|is not in scope(?! here, so what is shown)|is no name|operand is missing|expected the end|cannot continue")
NOT_READ = re.compile(r"\berror\[[\w-]+\]")  # code that does not compile, of which nothing is proved or refused
FOLLOWS = re.compile(r"was not admitted|(?:was|were) not checked")  # what it says where only something that is cited fails
ERROR = re.compile(r"^(?:\./)?(\S+?):\d+:\d+: error: (?:`([^`]+)`: )?(.*(?:\n  .*)*)", re.M)
# a function with a goal that nothing answers and `search` did not prove
OPEN = re.compile(r"^fn \S+: no proof: expected answers in (?:\./)?(\S+)/Answers\.antt; `search` did not prove (.*)", re.M)
# what is said of each such goal, and of those of a function with answers to others, before the line that says how the function stands
NOTE = re.compile(r"^note: src/\S+: it is not proved .*?\(`([^`]+)`\).*", re.M)
NOT_PROVED = re.compile(r"^fn \w+::(\S+): (not proved|no proof: expected)\b", re.M)
WALK = re.compile(r"^(proofs/.+)/(?:Answers|Invariants|Proof)\.antt$")
# a function of the code: its head, whose last line ends with a brace, and its body
FUNCTION = re.compile(
    r'^(?P<indent> *)(?:pub(?:\([a-z]+\))? )?(?:extern "C" )?fn (?P<name>\w+)(?:.*\n)*?.*\{\n(?P<body>(?:.*\n)*?)(?P=indent)\}$', re.M
)
IMPL = re.compile(r"^impl (\w+)", re.M)


class Edit:
    """An edit of tests/FOLDER/CRATE, whose paths begin at the repository's root, or of crates/CRATE/must-fail, which rt tries too."""

    def __init__(self, path, root):
        self.path, self.name = path, path.stem
        self.by_rt = path.parents[2].name == "crates"
        self.crate = path.parents[1 if self.by_rt else 0].name
        self.must_fail = self.by_rt or path.parents[1].name == "must-fail"
        self.said = re.findall(r"^# refused at: (\S+ \S+)\nfile: ", path.read_text(), re.M)
        self.root, self.base = root, f"crates/{self.crate}/" if self.by_rt else ""
        self.names = collections.defaultdict(dict)
        for folder, old, new in re.findall(r"^names: (\S+) (\S+) (\S+)$", path.read_text(), re.M):
            self.names[folder][old] = new

    def judge(self, verdict, place):
        """Whether that is what the edit must come to, and what is printed of it."""
        line = f"edit {self.name} of {self.crate}: {verdict} {place}"
        if not self.must_fail or verdict != "refused at":
            return not self.must_fail and verdict == "accepted", line
        if self.said == [place]:
            return True, line
        if len(self.said) != 1:
            return False, f"{line}, and it has {len(self.said)} lines `# refused at:` before `file:`"
        return False, f"{line}, and not at {self.said[0]}"

    def changed(self):
        """The files that the edit changes, by their paths from the root, as it leaves them; and what is wrong with it."""
        texts, path, old = {}, None, None
        for line in self.path.read_text().splitlines():
            if line.startswith("file: "):
                path = self.base + line[6:]
            elif line.startswith("old: "):
                old = line[5:]
            elif line.startswith("new:"):
                if not path or not (self.root / path).is_file():
                    return texts, f"no file {path}"
                text = texts[path] if path in texts else (self.root / path).read_text()
                if text.count(old) != 1:
                    return texts, f"its old text stands {text.count(old)} times: {old}"
                texts[path] = text.replace(old, line[4:].removeprefix(" "))
        renamed = self.renamed()
        if self.by_rt and self.names:
            return texts, "rt reads no line `names:`"
        nowhere = [f"{folder} {old}" for folder, new in self.names.items() for old in new if not self.cited(folder, [old])]
        return {**texts, **renamed}, f"no proof cites {nowhere[0]}" if nowhere else "" if texts else "it changes nothing"

    def cited(self, folder, names):
        """The files of a proof that cite one of these names, and how they cite them."""
        name = re.compile(rf"(?<![\w'])({'|'.join(sorted(map(re.escape, names), key=len, reverse=True))})(?![\w']|-\d)")
        return [(path, name) for path in sorted((self.root / folder).glob("*.antt")) if name.search(path.read_text())]

    def renamed(self):
        """The files of proofs that cite other names, as they leave them."""
        texts = {}
        for folder, new in self.names.items():
            for path, old in self.cited(folder, new):
                texts[str(path.relative_to(self.root))] = old.sub(lambda name: new[name[0]], path.read_text())
        return texts


class Part:
    """An edit of one file of the code, as the part of it that changes: from `begin` to `end` comes `new`. `proof` is the folder of the proof
    of the function in whose body the part lies, or None; `renamed` are the files of that proof, where a test has another name."""

    def __init__(self, edit, path, text, changed):
        self.edit, self.path, self.renamed = edit, path, edit.renamed()
        self.begin = len(os.path.commonprefix([text, changed]))
        after = len(os.path.commonprefix([text[self.begin :][::-1], changed[self.begin :][::-1]]))
        self.end, self.new = len(text) - after, changed[self.begin : len(changed) - after]
        self.proof = self.proof_in(text)

    def proof_in(self, text):
        for function in FUNCTION.finditer(text):
            if function.start("body") <= self.begin and self.end <= function.end("body"):
                impl = IMPL.findall(text, 0, function.start())[-1:] if function["indent"] else []
                module = [name for name in self.path.removesuffix(".rt").split("/")[3:] if name not in ("lib", "main")]
                return "/".join(["proofs", *module, *impl, function["name"]])
        return None


def parts(edits):
    """The edits that may be tried together, each of one file of its crate's code. One that must be refused lies in the body of one function
    and names a goal of that function's proof."""
    for edit in edits:
        texts, wrong = edit.changed()
        path = next(iter(texts), "")
        if wrong or len(texts) != 1 + len(edit.renamed()) or not path.startswith(f"crates/{edit.crate}/src/"):
            continue
        part = Part(edit, path, (edit.root / path).read_text(), texts[path])
        in_place = part.proof and all(folder.replace("/+", "/") == f"crates/{edit.crate}/{part.proof}" for folder in edit.names)
        if not edit.must_fail or (in_place and len(edit.said) == 1 and edit.said[0].split(" ")[0] == part.proof):
            yield part


def batches(edits):
    """The edits that are tried together, as their parts: of each crate the first of each function, then the second, and so on."""
    made, count = collections.defaultdict(list), collections.Counter()
    for part in parts(edits):
        function = (part.edit.crate, part.proof)
        made[part.edit.crate, count[function]].append(part)
        count[function] += 1
    return [batch for batch in made.values() if len(batch) > 1]


def with_parts(batch):
    """The files that a batch changes, as it leaves them."""
    texts = {part.path: (part.edit.root / part.path).read_text() for part in batch}
    for part in batch:
        texts.update(part.renamed)
    for part in sorted(batch, key=lambda part: part.begin, reverse=True):
        text = texts[part.path]
        texts[part.path] = text[: part.begin] + part.new + text[part.end :]
    return texts


def of_crate(log):
    """What the check says of its own crate: `proved`, `not-proved` or nothing, and its part of the log. The libraries below that it built come
    before, each up to its line `logic=proved`."""
    sections = re.split(r"^(logic=\S+.*)$", log, flags=re.M)
    said = re.fullmatch(r"logic=(proved|not-proved).*", sections[-2]) if len(sections) > 2 else None
    return (said[1] if said and " did not build, so nothing above it" not in log else ""), sections[-3] if said else ""


def failures(log):
    """What fails in a crate's part of the log, in its order: places, names, and what is said of each; what only follows from another is left out."""
    found = []
    for error in ERROR.finditer(log):
        if not FOLLOWS.search(error[3]):
            walk = WALK.match(error[1])
            found.append((error.start(), walk[1].replace("/+", "/") if walk else error[1], error[2] or "", error[3]))
    notes = {}  # of each function that has no answers: what is said of its goals
    for goal in NOTE.finditer(log):
        function = NOT_PROVED.search(log, goal.end())
        if function and function[2] != "not proved":
            notes[function.start(), goal[1]] = goal[0]
        else:
            found.append((goal.start(), f"proofs/{function[1].replace('::', '/')}" if function else "", goal[1], goal[0]))
    for goal in OPEN.finditer(log):
        name = goal[2].split("`")[1]
        found.append((goal.start(), goal[1].replace("/+", "/"), name, notes.get((goal.start(), name), "nothing is said of why")))
    return [it[1:] for it in sorted(found)]


def verdict_of(found, edit):
    """What a failure comes to: the first in the place that is said, or else the first of all, unless a name is missing, a file does not read or
    something that is no fact fails in a file that is edited."""
    edited = {path.removeprefix(f"crates/{edit.crate}/") for path in edit.changed()[0]}
    unfit = [it for it in found if MISSING.search(it[2]) or ((not it[1] or it[0] in edited) and not FACT.search(it[2]))]
    place, name, text = (unfit or [it for it in found if edit.said and it[0] == edit.said[0].split(" ")[0]] or found)[0]
    return ("refused at", f"{place} {name}") if not unfit and FACT.search(text) else ("REFUSED BY NO FACT at", f"{place} {name}: {text}")


def read_log(log, edit):
    """Whether the crate is proved, and the failure that counts if not; no verdict where the check itself failed."""
    logic, said = of_crate(log)
    found = failures(said)
    if logic == "proved" and not found:
        return "accepted", ""
    refused = logic == "not-proved" and found and not NOT_READ.search(log)
    return verdict_of(found, edit) if refused else ("NO VERDICT:", log[-900:])


def read_batch(log, batch):
    """The verdict on each edit of a batch, and its place; None where it is not clear. One that must be refused is so by the first failure of
    its function's proof, one that changes nothing is accepted if its function's proof has none. Nothing is clear where anything else fails."""
    logic, said = of_crate(log)
    found = failures(said)
    if logic != "not-proved" or NOT_READ.search(log) or {place for place, _, _ in found} - {part.proof for part in batch}:
        return [None] * len(batch)
    verdicts = []
    for part in batch:
        own = [it for it in found if it[0] == part.proof]
        if part.edit.must_fail:
            verdict = verdict_of(own, part.edit) if own else None
            verdicts.append(verdict if verdict == ("refused at", *part.edit.said) else None)
        else:
            verdicts.append(None if own else ("accepted", "among others"))
    return verdicts
