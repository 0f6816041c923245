"""What .ci/rules reads: the tags of rules in crates/, and what they are on."""
import os
import re
from collections import defaultdict, namedtuple

import edits
from rule_lists import SECTIONS, TESTS

ROOT = os.path.dirname(os.path.dirname(os.path.realpath(__file__)))
# The marks of a rule, and what its page says in place of a wrong body.
MARKS = {
    "law": "none, it is a law, whose body is empty",
    "text": "none, it is printed text",
    "tested": "none, no contract says it: it is tested",
    "contract": "",
}
# The mark of the test, or of the wrong body, that shows a rule best: its page names that one first.
BEST = "best"
TAG = re.compile(r"\s*(?://|--|#) (rule|contract)(?: \((\w+)\))?: (.*)$")
RULE = re.compile(r"((?:HPACK |HTTP )?[0-9A-Z][0-9.]*|[a-z]+)( \(own\))? (.+)")
ITEM = re.compile(r"(?:\w+(?:\(\w+\))? |extern \"C\" )*?(?:fn|enum|struct|trait|const(?! fn)) (\w+)")
DEFINITION = re.compile(r"((?:(?:pub|abbrev|unfoldable|opaque|data|record) )*)([^\s:]+)(?= |$)")

# A tag: what it says ("rule" or "contract"), its mark and its rule, its file below crates/, its line, and the name of
# what it is on, with that one's line, both counted from 1.
Tag = namedtuple("Tag", "word mark rule file line name at")
# A rule's text is its section, " (own)" or "", and its sentence.
Rule = namedtuple("Rule", "section own sentence")


def read(path):
    with open(f"{ROOT}/{path}", encoding="utf-8") as it:
        return it.read()


def files():
    """Yields each file below crates/ that may have tags, and its lines."""
    for crate in sorted(os.listdir(f"{ROOT}/crates")):
        for part in ("src", "specs", "proofs", "wrong-bodies", "must-fail", "data"):
            for folder, folders, names in os.walk(f"{ROOT}/crates/{crate}/{part}"):
                folders.sort()
                for name in sorted(names):
                    if name.endswith((".rt", ".antt", ".edit", ".txt")):
                        path = os.path.relpath(f"{folder}/{name}", f"{ROOT}/crates")
                        yield path, read(f"crates/{path}").split("\n")


def item_of(file, lines, at):
    """Returns the name of what a tag on a line is on, and that one's line."""
    if file.endswith(".edit"):
        return os.path.basename(file)[: -len(".edit")], 1
    if file.endswith(".txt"):
        while at > 0 and not lines[at].startswith("case "):
            at -= 1
        return lines[at][len("case ") :], at + 1
    pattern, group = (DEFINITION, 2) if file.endswith(".antt") else (ITEM, 1)
    is_comment = re.compile(r"\s*(//|--)")
    while at + 1 < len(lines) and (is_comment.match(lines[at]) or not pattern.match(lines[at].strip())):
        at += 1
    found = pattern.match(lines[at].strip())
    return (found[group] if found else ""), at + 1


class Tags:
    """The tags of all crates, and what is wrong with their form."""

    def __init__(self):
        self.texts, self.tags, self.heads, self.faults = dict(files()), [], defaultdict(list), []
        for file, lines in self.texts.items():
            for at, line in enumerate(lines):
                if TAG.match(line):
                    self.add(file, lines, at)
                elif re.match(r"\s*(//|--|#) (rules?|contracts?)\b[^:]{0,10}:", line):
                    self.faults.append(f"crates/{file}:{at + 1}: a tag of another form")

    def add(self, file, lines, at):
        word, mark, text = TAG.match(lines[at]).groups()
        place = f"crates/{file}:{at + 1}"
        if word == "contract" and re.fullmatch(r"\w+(::\w+)+", text):
            self.heads[file].append((text, at + 1))
            return
        rule, (name, row) = RULE.fullmatch(text), item_of(file, lines, at)
        if not rule or rule[1] not in SECTIONS:
            self.faults.append(f"{place}: no rule with a section that .ci/rule_lists.py knows: {text}")
        elif not name or mark and mark not in (*MARKS, BEST) or len(lines[at]) > 100 or len(rule[3]) > 75:
            self.faults.append(f"{place}: the tag is on nothing, its mark is unknown or it is too long")
        else:
            own = Rule(rule[1], rule[2] or "", rule[3])
            self.tags.append(Tag(word, mark or "", own, file, at + 1, name, row))


def kind_of(tag):
    """Returns what a tag is on, for a rule."""
    part = tag.file.split("/")[1]
    if part in ("wrong-bodies", "must-fail"):
        return "Wrong body"
    if part in ("data", "proofs") or is_test(tag.file):
        return "Test"
    return "Definition" if part == "specs" else "Contract" if tag.word == "contract" else "Code"


def is_test(file):
    return "/src/tests" in file or file.split("/")[0] in TESTS


# A function of src/, by its file below crates/ and its name with that of its type; lines are counted from 0.
Function = namedtuple("Function", "file name first body end")


def functions(texts):
    """Returns the functions of all crates but tests."""
    found = []
    for file, lines in texts.items():
        if "/src/" in file and not is_test(file):
            found += [Function(file, *it) for it in edits.functions_of("\n".join(lines))]
    return found


class Table:
    """The rules with what their tags are on: the tags of each kind, in the order of the files."""

    def __init__(self, tags):
        self.tags, self.functions = tags, functions(tags.texts)
        self.by_path, self.by_line = defaultdict(list), {}
        for it in self.functions:
            self.by_line[it.file, it.first + 1] = it
            self.by_path[f"{it.file.split('/')[0]}::{it.name}"].append(it)
        self.rules = defaultdict(lambda: defaultdict(list))
        for it in tags.tags:
            self.rules[it.rule][kind_of(it)].append(it)
        for parts in self.rules.values():
            self.add_contracts(parts)

    def add_contracts(self, parts):
        """Puts laws last, and adds the contracts that heads of files name where there are no others, or those of the code."""
        laws = [it for it in parts["Contract"] if self.is_law(it)]
        parts["Contract"] = [it for it in parts["Contract"] if it not in laws] + laws
        marks = {it.mark for it in parts["Definition"]}
        if len(laws) < len(parts["Contract"]) or "law" in marks:
            return
        named = [name for it in parts["Definition"] for name, _ in self.tags.heads[it.file]]
        found = [it for name in dict.fromkeys(named) for it in self.by_path[name]]
        tags = [Tag("contract", "", None, it.file, 0, it.name, it.first + 1) for it in found]
        places = {(it.file, it.at) for it in tags}
        parts["Contract"] = tags + [it for it in laws if (it.file, it.at) not in places]
        if not parts["Contract"]:
            parts["Contract"] = [it for it in parts["Code"] if self.has_contract(it)]

    def text_of(self, tag):
        own = self.by_line.get((tag.file, tag.at))
        return self.tags.texts[tag.file][own.first : own.end] if own else []

    def is_law(self, tag):
        return any(it.strip() == "{}" or it.endswith(" {}") for it in self.text_of(tag)[-2:])

    def has_contract(self, tag):
        return any(it.strip().startswith("ensures") for it in self.text_of(tag))

    def mark(self, rule):
        return next((it.mark for kind in ("Definition", "Code") for it in self.rules[rule][kind] if it.mark), "")
