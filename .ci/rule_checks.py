"""What .ci/rules --check wants of rules, tags, functions, cases and verdicts."""
import difflib
import os
import re
from collections import defaultdict

import edits
import verdicts
from rule_lists import API, BY_NAME, EXEMPT, EXPORTS, FAULT_DEFINITIONS, FAULT_RESULTS
from rule_tags import BEST, DEFINITION, ROOT, is_test, read


def forms(table):
    """Yields what is wrong with a rule: it lacks a part, or has one that its mark denies."""
    for rule, parts in table.rules.items():
        text, mark = f"{rule.section}{rule.own} {rule.sentence}", table.mark(rule)
        one = next(it for kind in parts.values() for it in kind if it.line)
        place = f"crates/{one.file}:{one.line}"
        marks = {it.mark for it in parts["Definition"]} or {mark}
        if len(marks) > 1:
            yield f"{place}: the tags of its definitions have several marks: {text}"
        if not parts["Definition"] and not mark:
            yield f"{place}: no definition of the rule: {text}"
        if not parts["Code"] and mark not in ("law", "text"):
            yield f"{place}: no code of the rule: {text}"
        if not parts["Wrong body"] and mark not in ("law", "text", "tested"):
            yield f"{place}: no wrong body of the rule: {text}"
        if mark == "law" and not parts["Contract"]:
            yield f"{place}: no law of the rule: {text}"
        for kind, tags in parts.items():
            best = sum(it.mark == BEST for it in tags)
            if best > (kind in ("Test", "Wrong body")):
                yield f"{place}: {best} tags of one kind ({kind}) are marked ({BEST}): {text}"
        if parts["Wrong body"] and mark in ("law", "text", "tested"):
            yield f"{place}: it has a wrong body, and is marked ({mark}): {text}"


def spellings(table):
    """Yields each rule whose text is nearly that of another."""
    rules = sorted(table.rules)
    for at, rule in enumerate(rules):
        for other in rules[at + 1 :]:
            words, others = rule.sentence.split(), other.sentence.split()
            near = rule.section == other.section and words[:2] == others[:2]
            differ = set(words) ^ set(others)
            is_same = rule.sentence.lower() == other.sentence.lower()
            typo = near and len(differ) == 2 and difflib.SequenceMatcher(None, *sorted(differ)).ratio() > 0.8
            if is_same or typo or near and not differ:
                tag = next(it for kind in table.rules[other].values() for it in kind if it.line)
                yield f"crates/{tag.file}:{tag.line}: a rule in two spellings: {rule.sentence} / {other.sentence}"


def results(file, lines):
    """Yields each definition of a file of specs/, with its line and its result."""
    for at, line in enumerate(lines):
        found = DEFINITION.match(line)
        if not found or not found[1] or found[2] in ("mod", "use"):
            continue
        type, row = line.partition(" : ")[2], at + 1
        while row < len(lines) and lines[row].startswith("    "):
            type, row = f"{type} {lines[row].strip()}", row + 1
        is_type = re.search(r"\b(data|record) ", found[1])
        yield found[2], at + 1, "" if is_type else type.rpartition("→")[2].strip()


def untagged(table):
    """Yields each wrong body, and each definition of a fault, that is no rule's."""
    tagged, known = {(it.file, it.name) for it in table.tags.tags}, set()
    for file, lines in table.tags.texts.items():
        if file.endswith(".edit") and not any(at[0] == file for at in tagged):
            yield f"crates/{file}:1: a wrong body without a rule"
        for name, line, result in results(file, lines) if "/specs/" in file else ():
            known.add((file, name))
            is_fault = result in FAULT_RESULTS or (file, name) in FAULT_DEFINITIONS
            if is_fault and file not in EXEMPT and (file, name) not in tagged:
                yield f"crates/{file}:{line}: a definition of a fault without a rule: {name}"
    for file, name in sorted(FAULT_DEFINITIONS - known):
        yield f".ci/rule_lists.py: no definition {name} in crates/{file}"


def unused(table):
    """Yields each cited function that nothing calls but its own file and tests, and each name of two functions."""
    names, above = defaultdict(set), {it: crates_above(it) for it in os.listdir(f"{ROOT}/crates")}
    for it in table.functions:
        body = "\n".join(table.tags.texts[it.file][it.body - 1 : it.end])
        for name in set(re.findall(r"\w+", edits.without_comments(body))):
            names[name].add(it)
    types, aliases = defaultdict(set), defaultdict(set)
    for file, lines in table.tags.texts.items():
        for alias, of in re.findall(r"^pub type (\w+) = (\w+)", "\n".join(lines), re.M):
            aliases[of].add(alias)
        if "/src/" in file and not is_test(file):
            code = [it for it in lines if not it.lstrip().startswith(("//", "ghost "))]
            for word in set(re.findall(r"\b[A-Z]\w*", "\n".join(code))):
                types[word].add(file)

    def is_live(own, seen):
        crate, (type, _, name) = own.file.split("/")[0], own.name.rpartition("::")
        if name in BY_NAME or type.endswith("*"):
            return True
        if crate in EXPORTS and name.startswith(EXPORTS[crate]):
            return True
        users = [it for it in names[name] if it != own and it.file.split("/")[0] in above[crate]]
        if any(it.file != own.file and (not type or knows(it.file, type)) for it in users):
            return True
        inner = [it for it in users if it.file == own.file and it not in seen]
        return any(is_live(it, seen | {own}) for it in inner)

    def knows(file, type):
        users = set().union(*(types[it] for it in {type} | aliases[type]))
        return any(it.split("/")[0] == file.split("/")[0] and not it.endswith("/lib.rt") for it in users)

    cited = {table.by_line[it.file, it.at] for it in table.tags.tags if (it.file, it.at) in table.by_line}
    for own in sorted(cited):
        path = f"{own.file.split('/')[0]}::{own.name}"
        tags = [it for it in table.tags.tags if (it.file, it.at) == (own.file, own.first + 1)]
        is_code = any(it.word == "rule" for it in tags)
        if is_code and path not in API and not is_live(own, frozenset()):
            yield f"crates/{own.file}:{own.first + 1}: nothing calls it but its own file and tests: {path}"
        if sum(it.file == own.file for it in table.by_path[path]) > 1:
            yield f"crates/{own.file}:{own.first + 1}: two functions have this name: {path}"


def crates_above(crate):
    """Returns a crate and those that rest on it."""
    rows = [it.partition("#")[0] for it in read("crates.txt").split("\n")]
    uses = {it.partition(":")[0].strip(): it.partition(":")[2].split() for it in rows if it.strip()}
    found = {crate}
    while True:
        more = {it for it, libraries in uses.items() if found & set(libraries)} - found
        if not more:
            return found
        found |= more


def others(table):
    """Yields what is wrong with the heads of specs, with groups of cases and with the verdicts on wrong bodies."""
    for file, heads in table.tags.heads.items():
        for name, line in heads:
            if len(table.by_path[name]) != 1:
                yield f"crates/{file}:{line}: {len(table.by_path[name])} functions have this name: {name}"
    for file in table.tags.texts:
        crate, part, *names = file.split("/")
        if part == "data" and (len(names) != 2 or f'=> "{names[0]}",' not in read(f"crates/{crate}/src/group.rt")):
            yield f"crates/{file}:1: {crate} has no such group: cases are in files GROUP/NAME.txt"
    for at, row in enumerate(read(".ci/verdicts.tsv").split("\n")[1:], 2):
        if row and row.split("\t")[4] not in ("refused", "limit", "proof file only"):
            yield f".ci/verdicts.tsv:{at}: {row.split(chr(9))[0]}: {row.split(chr(9))[4]}"


def unusable(table):
    """Yields each wrong body that is malformed, or does not apply to its crate as it stands."""
    for file, lines in table.tags.texts.items():
        why = verdicts.fault_of(verdicts.Edit(file, "\n".join(lines))) if file.endswith(".edit") else ""
        if why:
            yield f"crates/{file}:1: it does not apply: {why}"


def unshown(table):
    """Yields each rule none of whose wrong bodies was refused for what it breaks, which is no fault: it may be new."""
    rows = [it.split("\t") for it in read(".ci/verdicts.tsv").split("\n")[1:]]
    refused = {re.sub(r"/[\w-]+/", "/", row[0]) for row in rows if len(row) > 4 and row[4] in ("refused", "limit")}
    for rule, parts in sorted(table.rules.items()):
        files = {re.sub(r"/[\w-]+/", "/", it.file) for it in parts["Wrong body"] if "/wrong-bodies/" in it.file}
        if files and len(files) == len(parts["Wrong body"]) and not files & refused:
            yield f"no wrong body of it was refused yet: {rule.section}{rule.own} {rule.sentence}"


def faults(table):
    """Yields all that is wrong but for the pages."""
    for check in (forms, spellings, untagged, unused, others, unusable):
        yield from check(table)
