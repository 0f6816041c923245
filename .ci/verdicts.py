"""The verdicts on wrong bodies: their table, which of them are stale, and the list of those that the gate holds."""
import datetime
import fcntl
import os
import re
from collections import Counter, namedtuple

import edits
import ground_code
from grounds import Grounds, rows_of, sum_of

ROOT = os.path.dirname(os.path.dirname(os.path.realpath(__file__)))
TABLE = f"{ROOT}/.ci/verdicts.tsv"
HELD = f"{ROOT}/.ci/held.txt"
COLUMNS = ("wrong body", "its sum", "sum of what it rests on", "kit", "verdict", "date")
FOLDERS = ("wrong-bodies", "must-fail")
GOOD = (edits.REFUSED, edits.LIMIT, edits.PROOF)
# An edit, by its path below crates/.
Edit = namedtuple("Edit", "path text")
# The sentence of docs/DECISIONS.md that says how many edits .ci/held.txt has, how many stand in must-fail/, and a sum of
# their paths and of what they change.
COUNT = re.compile(
    r"The gate holds (\d+) wrong bodies by their verdicts \(`\.ci/held\.txt`\) and tries (\d+) "
    r"\(`must-fail/`; the sum of all of them is `(\w+)`\)"
)


def sum_parts(text):
    """Returns what the sum of an edit is made of: what it changes, without its comments."""
    try:
        return [it for pair in edits.pairs_of(text) for it in pair]
    except edits.Unusable:
        return [text]


def places_of(path):
    crate, _, name = path.split("/")
    return [f"{ROOT}/crates/{crate}/{folder}/{name}" for folder in FOLDERS]


def edits_of(crate, folders):
    for folder in folders:
        at = f"crates/{crate}/{folder}"
        for name in sorted(os.listdir(f"{ROOT}/{at}")) if os.path.isdir(f"{ROOT}/{at}") else ():
            if name.endswith(".edit"):
                with open(f"{ROOT}/{at}/{name}", encoding="utf-8") as it:
                    yield Edit(f"{crate}/{folder}/{name}", it.read())


def logic_of(kit):
    """Returns the sum of a kit's logic: what one kit refuses, another with the same logic does not prove."""
    return kit.rpartition(" ")[2]


class Table:
    """The verdicts of .ci/verdicts.tsv. One holds for an edit of the same text in another folder of its crate."""

    def __init__(self):
        self.rows = self.read()

    def read(self):
        if not os.path.isfile(TABLE):
            return {}
        with open(TABLE, encoding="utf-8") as it:
            found = [tuple(line.rstrip("\n").split("\t")) for line in it]
        return {row[0]: row[1:] for row in found[1:] if len(row) == len(COLUMNS)}

    def verdict(self, edit, ground, kit):
        """Returns the verdict on an edit that is not stale, or None."""
        wanted, crate = (sum_of(sum_parts(edit.text)), ground, logic_of(kit)), edit.path.partition("/")[0]
        name = edit.path.rpartition("/")[2]
        places = [f"{crate}/{folder}/{name}" for folder in FOLDERS]
        found = ((path, self.rows[path]) for path in places if path in self.rows)
        same = [it for it in found if (*it[1][:2], logic_of(it[1][2])) == wanted]
        for _, row in sorted(same, key=lambda it: it[0] != edit.path)[:1]:
            self.rows[edit.path] = row
            return row[3]
        return None

    def add(self, edit, ground, kit, verdict):
        row = (sum_of(sum_parts(edit.text)), ground, kit, verdict, datetime.date.today().isoformat())
        self.write({edit.path: row})

    def write(self, new=()):
        """Writes the verdicts on the edits that there are, in this folder or another of their crate, with those that
        others have written meanwhile: several crates may be tried side by side."""
        held = os.open(os.path.dirname(TABLE), os.O_RDONLY)
        try:
            fcntl.flock(held, fcntl.LOCK_EX)
            self.rows.update({**self.read(), **dict(new)})
            there = [it for it in sorted(self.rows.items()) if any(map(os.path.isfile, places_of(it[0])))]
            kept = [COLUMNS, *((path, *row) for path, row in there)]
            with open(f"{TABLE}.new", "w", encoding="utf-8") as it:
                it.writelines("\t".join(row) + "\n" for row in kept)
            os.replace(f"{TABLE}.new", TABLE)
        finally:
            os.close(held)


class Verdicts:
    """The table beside the sums of the tree as it stands."""

    def __init__(self, kit):
        self.table, self.kit, self.grounds = Table(), kit, Grounds(ROOT)

    def ground(self, edit):
        return self.grounds.ground(edit.path.partition("/")[0], edit.text)

    def of(self, edit):
        """Returns the verdict on an edit that is not stale, or None."""
        return self.table.verdict(edit, self.ground(edit), self.kit)

    def mark(self, edit):
        """Returns what is wrong with the verdict on an edit: "stale", "no verdict" or nothing."""
        return "" if self.of(edit) else "stale" if edit.path in self.table.rows else "no verdict"


def kit_of_table():
    """Returns the kit that gave the newest verdicts, and of several the one that gave most of them."""
    rows = Table().rows.values()
    newest = max((it[4] for it in rows), default="")
    return Counter(it[2] for it in rows if it[4] == newest).most_common(1)[0][0] if newest else ""


def fault_of(edit):
    """Returns why an edit is malformed or does not apply, or nothing."""

    def read(file):
        path = f"{ROOT}/crates/{edit.path.partition('/')[0]}/{file}"
        if not os.path.isfile(path):
            raise edits.Unusable(f"there is no file {file}")
        with open(path, encoding="utf-8") as it:
            return it.read()

    try:
        texts = {}
        edits.apply(edit.path.partition("/")[0], edits.pairs_of(edit.text), texts, read)
        is_idle = all(ground_code.bare(read(file)) == ground_code.bare(text) for file, text in texts.items())
        return "it changes comments and layout alone" if is_idle else ""
    except edits.Unusable as why:
        return str(why)


def held():
    """Returns the edits of the list, each with its text, None where there is none, and what is wrong with its lines."""
    found, faults = [], []
    with open(HELD, encoding="utf-8") as it:
        lines = [line.rstrip("\n") for line in it]
    for at, line in enumerate(lines, 1):
        path, _, words = line.partition("  ")
        if not line.strip() or line.startswith("#"):
            continue
        if not re.fullmatch(r"\w+/wrong-bodies/\w+\.edit", path) or not words.strip() or re.search(r"\bW\d", words):
            faults.append(f".ci/held.txt:{at}: not a path, two blanks and what it stands for: {line}")
            continue
        if path in {it.path for it in found}:
            faults.append(f".ci/held.txt:{at}: it stands there twice: {path}")
        text = None
        if os.path.isfile(f"{ROOT}/crates/{path}"):
            with open(f"{ROOT}/crates/{path}", encoding="utf-8") as it:
                text = it.read()
        found.append(Edit(path, text))
    return found, faults


def count_fault(found):
    """Yields what is wrong with what docs/DECISIONS.md says of the edits that the gate holds or tries."""
    tried = [it for crate in rows_of(ROOT) for it in edits_of(crate, FOLDERS[1:])]
    # (what an edit changes too, so that none is replaced by another under its name)
    all_of = sorted(f"{it.path} {sum_of(sum_parts(it.text or ''))}" for it in [*found, *tried])
    there = (str(len(found)), str(len(tried)), sum_of(all_of)[:8])
    with open(f"{ROOT}/docs/DECISIONS.md", encoding="utf-8") as it:
        said = COUNT.findall(it.read())
    if said != [there]:
        says = " and ".join(f"{held} held, {tries} tried, sum {one}" for held, tries, one in said) or "no numbers"
        yield (
            f"docs/DECISIONS.md says {says}; there are {there[0]} in .ci/held.txt and {there[1]} in must-fail/, sum "
            f"{there[2]}: put back what was taken away, or say there why it was, with these numbers"
        )


def twins(found):
    """Yields which held edits change the same as another."""
    first = {}
    for edit in found:
        crate, parts = edit.path.partition("/")[0], sum_of(sum_parts(edit.text or edit.path))
        other = first.setdefault((crate, parts), edit.path)
        if other != edit.path:
            yield f"{edit.path}: it changes the same as {other}, so one of the two lines holds nothing"


def why_not_held(edit, verdicts):
    """Returns what keeps an edit of the list from being held, and what to do, or nothing."""
    crate = edit.path.partition("/")[0]
    if edit.text is None:
        return "it is not there"
    if crate not in rows_of(ROOT):
        return "its crate is not in crates.txt"
    if why := fault_of(edit):
        return why
    verdict = verdicts.of(edit)
    if verdict == edits.REFUSED:
        return ""
    if verdict:
        return f"its verdict is: {verdict}"
    what = "the edit, or what its verdict rests on, has changed" if verdicts.mark(edit) == "stale" else "it was never tried"
    return f"its verdict is: {verdicts.mark(edit)} ({what}): try it by .ci/wrong-bodies --held {crate}"


def held_faults(kit):
    """Returns the edits of the list, and what keeps each of them, or the list, from being held."""
    (found, faults), verdicts = held(), Verdicts(kit)
    for edit in found:
        why = why_not_held(edit, verdicts)
        faults += [f"{edit.path}: {why}"] * bool(why)
    return found, [*faults, *twins(found), *count_fault(found)]
