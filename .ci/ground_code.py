"""What grounds.py reads of src/: functions, types, traits, impls and constants, and what `use` lines bring in."""
import os
import re

import edits
import ground_antt

# Comments, and texts and characters, in which nothing is a comment.
ONE = r"(?:\\.[^']*|[^\\'])'"
TEXTS = rf"""b?r(?P<mark>#*)".*?"(?P=mark)|b?"(?:\\.|[^"\\])*"|(?<!\w)b?'{ONE}|b'{ONE}"""
LEXEME = re.compile(rf"(?://[^\n]*|/\*.*?\*/|\s)+|(?P<text>{TEXTS})", re.S)
NAME = re.compile(r"[^\W\d]\w*")
KIND = re.compile(
    r"(?:pub(?:\([^)]*\))? )?(?:unsafe |default |const (?=fn|unsafe|extern)|extern \"C\" |extern (?=fn))*"
    r"(fn|struct|enum|union|trait|impl|const|static|type|mod|use|macro_rules!|ghost use|extern|\w+!)(?!\w)"
)
DECLARED = re.compile(r"\b(?:fn|struct|enum|union|trait|const|static|type|macro_rules!) +(\w+)")
ATTRIBUTE = re.compile(r"\s*#!?\[")


def bare(text):
    """Returns a text of src/ without comments and layout; what stands in quotes stays as it is."""
    return LEXEME.sub(lambda it: it["text"] or " ", text).strip()


def without_blocks(text):
    """Returns a text with blanks in place of comments between `/*` and `*/`, which may hold items and one another."""
    code, mark = re.compile(rf"/\*|//[^\n]*|{TEXTS}", re.S), re.compile(r"/\*|\*/")
    at, depth, begins = 0, 0, 0
    while "/*" in text:
        it = (mark if depth else code).search(text, at)
        if not it:
            break
        at = it.end()
        if it[0] == "/*":
            begins, depth = begins if depth else it.start(), depth + 1
        elif it[0] == "*/" and depth:
            depth -= 1
            if not depth:
                text = text[:begins] + re.sub(r"[^\n]", " ", text[begins:at]) + text[at:]
    return text


class Part:
    """A part of a file of src/: a function, a type and the like. Its text has no comments; `promise` is that without
    the bodies of functions, and `head` what stands around a function: its impl or trait."""

    def __init__(self, kind, name, file, text, promise=None, head=""):
        self.kind, self.name, self.file, self.head = kind, name, file, head
        self.text, self.promise = bare(text), bare(text if promise is None else promise)
        self.key, self.owner, self.members, self.consts, self.ghosts = "", "", (), (), {}
        signature = self.promise.split("fn ")[0].rpartition("]")[2]
        self.is_const = kind == "fn" and bool(re.search(r"\bconst\b", signature))
        if self.is_const:
            self.promise = self.text
        # What holds other items, or makes them, stands for each name that is declared in it, and else in it.
        if kind == "extern" or kind == "mod" and "{" in self.text:
            self.kind, self.consts = "several", DECLARED.findall(self.text)
        elif kind.endswith("!") and kind != "macro_rules!":
            self.kind, self.consts = "several", NAME.findall(self.text)


def starts_of(text):
    """Returns the numbers of the lines at which the items without an indent begin, attributes included."""
    starts, held, lines, quoted = [], None, text.split("\n"), set()
    for it in LEXEME.finditer(text):
        if it["text"] and "\n" in it["text"]:
            quoted |= set(range(text[: it.start()].count("\n") + 1, text[: it.end()].count("\n") + 1))
    for at, line in enumerate(lines):
        if at in quoted:
            continue
        if ATTRIBUTE.match(line) and line[:1] == "#" and not line.startswith("#!"):
            held = at if held is None else held
        elif KIND.match(line):
            starts.append(at if held is None else held)
            held = None
        elif held is not None and re.match(r"[\w}]", line):
            held = None
    return starts


def ghosts_of(text):
    """Returns what the `ghost use` lines of a text bring in."""
    found = {}
    for line in re.findall(r"\bghost (use [^;]*);", text):
        for name, path, words in ground_antt.uses_of(line):
            found.setdefault(name, []).append((path, words))
    return found


def uses_in(path, text):
    """Yields what a `use` of the code brings in: the name there and its path; `*` for all names."""
    text = text.strip()
    brace = re.match(r"(?s)(.*?)::\{(.*)\}$|\{(.*)\}$", text)
    if brace:
        depth, part, inner = 0, "", brace[2] if brace[2] is not None else brace[3]
        for sign in f"{inner},":
            depth += (sign == "{") - (sign == "}")
            if sign == "," and not depth:
                if part.strip():
                    yield from uses_in(f"{path}{brace[1]}::" if brace[1] else path, part)
                part = ""
            else:
                part += sign
        return
    whole, _, alias = text.partition(" as ")
    last = whole.split("::")[-1]
    last = path.split("::")[-2] if last == "self" and "::" in path else last
    yield alias.strip() or last, f"{path}{whole}"


class File:
    """A file of src/: its parts, the lines that count for all of them, and what its `use` lines bring in."""

    def __init__(self, crate, file, text):
        self.crate, self.file, self.module = crate, file, edits.module_of(crate, file)
        self.lines, self.parts, self.uses, self.given = text.split("\n"), [], {}, {}
        self.functions = edits.functions_of(text)
        starts = starts_of(text)
        self.attributes = " ".join(bare(it) for it in re.findall(r"(?ms)^#!\[.*?\]$", text))
        self.imports = []
        for first, end in zip(starts, [*starts[1:], len(self.lines)]):
            self.add(first, end)
        self.ghosts = ghosts_of("\n".join(it for it in self.imports if it.startswith("ghost")))
        covered = set().union(*(range(first, end) for first, end in zip(starts, [*starts[1:], len(self.lines)])), ())
        self.rest = bare("\n".join(it for at, it in enumerate(self.lines) if at not in covered))

    def add(self, first, end):
        lines = self.lines[first:end]
        at = next(it for it in range(first, end) if KIND.match(self.lines[it]))
        kind, text = KIND.match(self.lines[at])[1], "\n".join(lines)
        after = self.lines[at][KIND.match(self.lines[at]).end() :]
        name = (NAME.findall(after) or [""])[0] if kind not in ("use", "ghost use", "impl") else ""
        if kind in ("use", "ghost use"):
            self.imports.append(bare(text))
            if kind == "use":
                given = re.match(r"(?s)(?:#\[.*?\] )*(pub(?:\([^)]*\))? )?use (.*?);", bare(text))
                for alias, path in uses_in("", given[2]) if given else ():
                    self.uses.setdefault(alias, []).append(path)
                    # (the modules below a file see its own aliases too)
                    if given[1] or path.split("::")[-1] not in (alias, "self", "*"):
                        self.given.setdefault(alias, []).append(path)
        elif kind in ("fn", "impl", "trait"):
            self.add_functions(kind, name, first, end)
        else:
            self.parts.append(Part(kind, name, self, text))

    def add_functions(self, kind, name, first, end):
        inner = [it for it in self.functions if first <= it.first < end]
        bodies = {at for it in inner for at in range(it.body, it.end)}
        inside = {at for it in inner for at in range(it.first, it.end)}
        promised = [self.lines[at] for at in range(first, end) if at not in bodies]
        outer = "\n".join(self.lines[at] for at in range(first, end) if at not in inside)
        whole = Part(kind, name, self, "\n".join(self.lines[first:end]), "\n".join(promised))
        opens = next((it for it in range(first, end) if re.search(r"\{\s*$|\{\}$", self.lines[it])), first)
        if kind != "fn":
            whole.members = [it.name.split("::")[-1] for it in inner]
            whole.owner, whole.head = bare("\n".join(self.lines[first : opens + 1])), bare(outer)
            whole.ghosts = ghosts_of(outer)
            whole.consts = re.findall(r"\n    (?:pub(?:\([^)]*\))? )?(?:const|type) (\w+)", f"\n{outer}")
            # An impl of no trait promises its functions one by one.
            whole.promise = whole.promise if kind == "trait" or " for " in whole.owner else whole.head
            self.parts.append(whole)
        for it in inner:
            begins = it.first
            above = re.compile(r" +(#\[|//|\)\]|[^\n]*\)\]$)")
            while kind != "fn" and begins > first + 1 and above.match(self.lines[begins - 1]):
                begins -= 1
            begins = first if kind == "fn" else begins
            text, promise = self.lines[begins : it.end], self.lines[begins : it.body]
            part = Part("fn", it.name.split("::")[-1], self, "\n".join(text), "\n".join(promise), whole.head)
            part.key, part.owner = f"{self.module}::{it.name}", whole.owner if kind != "fn" else ""
            part.ghosts, part.holder = (whole.ghosts if kind != "fn" else {}), (name if kind == "trait" else "")
            self.parts.append(part)


class Index:
    """All files of src/ of a tree, but its tests."""

    def __init__(self, root, crates):
        self.files = {crate: [] for crate in crates}
        for crate in crates:
            top = f"{root}/crates/{crate}"
            for at, folders, names in os.walk(f"{top}/src"):
                folders.sort()
                for name in sorted(it for it in names if it.endswith(".rt")):
                    file = os.path.relpath(f"{at}/{name}", top)
                    if not re.match(r"src/tests(/|\.rt)", file):
                        with open(f"{at}/{name}", encoding="utf-8") as it:
                            self.files[crate].append(File(crate, file, without_blocks(it.read())))
