"""What grounds.py reads of specs/ and proofs/: the items of each file, and what the names in them stand for."""
import os
import re

MODS = r"(?:(?:pub|abbrev|unfoldable|opaque|data|record|axiom|ruleset) )*"
# A line that begins an item: words such as `pub`, and then its names, a colon, parameters or `where`.
HEAD = re.compile(rf"( *)({MODS})((?:[^\s:(){{}}\[\],;]+ )*?[^\s:(){{}}\[\],;]+) ?(?::(?=\s|$)|[({{]|where$)")
SECTION = re.compile(r" *(?:pub )?(?:module|package|mutual)\b")
LOOSE = re.compile(r"(?:pub )?(?:infix[lr]?|open|mod|deriving) ")
USE = re.compile(r" *((?:unfoldable |pub )*)use ")
WORD = re.compile(r"[^\s(){}\[\],;λ⟦⟧⌜⌝«»\"@|\\]+")
# What a name stands for: an item of a file, by its module and its number there; a module; something of src/, by its
# crate and its path; something of the kit; or nothing that is known.
ITEM, MODULE, CODE, KIT, UNKNOWN = "item", "module", "code", "kit", "unknown"


class Item:
    """An item of a file: its text, without comments, and the words in it."""

    def __init__(self, text):
        self.text = text
        self.words = set(WORD.findall(text))


def uses_of(text):
    """Yields what a `use` line brings in: the name there, the path that it stands for, and the words before `use`."""
    words, rest = USE.match(text)[1], " ".join(USE.sub("", text, 1).rstrip(" ;\n").split())
    path, brace, names = rest.partition(".{")
    path, _, alias = path.partition(" as ")
    path = tuple(path.strip().split("."))
    if not brace:
        yield (alias.strip() or path[-1]), path, words
    for name in names.rstrip("} ").split(",") if brace else ():
        name, _, alias = name.strip().partition(" as ")
        if name:
            yield (alias.strip() or name), path + tuple(name.split(".")), words


def bare(text):
    """Returns the text of a file without blank lines and lines that are comments."""
    return "\n".join(it for it in text.split("\n") if it.strip() and not re.match(r"\s*--(?=[\s-]|$)", it))


def blocks_of(text):
    """Returns the blocks of a file: each begins at a line without an indent."""
    found = []
    for line in bare(text).split("\n"):
        if line[:1].strip() or not found:
            found.append([line])
        else:
            found[-1].append(line)
    return found


def heads(block):
    """Returns the names that a block declares by its first line, or by the first two: `pub name` and `    : type`."""
    first = block[0] + block[1].lstrip() if block[1:] and re.match(" *: ", block[1]) else block[0]
    head = HEAD.match(first.replace(block[0], f"{block[0]} ", 1) if first != block[0] else first)
    ruleset = re.match(rf"{MODS}(?<=ruleset )(\S+) =", first)
    if ruleset:
        return {ruleset[1]}
    if not head or USE.match(first) or SECTION.match(first) or re.match("(unfolding|pub mod|mod) ", first):
        return set()
    # `name (x : A) ..` is the head of a type alone: elsewhere it is a clause.
    names = set(head[3].split())
    is_type = re.search(r"\b(data|record) ", head[2])
    return names if "=" not in names and (head[0].endswith(":") or is_type) else set()


def names_of(block):
    """Returns the names that a block gives: those of its head, the constructors of a `data`, and all in a section."""
    names, inner = heads(block), [re.sub(rf"^ *{MODS}", "", line) for line in block[1:]]
    is_section = SECTION.match(block[0])
    if is_section or re.match(rf"{MODS}(?<=data )", block[0]):
        names |= {name for line in inner for it in [HEAD.match(line)] if it for name in it[3].split()}
    for first, second in zip(inner, inner[1:]) if is_section else ():
        names |= heads([first, second])
    return names


def is_operator(name):
    """Returns whether a name may be used without standing there as a word."""
    return "◌" in name or WORD.findall(name) != [name]


class File:
    """A file of specs/ or proofs/: its items, what each name of it stands for, and what its `use` lines bring in."""

    def __init__(self, module, text):
        self.module, self.items, self.own, self.uses = module, [], {}, {}
        # What stands before all items, or counts for all: how operators bind, for one.
        # A comment between marks may hold items, so that a file with one counts as a whole.
        self.loose = [text] if "{-" in text else []
        blocks, texts, self.operators = blocks_of(text), [], []
        given = {name for block in blocks for name in heads(block)}
        at, following = None, ""
        for block in reversed(blocks):
            # (an `unfolding` line is of the clause after it, and of the item before it)
            following = block[0].split(" ")[0] if not block[0].startswith("unfolding ") else following
            block.insert(0, following)
        for following, *block in blocks:
            if USE.match(block[0]):
                for name, path, words in uses_of(" ".join(block)):
                    self.uses.setdefault(name, []).append((path, words))
            elif SECTION.match(block[0]) or heads(block):
                at = len(texts)
                texts.append(["\n".join(block)])
                for name in names_of(block):
                    self.own.setdefault(name, []).append(at)
                self.operators += [at] if any("◌" in it for it in heads(block)) else []
            elif at is None or LOOSE.match(block[0]):
                self.loose += ["\n".join(block)] * (not re.match(r"(pub )?mod |$", block[0]))
            else:
                self.give(block, following, given, at, texts)
        self.items = [Item("\n".join(it + self.loose)) for it in texts]
        self.operators = [name for name in (*self.own, *self.uses) if is_operator(name)]

    def give(self, block, following, given, at, texts):
        """Gives a clause to the item that it names, and else to the one before it, and to all operators before it."""
        to = {at, *self.operators}
        if following in given and following in self.own:
            to = {*self.own[following]} | ({at} if block[0].startswith("unfolding ") else set())
        for it in to:
            texts[it].append("\n".join(block))


class Index:
    """All files of specs/ and proofs/ of a tree."""

    def __init__(self, root, crates):
        self.crates, self.files, self.texts = set(crates), {}, {}
        for crate in crates:
            for part in ("specs", "proofs"):
                self.read(f"{root}/crates/{crate}", crate, part)
        self.known = {}

    def read(self, folder, crate, part):
        for at, folders, names in os.walk(f"{folder}/{part}"):
            folders.sort()
            for name in sorted(it for it in names if it.endswith(".antt")):
                path = os.path.relpath(f"{at}/{name}", folder)[: -len(".antt")].split("/")
                module = (crate, *(path[:-1] if path[-1] == "Lib" else path))
                with open(f"{at}/{name}", encoding="utf-8") as it:
                    self.texts[module] = it.read()

    def file(self, module):
        if module not in self.files:
            self.files[module] = File(module, self.texts[module])
        return self.files[module]

    def path(self, path, around=None, depth=0):
        """Returns what a path stands for, by its kind, and the words of the `use` lines on its way."""
        key = (path, around if path[0] != "Rattle" else None)
        if key not in self.known:
            self.known[key] = [(UNKNOWN, path)] if depth > 40 else self.follow(path, around, depth)
        return self.known[key]

    def follow(self, path, around, depth):
        if path[0] != "Rattle":
            return self.inner(path, around, depth)
        if path[1:2] and path[1] not in self.crates:
            return [(KIT, path)]
        if path[2:4] in (("specs", "declared"), ("specs", "contracts")):
            return [(CODE, path)]
        for size in range(len(path), 1, -1):
            if path[1:size] in self.texts:
                break
        else:
            return [(CODE, path)] if path[2:3] == ("proofs",) else [(UNKNOWN, path)]
        module, rest = path[1:size], path[size:]
        if not rest:
            return [(MODULE, module)]
        file = self.file(module)
        found = [(ITEM, module, it, ".".join(rest)) for it in file.own.get(rest[0], ())]
        for given, words in () if found else file.uses.get(rest[0], ()):
            if given != path:
                found += [(*it, words) for it in self.path(given + rest[1:], module, depth + 1)]
        if not found and path[2] == "proofs" and len(rest) > 1:
            return [(CODE, path)]
        return found or [(UNKNOWN, path)]

    def inner(self, path, around, depth):
        """Follows a path whose first name is brought in by a `use` line of the file around it, or is the kit's."""
        file, found = self.file(around) if around in self.texts else None, []
        for given, words in file.uses.get(path[0], ()) if file else ():
            if given != path and given[0] != path[0]:
                known = self.path(given + path[1:], around, depth + 1)
                found += [(*it, words) for it in known] if words else known
        # (a module below the file that it stands in)
        if not found and file and (*around, path[0]) in self.texts:
            return self.path(("Rattle", *around, *path), around, depth + 1)
        return found or [(KIT, path)]

    def names_in(self, words, uses, own, around):
        """Returns what the names among these words stand for: by the items of their file, and by its `use` lines."""
        found = {}
        for word in words:
            first, *rest = word.split(".")
            # (added to what another word may have brought, so that the order of words is of no meaning)
            if first in own:
                found.setdefault(first, []).extend((ITEM, around, it, first) for it in own[first])
            elif around and rest and first not in uses and (*around, first) in self.texts:
                inner = self.path(("Rattle", *around, *(it for it in word.split(".") if it)), around)
                found.setdefault(word, []).extend(inner)
            elif first == "Rattle":
                found.setdefault(word, []).extend(self.path(tuple(it for it in word.split(".") if it)))
            for path, flags in uses.get(first, ()):
                known, name = self.path(path, around), first
                if rest and rest[0] and any(it[0] != ITEM for it in known):
                    inner = self.path(path + tuple(it for it in rest if it), around)
                    if all(it[0] != UNKNOWN for it in inner):
                        known, name = inner, word
                found.setdefault(name, []).extend((*it, flags) for it in known)
        return found

    def deps(self, module, number):
        """Returns what the names in an item stand for."""
        file = self.file(module)
        if any(re.match(r"(?:pub )?open ", it) for it in file.loose):
            return {"open": [(UNKNOWN, "open")]}
        return self.names_in(file.items[number].words | set(file.operators), file.uses, file.own, module)
