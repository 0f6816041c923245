"""What a verdict on a wrong body rests on: a sum of the function that the edit changes and of all that its proof reads.

A sum has the function with its contract, attributes and body, the `use` lines of its file, its proof files, and from
there on, to the end: types with their fields, impls and ghost members; what is called, by its signature and contract;
constants and macros; lemmas, rulesets and definitions with their bodies. Names are resolved by the `use` lines of their
file, and where that leaves a choice all are taken. Where a name cannot be resolved, or an edit changes more than bodies
of functions and private constants, the sum has the whole crate and all promises and definitions below it.
"""
import hashlib
import os
import re

import edits
import ground_antt
import ground_code
from ground_antt import CODE, ITEM, KIT, MODULE, UNKNOWN

TYPES = ("struct", "enum", "union", "type")


def sum_of(texts):
    sums = hashlib.sha256()
    for text in texts:
        sums.update(f"{len(text.encode())} {text}".encode())
    return sums.hexdigest()[:16]


def rows_of(root):
    """Returns the rows of crates.txt, by the crate's name."""
    with open(f"{root}/crates.txt", encoding="utf-8") as it:
        found = [" ".join(row.partition("#")[0].split()) for row in it]
    return {re.match(r"\w+", row)[0]: row for row in found if row}


class Scope:
    """What a crate sees: itself and the crates below it, with their parts by name."""

    def __init__(self, code, crates, rows):
        self.inside, self.row = set(crates), [rows[it] for it in crates]
        self.crates, self.names, self.functions, self.given, self.traits = crates, {}, {}, {}, {}
        for file in (it for crate in crates for it in code.files[crate]):
            for alias, paths in file.given.items():
                self.given.setdefault(alias, []).extend(f"{file.crate} {file.file} {it}" for it in paths)
            for part in file.parts:
                self.add(part)

    def add(self, part):
        for name in part.consts:
            self.names.setdefault(name, []).append(part)
        if part.kind == "fn" and not part.owner:
            self.functions.setdefault(part.name, []).append(part)
        elif part.kind not in ("fn", "impl"):
            self.names.setdefault(part.name, []).append(part)
        for name in part.members if part.kind == "trait" else ():
            self.traits.setdefault(name, []).append(part)


# The text that an error prints: no contract has it but by a definition that repeats it.
ERROR_TEXT = re.compile(r'#\[error\("(?:\\.|[^"\\])*"\)\]')


def said(name, known):
    """Returns what a name stands for: of an item its module, since its text is summed beside it, wherever it stands in
    its file."""
    return f"{name} = {' '.join(map(str, (*known[:2], *known[3:]) if known[0] == ITEM else known))}"


class Grounds:
    """The sums of the edits of a tree. A node is an item of specs/ or proofs/, all of a file of these, what a part of
    src/ promises, or a function with its body."""

    def __init__(self, root):
        self.root, self.rows = root, rows_of(root)
        self.uses = {name: row.partition(":")[2].split() for name, row in self.rows.items()}
        self.antt = ground_antt.Index(root, self.rows)
        self.code = ground_code.Index(root, self.rows)
        self.scopes, self.solved, self.marks, self.bits, self.wholes = {}, {}, [None], {}, {}
        self.by_name, self.by_key, self.methods, self.impls = {}, {}, {}, {}
        for crate, files in self.code.files.items():
            for part in (it for file in files for it in file.parts):
                self.by_name.setdefault((crate, part.name), []).append(part)
                self.by_key.setdefault(part.key, []).append(part)
        for files in self.code.files.values():
            for part in (it for file in files for it in file.parts if it.owner):
                self.attach(part)
        self.folders = {}
        for module in self.antt.texts:
            folder = tuple(it.lstrip("+") for it in module[2:-1] if it != "fn")
            circle = {"+"} if any(it.startswith("+") for it in module) else set()
            for it in {*folder, *circle} if module[1] == "proofs" else ():
                self.folders.setdefault((module[0], it), []).append((module, folder))

    def attach(self, part):
        """Gives types their methods, and types and traits the impls that name them."""
        head = set(ground_code.NAME.findall(part.owner))
        scope, waiting = self.scope(part.file.crate), list(head)
        names = scope.names
        # (an impl may name its type by an alias, that of a `use` line or of an alias too)
        while waiting:
            name = waiting.pop()
            paths = [*part.file.uses.get(name, ()), *(it.split(" ")[-1] for it in scope.given.get(name, ()))]
            paths += [it.text for it in names.get(name, ()) if it.kind == "type"]
            more = {it for path in paths for it in ground_code.NAME.findall(path)} - head
            head |= more
            waiting += more
        for name in head:
            for one in names.get(name, ()):
                if part.kind == "fn":
                    self.methods.setdefault(id(one), {}).setdefault(part.name, []).append(part)
                elif part.kind == "impl" and " for " in part.owner:
                    self.impls.setdefault(id(one), []).append(part)

    def scope(self, crate):
        if crate not in self.scopes:
            found, waiting = {crate}, [crate]
            while waiting:
                more = {it for it in self.uses.get(waiting.pop(), ()) if it in self.rows} - found
                found |= more
                waiting += more
            self.scopes[crate] = Scope(self.code, sorted(found), self.rows)
        return self.scopes[crate]

    # What a node is made of: a text, what its names stand for, the nodes that it names, and whether all are known.

    def node_of(self, known):
        """Returns the nodes that a name stands for."""
        if known[0] in (ITEM, MODULE):
            return [known[:3] if known[0] == ITEM else known[:2]]
        if known[0] == CODE:
            return self.code_of(known[1])
        return [] if known[0] == KIT else [(UNKNOWN,)]

    def code_of(self, path):
        """Returns what a generated module speaks of: types and constants, or a function."""
        crate, rest, found = path[1], path[4:], []
        if path[2] == "specs":
            # (the impl of a derive has the name of its type, and then that of the trait)
            words = set(ground_code.NAME.findall(" ".join(rest)))
            words |= {it[:at] for it in words for at in range(1, len(it)) if it[at].isupper()}
            for name in words:
                parts = self.scope(crate).names.get(name, [])
                if path[3] == "contracts":
                    parts = parts + [it for it in self.by_name.get((crate, name), ()) if it.kind == "fn"]
                found += [("promise", it) for it in parts if it.file.crate == crate and it.kind != "mod"]
            return found or [(UNKNOWN,)]
        for size in range(len(path), 3, -1):
            parts = self.functions_at(crate, path[3:size])
            if parts:
                how = "promise" if path[size : size + 1] == ("Met",) else "body"
                return [(how, it) for it in parts]
        # (such as the laws of a type)
        parts = [it for name in path[3:] for it in self.by_name.get((crate, name), ()) if it.kind in (*TYPES, "trait")]
        return [("promise", it) for it in parts] or [(UNKNOWN,)]

    def functions_at(self, crate, path):
        """Returns the functions whose proofs have this path."""
        path = tuple(it.lstrip("+") for it in path if it != "fn")
        found = []
        for part in self.by_name.get((crate, path[-1]), ()) if path else ():
            if part.kind == "fn" and self.has_path(part, path):
                found.append(part)
        return found

    @staticmethod
    def has_path(part, path):
        """Returns whether a path of proofs is that of a function: by its type, and else by its module."""
        key = part.key.split("::")[1:]
        if part.owner:
            pattern = part.holder or re.escape(key[-2]).replace(r"\*", r"\w*")
            return len(path) > 1 and path[-1] == key[-1] and bool(re.fullmatch(pattern, path[-2]))
        return tuple(key) == path

    def parts_in(self, text, file):
        """Returns the nodes of the code that the names in a text stand for, and what is said of them on the way."""
        scope, names, told = self.scope(file.crate), set(ground_code.NAME.findall(text)) | {"*"}, set()
        # The names that may stand for what another file declares: those after `::`, and those of its `use` lines.
        opened = set(re.findall(r"::\s*(\w+)", text)) | file.uses.keys()
        opened |= {it for inner in re.findall(r"::\s*\{([^}]*)", text) for it in ground_code.NAME.findall(inner)}
        waiting = list(names)
        while waiting:
            name = waiting.pop()
            paths = file.uses.get(name, []) + (scope.given.get(name, []) if name in opened or "*" in file.uses else [])
            told |= {f"{name} = {it}" for it in paths}
            more = {it for path in paths for it in ground_code.NAME.findall(path.split(" ")[-1])}
            # (a name that is opened only now is looked at again)
            waiting += more - (names & opened)
            opened |= more
            names |= more
        found = [("promise", it) for name in names for it in scope.names.get(name, ()) if it.kind != "mod"]
        for name in names & scope.functions.keys():
            is_open = name in opened or "*" in file.uses
            found += [("promise", it) for it in scope.functions[name] if it.file is file or is_open]
        return found, told

    def antt_in(self, text, file, ghosts):
        """Returns what the names of clauses and of tactics in a text of the code stand for."""
        uses = dict(file.ghosts)
        for name, paths in (*ghosts.items(), *ground_code.ghosts_of(text).items()):
            uses[name] = uses.get(name, []) + paths
        words = set(ground_antt.WORD.findall(text)) | {it for it in uses if ground_antt.is_operator(it)}
        found = self.antt.names_in(words, uses, {}, None)
        for lists in re.findall(r"\b(?:using|unfolding)\(([^)]*)\)", text):
            for name in re.findall(r"\w+(?:::\w+)+", lists):
                path = name.split("::")
                path[0] = file.crate if path[0] == "crate" else path[0]
                is_near = path[0] in ("self", "super")
                found[name] = [(UNKNOWN, name)] if is_near else self.antt.path(("Rattle", *path))
        return found

    def content(self, node):
        """Returns a node's text, with what its names stand for, and the nodes that it names."""
        if node[0] == UNKNOWN:
            return "?", []
        if node[0] == MODULE:
            file = self.antt.file(node[1])
            return " ".join(node[1]), [(ITEM, node[1], it) for it in range(len(file.items))]
        if node[0] == ITEM:
            text, found, nodes = self.antt.file(node[1]).items[node[2]].text, self.antt.deps(*node[1:]), []
            told = set()
        else:
            text = self.text_of(*node)
            file = node[1].file
            nodes, told = self.parts_in(text, file)
            found = self.antt_in(text, file, node[1].ghosts)
            nodes += self.proofs_of(node[1]) if node[0] == "body" else []
        for name, those in found.items():
            for known in those:
                told.add(said(name, known))
                nodes += self.node_of(known)
        return "\n".join([text, *sorted(told)]), nodes

    def text_of(self, how, part):
        """Returns the text of a part of the code that counts: its promise, or all of a function and what is around."""
        if how == "promise":
            place = f"{part.file.crate} {part.file.file} {part.key or part.name}"
            return "\n".join([place, part.head if part.kind == "fn" else "", ERROR_TEXT.sub("", part.promise)])
        crate, names = part.file.crate, part.file.module.split("::")[1:]
        mods = [it.text for name in names for it in self.by_name.get((crate, name), ()) if it.kind == "mod"]
        roots = [it.attributes for it in self.code.files[crate] if it.module == crate]
        # (what stands atop the file of a module holds in the files of its inner modules too)
        inner, outer = f"{part.file.module}::", {crate, part.file.module}
        above = [it for it in self.code.files[crate] if it.attributes and it.module not in outer]
        above = [it.attributes for it in above if inner.startswith(f"{it.module}::")]
        lines = [part.file.attributes, *part.file.imports, *roots, *mods, *above]
        return "\n".join([part.key, part.head, part.text, *lines])

    # Sums of nodes with all that they reach, and which types, traits and bodies that is, as bits of a number.

    def bit(self, node):
        if node[0] == UNKNOWN:
            return 1
        part = node[1] if node[0] in ("promise", "body") else None
        is_const = part is not None and part.kind == "fn" and part.is_const
        if part is None or node[0] == "promise" and part.kind in ("fn", "impl", "mod") and not is_const:
            return 0
        if node not in self.bits:
            self.bits[node] = len(self.marks)
            self.marks.append(node)
        return 1 << self.bits[node]

    def solve(self, root):
        """Finds the sum and the bits of a node, and of all that it reaches, by Tarjan's way of finding circles."""
        if root in self.solved:
            return self.solved[root]
        order, low, stack, texts, nexts = {}, {}, [], {}, {}
        work = [(root, iter(()))]
        self.enter(root, order, low, stack, texts, nexts)
        work[0] = (root, iter(nexts[root]))
        while work:
            node, rest = work[-1]
            for other in rest:
                if other in self.solved:
                    continue
                if other not in order:
                    self.enter(other, order, low, stack, texts, nexts)
                    work.append((other, iter(nexts[other])))
                    break
                low[node] = min(low[node], order[other])
            else:
                work.pop()
                if work:
                    low[work[-1][0]] = min(low[work[-1][0]], low[node])
                if low[node] == order[node]:
                    self.close(node, stack, texts, nexts)
        return self.solved[root]

    def enter(self, node, order, low, stack, texts, nexts):
        order[node] = low[node] = len(order)
        stack.append(node)
        texts[node], nodes = self.content(node)
        nexts[node] = list(dict.fromkeys(nodes))

    def close(self, node, stack, texts, nexts):
        circle = set()
        while node not in circle:
            circle.add(stack.pop())
        outer = {it for one in circle for it in nexts[one]} - circle
        bits = 0
        for it in circle:
            bits |= self.bit(it)
        for it in outer:
            bits |= self.solved[it][1]
        sums = sum_of([*sorted(texts[it] for it in circle), *sorted({self.solved[it][0] for it in outer})])
        for it in circle:
            self.solved[it] = (sums, bits)

    def gathered(self, roots, crate, words, told):
        """Returns the sum of nodes with all that they reach: of the types among it all impls, and the methods whose
        names stand in a body or among the words; of the traits those that have such a method. It is None where a name
        is not known."""
        scope, nodes, waiting, bits, done, words = self.scope(crate), {}, list(roots), 0, 0, set(words)
        waiting += [("promise", it) for name in words for it in scope.traits.get(name, ())]
        while waiting:
            for node in waiting:
                if node not in nodes:
                    nodes[node], more = self.solve(node)
                    bits |= more
            fresh, done = self.marked(bits & ~done), bits
            waiting = [it for it in dict.fromkeys(self.reached(fresh, done, scope, words)) if it not in nodes]
        return None if bits & 1 else sum_of([*scope.row, *sorted(told), *sorted(set(nodes.values()))])

    def marked(self, bits):
        return [self.marks[at] for at, bit in enumerate(reversed(f"{bits:b}")) if bit == "1" and at]

    def reached(self, fresh, done, scope, words):
        """Yields what types, traits and bodies bring that were reached just now, and adds the words of these bodies."""
        new = set()
        for how, part in fresh:
            # (of a function that is no constant only the body has a bit)
            if how == "body" or part.kind in ("fn", "const", "static", "macro_rules!", "several"):
                new |= set(ground_code.NAME.findall(part.text)) - words
        words |= new
        found = [it for name in new for it in scope.traits.get(name, ())]
        for how, part in self.marked(done) if new else fresh:
            methods = self.methods.get(id(part), {}) if how == "promise" else {}
            found += [it for name in methods.keys() & words for it in methods[name]]
        found += [it for _, part in fresh for it in self.impls.get(id(part), ())]
        return [("promise", it) for it in found if it.file.crate in scope.inside]

    def whole(self, crate):
        """Returns a sum of a crate with all that is promised and defined below it, proofs included."""
        if crate not in self.wholes:
            texts = list(self.scope(crate).row)
            for file in (it for name in self.scope(crate).crates for it in self.code.files[name]):
                is_own = file.crate == crate
                texts += [file.crate, file.file, file.rest, *file.imports]
                texts += [it.text if is_own else it.promise for it in file.parts]
            for module, text in sorted(self.antt.texts.items()):
                if module[0] in self.scope(crate).crates:
                    texts += [" ".join(module), ground_antt.bare(text)]
            self.wholes[crate] = sum_of(texts)
        return self.wholes[crate]

    def read(self, crate, file):
        path = f"{self.root}/crates/{crate}/{file}"
        if not os.path.isfile(path):
            raise edits.Unusable(f"there is no file {file}")
        with open(path, encoding="utf-8") as it:
            return it.read()

    def touched(self, crate, pairs):
        """Returns the functions whose proofs an edit may break: those that it changes, and, where it changes a private
        constant, all of its file and all that name it, also by another constant, a type or a macro. It is None where
        the edit changes anything else."""
        reach = edits.apply(crate, pairs, {}, lambda file: self.read(crate, file))
        if reach.alone:
            return None
        found = [it for name in reach.functions | reach.users for it in self.by_key.get(name, ())]
        if {it.key for it in found} != reach.functions | reach.users:
            return None
        names, texts, parts = set(), {}, [it for file in self.code.files[crate] for it in file.parts]
        for file, old, new in pairs if reach.users else ():
            text = texts[file] if file in texts else self.read(crate, file)
            texts[file] = text.replace(old, new)
            # (the edit may begin with the constant's line)
            before = text.split("\n")[: text[: text.index(old)].count("\n") + 1]
            item = next((it for it in reversed(before) if re.match(r"\w", it)), "")
            names |= set(re.findall(r"^(?:const|static) (\w+)", item))
        while names:
            users = [it for it in parts if names & set(ground_code.NAME.findall(it.text))]
            more = {it.name for it in users if it.kind not in ("fn", "impl", "mod")} - names
            if not more:
                return [*found, *(it for it in users if it.kind == "fn")]
            names |= more
        return found

    def proofs_of(self, part):
        """Returns a function's proof files, and those of its closures, and of all circles of calls of its crate."""
        crate, found = part.file.crate, []
        for module, folder in {it for name in (part.name, "+") for it in self.folders.get((crate, name), ())}:
            is_own = any(self.has_path(part, folder[:size]) for size in range(1, len(folder) + 1))
            if is_own or any(it.startswith("+") for it in module):
                found.append((MODULE, module))
        return sorted(found)

    def added(self, crate, pairs):
        """Returns the nodes, the words and the paths that the new texts of an edit name."""
        nodes, words, told, texts = [], set(), set(), {}
        edits.apply(crate, pairs, texts, lambda file: self.read(crate, file))
        files = {it.file: it for it in self.code.files[crate]}
        for file, text in texts.items():
            known = {it.text for it in files[file].parts}
            # (whole parts, since a new text may be a part of a name or of a path)
            for part in ground_code.File(crate, file, ground_code.without_blocks(text)).parts:
                if part.text in known or part.kind in ("impl", "trait"):
                    continue
                more, paths = self.parts_in(part.text, files[file])
                found = self.antt_in(part.text, files[file], part.ghosts)
                told |= paths | {said(name, it) for name, those in found.items() for it in those} | {part.text}
                nodes += more + [node for those in found.values() for it in those for node in self.node_of(it)]
                words |= set(ground_code.NAME.findall(part.text))
        return nodes, words, told

    def ground(self, crate, text):
        """Returns the sum of what a verdict on an edit of a crate rests on."""
        try:
            pairs = edits.pairs_of(text)
            parts = self.touched(crate, pairs)
        except edits.Unusable:
            parts = None
        if not parts:
            return self.whole(crate)
        nodes, words, told = self.added(crate, pairs)
        roots = [*(("body", part) for part in parts), *nodes]
        return self.gathered(roots, crate, words, told) or self.whole(crate)
