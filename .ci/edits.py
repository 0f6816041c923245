"""What .ci/wrong-bodies reads: edits, the functions of a file, and what a check prints."""
import os
import re
from collections import namedtuple

PARTS = ("src", "specs", "proofs")
REFUSED, LIMIT, MISSED, BAD, PROOF = "refused", "limit", "not refused", "bad", "proof file only"

# A function of a file: its name after the module's, as a check prints it ('*' stands for the parameters of a trait),
# and the lines of the whole and of its body, counted from 0, end excluded.
Function = namedtuple("Function", "name first body end")
# What an edit touches: functions, the functions of files in which it changes a private constant, and whether it must
# be tried alone.
Reach = namedtuple("Reach", "functions users alone")


class Unusable(Exception):
    """Why an edit does not apply."""


def pairs_of(text):
    """Returns an edit's (file, old, new), in the form that rt reads."""
    file, old, found = "", None, []
    for line in text.split("\n"):
        if line.startswith("file: "):
            file = line[len("file: ") :].strip()
            if os.path.normpath(file) != file or not file.startswith(tuple(f"{it}/" for it in PARTS)):
                raise Unusable("a 'file:' line names no file below src/, specs/ or proofs/")
        elif line.startswith("old: "):
            if old is not None:
                raise Unusable("an 'old:' line has no 'new:' line")
            old = line[len("old: ") :]
        elif line.startswith("new:"):
            if not file or not old:
                raise Unusable("a 'new:' line stands before any 'file:' or 'old:' line")
            found.append((file, old, re.sub(r"\A ", "", line[len("new:") :])))
            old = None
    if not found or old is not None:
        raise Unusable("it has no 'old:' and 'new:' pair" if not found else "an 'old:' line has no 'new:' line")
    return found


IMPL = re.compile(r"impl\b(?:<.*?>(?= ))? *(?:(\S.*?) for )?(\w[\w:]*)")
FN = re.compile(r'( *)(?:pub(?:\([^)]*\))? )?(?:const |unsafe |extern "C" )*fn (\w+)')


def owner_of(line):
    """Returns how a check names the impl that a line begins: by its type, its trait and the trait's first parameter."""
    role = re.match(r"impl (\w+)<(\w+)> \{", line)
    if role:
        # (own methods of a generic type at one type)
        return f"{role[1]}+{role[2]}"
    trait, type = IMPL.match(line).groups()
    bare = re.sub(r"<.*", "", trait or "").split("::")[-1]
    given = re.search(r"<(\w[\w:]*)", trait or "")
    words = given[1].split("::") if given else []
    return "".join([type, bare, *(it[:1].upper() + it[1:] for it in words), "*" * bool(trait)])


def functions_of(text):
    """Returns the functions of a file that rt fmt has laid out: a body begins and ends at a brace, each on a line with
    the indent of its function's first line."""
    lines, found, owner, at = text.split("\n"), [], "", 0
    while at < len(lines):
        head = FN.match(lines[at])
        if IMPL.match(lines[at]):
            owner = owner_of(lines[at])
        elif lines[at].startswith("}"):
            owner = ""
        at += 1
        if not head:
            continue
        indent, first = head[1], at - 1
        # The line with the brace has this indent alone; so has the end of a list of parameters, and `where`. Any other
        # such line is of the next item: a trait's function may have no body.
        shallow = re.compile(rf"(?! {{{len(indent) + 1}}})(?! *(\)[^{{]*|where)$)\s*\S")
        opens = re.compile(rf"{indent}\S.*[{{}}]$|{indent}\{{\}}?$")
        ends = first
        if not opens.match(lines[first]):
            ends = next((it for it in range(at, len(lines)) if shallow.match(lines[it])), len(lines))
        if ends == len(lines) or not opens.match(lines[ends]) or ends > first and FN.match(lines[ends]):
            found.append(Function(head[2], first, ends, ends))
            continue
        at = body = ends + 1
        if not lines[ends].endswith("}"):
            at = next((it + 1 for it in range(body, len(lines)) if lines[it] == f"{indent}}}"), len(lines))
        found.append(Function("::".join(it for it in (owner if indent else "", head[2]) if it), first, body, at))
    return found


def without_comments(text):
    """Returns the text of a file of a crate without blank lines and lines that are comments."""
    return "\n".join(it for it in text.split("\n") if it.strip() and not it.lstrip().startswith(("//", "--")))


def bare(path, text):
    """Returns what counts of a file of a crate: no comments, and of a file of code no layout."""
    text = without_comments(text)
    return " ".join(text.split()) if path.endswith(".rt") else text


OWNER = re.compile(r"(?:pub(?:\([^)]*\))? )?(?:unsafe )?(impl|trait)\b")


def is_called_unnamed(lines, function):
    """Returns whether no caller need name a function: one of a trait, or of an impl of one, and one that may make the
    value of a constant."""
    if "const fn " in lines[function.first]:
        return True
    owners = (at for at in range(function.first - 1, -1, -1) if OWNER.match(lines[at]))
    at = next(owners, None) if lines[function.first].startswith(" ") else None
    if at is None:
        return False
    # The head of an impl may take several lines.
    ends = next((it for it in range(at, function.first) if lines[it].rstrip().endswith("{")), function.first)
    return OWNER.match(lines[at])[1] == "trait" or " for " in " ".join(lines[at : ends + 1])


def without_bodies(text, named=None):
    """Returns the text of a file of src/ without comments, layout and the bodies of functions; where names are given
    also without the functions of other names, but for those that are called without being named."""
    lines = text.split("\n")
    for it in reversed(functions_of(text)):
        is_called = named is None or it.name.split("::")[-1] in named or is_called_unnamed(lines, it)
        del lines[it.body if is_called else it.first : it.end]
    return bare("src/.rt", "\n".join(lines))


def module_of(crate, file):
    """Returns the module of a file of src/, as a check prints it."""
    inner = re.sub(r"\.rt$", "", file[len("src/") :]).split("/")
    return "::".join([crate, *(inner[:-1] if inner[-1] in ("lib", "main", "mod") else inner)])


def place_of(file, text, old):
    """Returns the function whose body holds a text, "" where that is in a private constant, or None elsewhere."""
    row, lines = text[: text.index(old)].count("\n"), text.split("\n")
    holder = next((it for it in functions_of(text) if it.first <= row < it.end), None)
    if not file.startswith("src/") or holder and row < holder.body:
        return None
    item = next((it for it in reversed(lines[: row + 1]) if re.match(r"\w", it)), "")
    return holder.name if holder else "" if re.match(r"(const|static) ", item) else None


def apply(crate, pairs, texts, read):
    """Applies pairs to texts, by file, which it reads where they are not there yet. Returns what they touch."""
    functions, users, places = set(), set(), []
    for file, old, new in pairs:
        text = texts[file] if file in texts else read(file)
        if text.count(old) != 1:
            raise Unusable(f"an 'old:' text is in {file} {text.count(old)} times, and not once")
        places.append(place_of(file, text, old))
        if places[-1]:
            functions.add(f"{module_of(crate, file)}::{places[-1]}")
        elif places[-1] == "":
            users |= {f"{module_of(crate, file)}::{it.name}" for it in functions_of(text)}
        texts[file] = text.replace(old, new)
    if all(old == new for _, old, new in pairs):
        raise Unusable("it changes nothing")
    return Reach(functions, users, None in places)


NAMES = re.compile(r"has no field|is not in scope|has no `|was not admitted")
UNREAD = re.compile(r"is not in scope|has no field|is no name|operand is missing|expected the end|cannot continue")
LIMITS = re.compile(
    r"antt ran out of (stack|the (steps|memory) that)|(outgrew the memory|stopped at the step) limit \("
)
ERROR = re.compile(r"(?:\./)?(\S+?):\d+:\d+: error: (?:(`[^`]*`): )?(.*)")


def statuses(output):
    """Returns what a check prints of each function."""
    return dict(re.findall(r"^fn (\S+): (.*)$", output, re.M))


def named(output, name):
    """Returns the functions that a check prints that are this one or its closures. A method's module is its type's."""
    told, crate = statuses(output), name.partition("::")[0]
    pattern = re.escape(name).replace(r"\*", r"\w*")
    method = re.search(r"(?<=::)[A-Z].*", pattern)
    own = [it for it in told if re.fullmatch(pattern, it)]
    if method and not own:
        own = [it for it in told if re.fullmatch(rf"{crate}::([a-z_]\w*::)*{method[0]}", it)]
    inner = tuple(re.sub(r"::((?:[A-Z]\w*::)?\w+)\Z", r"::fn::\1::", it) for it in own)
    return own + [it for it in told if it.startswith(inner)]


def said_of(output, names):
    """Returns True where the own proof of one of these functions failed, False where all are proved, or else None: then
    one is not proved, and may be but for those that it calls."""
    told = {it: how for it, how in statuses(output).items() for name in names if it in named(output, name)}
    if told and all(how.startswith(("proved", "assumed")) for how in told.values()):
        return False
    lines = [it for it in output.split("\n") if not NAMES.search(it) and not LIMITS.search(it)]
    errors = [it for it in map(ERROR.match, lines) if it]
    for printed, how in told.items():
        folder = "/".join(["proofs", *printed.split("::")[1:], ""])
        is_own = how.startswith("not proved") and any(it[1].startswith(folder) for it in errors)
        if is_own or how.startswith("no proof: expected answers"):
            return True
    return None


def calls_in(output):
    """Returns, for each function that a check says is not proved since some that it calls are not, those."""
    found = {name: re.findall(r"`(\S+?)`", how.partition("it calls ")[2]) for name, how in statuses(output).items()}
    return {name: set(called) for name, called in found.items() if called}


def is_unread(line, files):
    """Returns whether a line says that an edited text, or one of src/ or specs/, cannot be read."""
    at = ERROR.match(line)
    is_own = at and (at[1] in files or at[1].startswith(("src/", "specs/")))
    return bool(is_own and (not at[2] or UNREAD.search(re.sub(r"`[^`]*`", "", at[3]))))


def verdict_alone(status, output, files):
    """Returns the verdict of a check of one edit of these files, or None, and a line that says why."""
    lines = output.rstrip("\n").split("\n")
    if status == 0:
        return MISSED, "the crate is still proved with it"
    unread = next((it for it in lines if is_unread(it, files)), "")
    compiler = next((it for it in lines if re.search(r"\berror\[[\w-]+\]", it)), "")
    limit = next((it for it in lines if LIMITS.search(it)), "")
    is_judged = any(it.startswith("logic=not-proved") for it in lines)
    if status == 1 and (unread or compiler and not is_judged):
        return BAD, unread or compiler
    if status == 1 and is_judged:
        told = [it for it in lines if ERROR.match(it) or re.match(r"note: \S+:\d+:\d+:", it)]
        first = next((it for it in told if not (re.match(r"(note: )?(\./)?proofs/", it) and NAMES.search(it))), "")
        return (PROOF, told[0]) if told and not first else (REFUSED, first)
    if status == 3 and limit:
        return LIMIT, limit
    return None, f"its check ended with status {status}: {lines[-1]}"


SOURCE = """//! A file.
const MOST: usize = 7;
pub struct Gate {
    value: u32,
}
impl Gate {
    /// A comment.
    pub fn take(&mut self, octets: u32) -> bool
        ensures { result ≡ true }
    {
        if octets > 0 {
            self.value -= 1;
        }
        true
    }
}
impl<W: Write> From<io::Fault<W>> for Gate {
    fn from(
        fault: Fault<W>,
    ) -> Gate {
        Gate { value: 4 }
    }
}
pub(crate) fn law()
    ensures { MOST ≡ 7 }
{}
fn last() -> u32 {
    9
}
"""
OUTPUT = """./proofs/gate/Gate/from/Answers.antt:7:1: error: `returns`: the two types differ
./proofs/gate/last/Answers.antt:7:1: error: `returns`: `x` is not in scope
fn c::gate::Gate::take: no proof: expected answers in ./proofs/gate/Gate/take/Answers.antt; `search` did not prove
fn c::gate::GateFromIoFault::from: not proved; it calls `c::gate::Gate::take`, which is not proved
fn c::gate::fn::last::map: proved
fn c::gate::last: not proved
fn c::law: proved
logic=not-proved
rt: a line
"""


def self_test():
    """Tries what stands above on small texts."""
    found = functions_of(SOURCE)
    assert [it.name for it in found] == ["Gate::take", "GateFromIoFault*::from", "law", "last"], found
    assert without_comments("-- a\n\nb -- c\n  // d\n  /// e\nf\n") == "b -- c\nf"
    assert bare("src/a.rt", "a {\n    b,\n}") == bare("src/a.rt", "a { b,\n}\n// c") == "a { b, }"
    promised = without_bodies(SOURCE)
    assert "self.value -= 1" not in promised and "A comment" not in promised and "Gate { value: 4 }" not in promised
    assert "ensures { result" in promised and "MOST ≡ 7" in promised and "value: u32" in promised
    # Of functions that are not named those of traits stay, whose impl may begin on several lines, and of constants.
    promised = without_bodies(SOURCE, {"law"})
    assert "MOST ≡ 7" in promised and "fault: Fault<W>" in promised and "value: u32" in promised
    assert "ensures { result" not in promised and "fn take" not in promised and "fn last" not in promised
    split = "impl<T: Read>\n    Iterator for Gate\n{\n    fn next(&mut self) {\n    }\n}\n"
    split += "const fn seven() -> u32 {\n    7\n}\n"
    assert "fn next" in without_bodies(split, set()) and "fn seven" in without_bodies(split, set())
    pairs = pairs_of("# text\nfile: src/gate.rt\nold: > 0\nnew: > 1\nold: = 7;\nnew:  8;\n")
    assert pairs == [("src/gate.rt", "> 0", "> 1"), ("src/gate.rt", "= 7;", " 8;")]
    texts = {}
    reach = apply("c", pairs, texts, lambda file: SOURCE)
    every = {f"c::gate::{it}" for it in ("Gate::take", "GateFromIoFault*::from", "law", "last")}
    assert reach == Reach({"c::gate::Gate::take"}, every, False), reach
    assert "octets > 1 {" in texts["src/gate.rt"] and "usize  8;" in texts["src/gate.rt"]
    for old, is_alone in (("value: u32", True), ("result", True), ("    9", False), ("value: 4", False)):
        assert apply("c", [("src/gate.rt", old, "x")], {}, lambda file: SOURCE).alone == is_alone, old
    head = "file: src/a.rt\nold: a\n"
    malformed = ("new: b\nnew: c\n", "old: b\nnew: c\n", "new: b\nold: c\n", "")
    for text in (*(head + it for it in malformed), "old: a\nnew: b\n", "file: a.rt\nold: a\nnew: b\n"):
        try:
            pairs_of(text)
            raise AssertionError(text)
        except Unusable:
            pass
    self_test_of_checks()


def self_test_of_checks():
    """Tries what reads the output of a check."""
    one = lambda name: said_of(OUTPUT, [name])
    assert one("c::gate::Gate::take") is True and one("c::law") is False
    # Its own error counts, in its own folder alone; one that names what is gone does not.
    assert one("c::gate::GateFromIoFault*::from") is None and one("c::gate::last") is None
    own = OUTPUT.replace("Gate/from", "GateFromIoFault/from")
    assert said_of(own, ["c::gate::GateFromIoFault*::from"]) is True
    assert named(OUTPUT, "c::gate::last") == ["c::gate::last", "c::gate::fn::last::map"]
    assert named(OUTPUT, "c::other::Gate::take") == ["c::gate::Gate::take"] and not named(OUTPUT, "c::other::last")
    assert calls_in(OUTPUT) == {"c::gate::GateFromIoFault::from": {"c::gate::Gate::take"}}
    assert module_of("c", "src/a/b.rt") == "c::a::b" and module_of("c", "src/lib.rt") == "c"
    assert verdict_alone(0, "", {})[0] == MISSED and verdict_alone(1, OUTPUT, {})[0] == REFUSED
    names = "./proofs/a.antt:1:1: error: `a`: `x` is not in scope\nlogic=not-proved\n"
    assert verdict_alone(1, names, {})[0] == PROOF and verdict_alone(1, names.replace("./proofs", "src"), {})[0] == BAD
    assert verdict_alone(1, "error[E0308]: no\n", {})[0] == BAD and verdict_alone(137, "", {})[0] is None
    assert verdict_alone(3, "a.antt:1:1: error: antt ran out of stack\n", {})[0] == LIMIT
