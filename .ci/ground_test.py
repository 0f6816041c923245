"""Small trees on which .ci/grounds.py is tried: what a sum has to notice, and what it leaves out."""
import os
import shutil
import tempfile

import grounds

FILES = {
    "crates.txt": "low:\nhigh: low\n",
    "crates/low/src/lib.rt": """#![tactic(auto)]
pub mod code;
pub use code::{Code as Number, checked};
""",
    "crates/low/src/code.rt": """ghost use Rattle.low.specs.Codes.{is_small};
pub const MOST: u32 = 7;
#[derive(Clone, Copy)]
pub struct Code {
    value: u32,
    fault: Fault,
    ghost small: { is_small value },
}
#[derive(Error)]
pub enum Fault {
    #[error("the first")]
    First(u32),
    #[error("the second")]
    Second,
}
impl Drop for Code {
    fn drop(self) {
    }
}
impl Code {
    pub fn value(&self) -> u32
        ensures { result ≡ self.now.value }
    {
        self.value
    }
    pub fn other(&self) -> u32
        ensures { result ≡ 1 }
    {
        1
    }
}
pub fn checked(code: &Code) -> bool
    ensures { result ≡ is_small code.now.value }
{
    code.value < MOST
}
pub fn unseen() -> u32
    ensures { result ≡ 2 }
{
    2
}
""",
    "crates/low/specs/Lib.antt": "pub mod Codes\npub mod Words\n",
    "crates/low/specs/Codes.antt": """use Rattle.std.specs.Prelude.{ℕ, Bool, nat_lt}
-- the least that is too great
abbrev pub bound : ℕ
bound = 7

abbrev pub is_small : ℕ → Bool
is_small n = nat_lt n bound

abbrev pub is_large : ℕ → Bool
is_large n = nat_lt bound n
""",
    "crates/low/specs/Words.antt": "pub use Rattle.low.specs.Codes.{is_small as small}\n",
    "crates/high/src/lib.rt": """#![tactic(auto)]
ghost use Rattle.low.specs.Words.{small};
use low::{Number, checked};
const LEAST: u32 = 1;
/// A comment.
fn judge(code: &Number) -> bool
    ensures { result ≡ small code.now.value }
{
    checked(code) && code.value() >= LEAST
}
fn beside() -> u32 {
    3
}
""",
    "crates/high/proofs/Lib.antt": "pub mod Facts\n",
    "crates/high/proofs/Facts.antt": """use Rattle.std.proofs.Common.{refl, ◌≡◌}
use Rattle.low.specs.Words.{small}
pub small_is : (n : ℕ) → small n ≡ small n
small_is n = refl

pub idle : ℕ → ℕ
idle n = n
""",
    "crates/high/proofs/judge/Answers.antt": """use Rattle.high.proofs.Facts.{small_is as fact}
use Rattle.high.proofs.judge.Goals as goal

pub returns : goal.returns
returns c = fact c.args
""",
}
EDIT = "file: src/lib.rt\nold: >= LEAST\nnew: > LEAST\n"
CONST = "file: src/lib.rt\nold: u32 = 1;\nnew: u32 = 2;\n"
CALLS = "file: src/lib.rt\nold: >= LEAST\nnew: >= low::code::unseen()\n"
# Changes, each of a file, a text there and another text: those that the sum of EDIT has to notice, and others.
NOTICED = (
    ("crates.txt", "low:\n", "low: hex\n"),
    ("crates/low/src/lib.rt", "Code as Number", "Other as Number"),
    ("crates/low/src/code.rt", "self.now.value }", "1 }"),
    ("crates/low/src/code.rt", "is_small code", "¬ is_small code"),
    ("crates/low/src/code.rt", "value: u32,", "value: u64,"),
    ("crates/low/src/code.rt", "Clone, Copy", "Clone"),
    ("crates/low/src/code.rt", "small: { is_small value }", "small: { ℕ }"),
    ("crates/low/src/code.rt", "fn drop(self)", "fn drop(self) ensures { 1 ≡ 1 }"),
    ("crates/low/specs/Codes.antt", "bound = 7", "bound = 8"),
    ("crates/low/src/code.rt", "First(u32)", "First(u64)"),
    ("crates/low/specs/Words.antt", "Codes.{is_small", "Others.{is_small"),
    ("crates/low/specs/Words.antt", "{is_small as", "{is_large as"),
    ("crates/high/src/lib.rt", "#![tactic(auto)]", "#![tactic(none)]"),
    ("crates/high/src/lib.rt", "u32 = 1;", "u32 = 0;"),
    ("crates/high/src/lib.rt", "small code", "¬ small code"),
    ("crates/high/src/lib.rt", "low::{Number", "other::{Number"),
    ("crates/high/proofs/Facts.antt", "small_is n = refl", "small_is n = search"),
    ("crates/high/proofs/judge/Answers.antt", "small_is as fact", "idle as fact"),
    ("crates/high/proofs/judge/Answers.antt", "fact c.args", "fact c"),
)
LEFT_OUT = (
    ("crates/low/src/code.rt", "self.value\n", "self.value + 0\n"),
    ("crates/low/src/code.rt", "result ≡ 1 }", "result ≡ 1 + 0 }"),
    ("crates/low/src/code.rt", "result ≡ 2", "2 ≡ result"),
    ("crates/low/specs/Codes.antt", "-- the least", "-- what is the least"),
    ("crates/high/src/lib.rt", "/// A comment.\n", "// Another\n\n"),
    ("crates/high/src/lib.rt", "    3\n", "    4\n"),
    ("crates/high/proofs/Facts.antt", "idle n = n", "idle n = 0"),
)


def sums(room):
    one = grounds.Grounds(room)
    return [one.ground("high", it) for it in (EDIT, CONST, CALLS)]


def after(room, change):
    """Returns the sums after a change, which it takes back."""
    file, old, new = change
    text = FILES[file]
    assert text.count(old) == 1, change
    with open(f"{room}/{file}", "w", encoding="utf-8") as it:
        it.write(text.replace(old, new))
    found = sums(room)
    with open(f"{room}/{file}", "w", encoding="utf-8") as it:
        it.write(text)
    return found


def self_test():
    """Tries the sums of three edits: of a body, of a private constant, and one that calls what the body does not."""
    room = tempfile.mkdtemp(prefix="grounds-")
    try:
        for file, text in FILES.items():
            os.makedirs(os.path.dirname(f"{room}/{file}"), exist_ok=True)
            with open(f"{room}/{file}", "w", encoding="utf-8") as it:
                it.write(text)
        base = sums(room)
        assert len(set(base)) == 3 and grounds.Grounds(room).whole("high") not in base, base
        for change in NOTICED:
            assert after(room, change)[0] != base[0], f"a sum does not notice {change}"
        for change in LEFT_OUT:
            assert after(room, change)[0] == base[0], f"a sum rests on {change}"
        beside = after(room, LEFT_OUT[5])
        assert beside[1] != base[1], "the sum of a constant does not rest on all of its file"
        unseen = after(room, LEFT_OUT[2])
        assert unseen[2] != base[2], "a sum does not rest on what the new text calls"
    finally:
        shutil.rmtree(room)
