#!/usr/bin/env python3
"""tools/edits: which functions an edit changes, what a round says of it, which crates are due; and, by the toolchain itself over a
repository of two small crates, what is refused, what is not, and when a stamp is written."""
import glob
import os
import shutil
import subprocess
import sys
import tempfile

import counting

ROOT = os.path.dirname(os.path.dirname(os.path.abspath(__file__)))
SCRATCH = tempfile.TemporaryDirectory()
sys.path.insert(0, f"{ROOT}/tools")
sys.dont_write_bytecode = True
import edit_rounds as rounds

LOW = """//! Sums.
#![tactic(auto)]

ghost use Rattle.std.specs.Prelude.{◌≡◌, ◌<◌, ◌+◌};

const STEP: u64 = 1;

/// One more.
pub fn next(a: u64) -> u64
    requires { a < 100 }
    ensures { result ≡ a + 1 }
{
    a + STEP
}

/// Two more.
pub fn second(a: u64) -> u64
    requires { a < 99 }
    ensures { result ≡ a + 2 }
{
    next(next(a))
}
"""
HIGH = """//! Sums of sums.
#![tactic(auto)]

ghost use Rattle.std.specs.Prelude.{◌≡◌, ◌<◌, ◌+◌};

use low::second;

/// Four more.
pub fn fourth(a: u64) -> u64
    requires { a < 97 }
    ensures { result ≡ a + 4 }
{
    second(second(a))
}
"""
FILES = {
    "crates.txt": "# crates\nlow:\nhigh: low # the upper one\n",
    "HANDLES": "Handles allowed: none.\n",
    "crates/low/src/lib.rt": LOW,
    "crates/high/src/lib.rt": HIGH,
    "crates/low/must-fail/no_step.edit": "file: src/lib.rt\nold: a + STEP\nnew: a\n",
    "tests/edits/low/second_is_next.edit": "file: src/lib.rt\nold: next(next(a))\nnew: next(a)\n",
    "tests/edits/low/second_is_first.edit": "file: src/lib.rt\nold: next(next(a))\nnew: a\n",
    "tests/edits/low/step_of_two.edit": "file: src/lib.rt\nold: STEP: u64 = 1\nnew: STEP: u64 = 2\n",
    "tests/edits/high/fourth_is_second.edit": "file: src/lib.rt\nold: second(second(a))\nnew: second(a)\n",
}
PARTS = """pub struct Line<'a> {
    rest: &'a [u8],
}

impl<'a> Line<'a> {
    /// Takes one.
    pub fn take(&mut self) -> u8
        ensures { result ≡ 1 }
    {
        fn inner() -> u8 {
            1
        }
        inner()
    }

    fn none(&self) {}
}

impl<'a, R: Read<u8>> Source<u8> for &'a [R] {
    fn give(&self) -> u8 {
        2
    }
}

impl Drop for Line<'_> {
    fn drop(&mut self) {
        self.rest = &[];
    }
}

impl<
    'a,
    R: Read<u8>,
    W: Write,
    D: Doors<R, W>,
    P: Plans,
    X: Wait,
> Machine for Caller<'a, R, W> {
    fn serve(&mut self) {
        self.told = 3;
    }
}

trait Opens {
    fn opens(&self) -> bool
        ensures { result ≡ true };
}
"""
SAID = """fn a::one::first: proved
note: src/one.rt:3:1: it is not proved that ..
fn a::one::second: no proof: expected answers in ./proofs/one/second/Answers.antt; `search` did not prove `returns`; it calls `a::one::third`, which is not proved
fn a::one::fn::third::map: no proof: `search` did not prove `x`
fn a::one::Row::fourth: not proved; it calls `a::one::fn::third::map`, which is not proved
./proofs/one/Row/fifth/Answers.antt:7:75: error: `returns`: the two types differ
fn a::one::Row::fifth: not proved
./proofs/one/sixth/Answers.antt:7:75: error: `returns`: module `m` has no field `x`
fn a::one::sixth: not proved
only=6 proved=1
"""


def write(path, text, mode=0o644):
    os.makedirs(os.path.dirname(path), exist_ok=True)
    with open(path, "w", encoding="utf-8") as it:
        it.write(text)
    os.chmod(path, mode)


def repository(name, changes=()):
    """A repository of two crates with the tool, and these files changed or (None) left out."""
    top = f"{SCRATCH.name}/{name}"
    for path, text in {**FILES, **dict(changes)}.items():
        if text is not None:
            write(f"{top}/{path}", text)
    for tool in ("edits", "edit_rounds.py", "lanes.py"):
        os.makedirs(f"{top}/tools", exist_ok=True)
        shutil.copy(f"{ROOT}/tools/{tool}", f"{top}/tools/{tool}")
    return top


def edits(top, *words):
    ran = subprocess.run([f"{top}/tools/edits", *words], capture_output=True, text=True, check=False)
    return ran.returncode, ran.stdout.splitlines()


def stamps(top):
    return {os.path.basename(os.path.dirname(it)): open(it, encoding="utf-8").read().split() for it in glob.glob(f"{top}/tests/edits/*/STAMP")}


def of(text, old, new, file="src/one.rt"):
    """The edit that puts one text for another in a file."""
    assert text.count(old) == 1
    return rounds.Edit.of("a", f"{old}.edit", {file: (text, text.replace(old, new))}, {"Line": ["two"]})


# Without the toolchain


def test_parts_of_a_file():
    parts = rounds.pieces(PARTS)
    assert "\n".join(it.text for it in parts) == PARTS
    names = ["Line::take", "Line::none", "RefSliceSource::give", "Line::drop", "CallerMachine::serve", "Opens::opens"]
    assert [it.name for it in parts if it.name] == [it.replace("SliceSource", "SliceSourceU8") for it in names], [it.name for it in parts]
    shown = rounds.shown(PARTS)
    assert "inner" not in shown and "self.rest" not in shown and "self.told" not in shown and "ensures { result ≡ true };" in shown
    assert [it for it in ("fn take", "fn none", "fn give", "fn drop", "fn serve", "fn opens") if it in shown] == ["fn take", "fn give", "fn drop", "fn serve", "fn opens"]


def test_functions_that_an_edit_changes():
    assert of(PARTS, "        inner()", "        2").functions == ("a::two::Line::take",)
    assert of(PARTS, "        2\n", "        3\n").functions == ("a::one::RefSliceSourceU8::give",)
    assert of(PARTS, "self.rest = &[]", "return").functions == ("a::two::Line::drop",)
    assert of(PARTS, "rest: &'a [u8],", "rest: &'a [u16],").functions == ()
    assert of(LOW, "a + STEP", "a", "src/lib.rt").functions == ("a::next",)


def test_lines_of_comment_count_nowhere():
    bare = 'let a = "// y";\nlet b = 1; // one\n  pub clock : ℕ'
    said = '//! A file. \n\n/// An item.\nlet a = "// y";\n  // why {\nlet b = 1; // one\n\n-- of a clock;\n  pub clock : ℕ\n'
    assert rounds.without_comments(said) == bare == rounds.without_comments(bare)


def test_edits_of_one_round():
    take, give = of(PARTS, "        inner()", "        2"), of(PARTS, "        2\n", "        3\n")
    again = of(PARTS, "            1\n", "            0\n")
    assert rounds.chosen([take, give, again]) == [take, give]
    text = rounds.merged([take, give])["src/one.rt"]
    assert text == PARTS.replace("        2\n", "        3\n").replace("        inner()", "        2")


def test_what_a_round_says():
    told = rounds.told_by("a", SAID)
    refusal = lambda name: rounds.refusal(rounds.Edit("", (), (name,)), told)
    assert rounds.came_to_an_end(SAID) and not rounds.came_to_an_end("error: no such name\n")
    assert refusal("a::one::first") is None
    assert refusal("a::one::Row::fourth") is None    # its own goals hold
    assert refusal("a::one::second") == "`search` did not prove `returns`"
    assert refusal("a::one::third") == "`search` did not prove `x`"
    assert refusal("a::one::Row::fifth") == "`returns`: the two types differ"
    assert refusal("a::one::sixth").startswith("(only because its proof names what the edit took away")
    every = [rounds.Edit("", (), (name,)) for name in ("a::one::second", "a::one::third", "a::one::Row::fifth", "a::one::sixth")]
    assert rounds.is_sound(every, told) and not rounds.is_sound(every[1:], told)


def test_uses():
    uses = rounds.uses_of("# a: b\nlow: std\nhigh may_wait=3: low std # low: no\ntop: high\n")
    assert uses == {"low": ["std"], "high": ["low", "std"], "top": ["high"]} and rounds.below(uses, "top") == ["high", "low"]


def test_words_that_are_not_taken():
    top = repository("words")
    assert edits(top)[0] == 2 and edits(top, "middle")[0] == 2 and edits(top, "--all", "low")[0] == 2


# By the toolchain


def test_all_are_refused_and_stamped():
    top = repository("refused")
    assert edits(top, "--list") == (0, ["stamps missing or old: low high", "besides: none"])
    status, said = edits(top, "--all")
    assert (status, said[-1]) == (0, "5 passed, 0 failed"), said
    assert len([it for it in said if ": refused" in it]) == 5, said
    assert {name: words[2:4] for name, words in stamps(top).items()} == {"low": ["refused", "4"], "high": ["refused", "1"]}
    status, said = edits(top, "--list")
    assert said[0] == "stamps missing or old: none" and said[1] in ("besides: low", "besides: high"), said
    due = lambda: edits(top, "--list")[1][0].partition(": ")[2]
    for path, old, new, wanted in (
        ("crates/low/src/lib.rt", "/// One more.", "/// A comment.", "none"),
        ("crates/low/src/lib.rt", "//! Sums.", "//! Sums of numbers.\n//!\n//! They are small.", "none"),
        ("crates/low/src/lib.rt", "    a + STEP\n", "    // the step\n\n    a + STEP\n", "none"),
        ("crates/low/src/lib.rt", "    requires { a < 99 }", "    // (so that it fits)\n    requires { a < 99 }", "none"),
        ("crates/high/src/lib.rt", "/// Four more.", "/// Four.\n///\n/// More {", "none"),
        ("crates/low/src/lib.rt", "a + STEP", "STEP + a", "low"),
        ("crates/low/src/lib.rt", "/// Two more.", "fn half(a: u64) -> u64 {\n    a / 2\n}\n\n/// Two more.", "low"),
        ("crates/low/src/lib.rt", "a < 99", "a < 98", "low high"),
        ("crates/high/src/lib.rt", "second(second(a))", "second(second(a)) + 0", "high"),
        ("tests/edits/high/fourth_is_second.edit", "new: second(a)", "new: a", "high"),
    ):
        text = open(f"{top}/{path}", encoding="utf-8").read()
        write(f"{top}/{path}", text.replace(old, new))
        assert due() == wanted, (new, due())
        write(f"{top}/{path}", text)
    assert due() == "none"


def test_what_is_not_refused():
    top = repository("missed", {
        "tests/edits/high/same.edit": "file: src/lib.rt\nold: second(second(a))\nnew: second(second(a + 0))\n",
        "tests/edits/high/no_such_text.edit": "file: src/lib.rt\nold: third(a)\nnew: a\n",
        "tests/edits/high/no_such_name.edit": "file: src/lib.rt\nold: second(second(a))\nnew: third(a)\n",
    })
    # a copy in which `rt ci` has passed is taken as it is, and no other
    proved = subprocess.run(["rt", "ci"], cwd=f"{SCRATCH.name}/refused", capture_output=True, text=True, check=False)
    assert proved.returncode == 0, proved.stdout[-2000:]
    status, said = edits(top, "high", "--over", f"{SCRATCH.name}/words")
    assert (status, said) == (1, []), said
    status, said = edits(top, "high", "--over", f"{SCRATCH.name}/refused")
    told = {it.split(":")[0]: it.partition(": ")[2] for it in said}
    assert (status, said[-1]) == (1, "1 passed, 3 failed"), said
    assert os.path.isdir(f"{SCRATCH.name}/refused/crates/low/out/rlib"), "what was proved stays"
    assert told["high/fourth_is_second.edit"].startswith("refused") and told["high/same.edit"].startswith("NOT REFUSED"), said
    assert told["high/no_such_text.edit"].startswith("BAD EDIT") and told["high/no_such_name.edit"].startswith("BAD EDIT"), said
    assert stamps(top) == {}


def test_too_much_is_due():
    top = repository("much", {f"tests/edits/low/more_{it}.edit": "" for it in range(3000)})
    status, said = edits(top, "--due")
    assert (status, said[-2:]) == (1, ["more than 40 minutes are due: run tools/edits low high", "0 passed, 2 failed"]), said


if __name__ == "__main__":
    counting.main(globals(), (), SCRATCH)
