"""A small good repository and its bad edits: each breaks one rule of the audit, and no other.

The sample is held as text, since `rt ci` refuses a file of code that no crate has.
"""
import pathlib
import subprocess
import tempfile

SAMPLE = """\
=== .gitignore
target/
=== crates.txt
# The layers.
mass:
job: mass
files:
job_c staticlib: job
show: job files
=== crates/mass/src/lib.rt
pub mod ledger;
=== crates/mass/src/ledger.rt
// The parser passes over a `pub fn` in a comment. A tonne is 10^15 ng; the rest is below it.
ghost use Rattle.mass.specs.Ledger.{added, Few, rest_of};

pub struct Ledger {
    pub rest: u64,
}

impl Ledger {
    pub fn rest(self) -> u64
        ensures rest { result ≡ rest_of self }
    {
        let quoted = b"pub fn quoted() { // ";
        self.rest
    }
}

pub(crate) fn carry(x: u64) -> u64 {
    x
}

// The sum may pass a tonne.
pub fn add(g: Ledger, x: u64) -> Ledger
    requires few { Few g }
    ensures exact { result ≡ added g x }
{
    Ledger { rest: g.rest + x }
}
=== crates/mass/specs/Ledger.antt
-- What adding to a ledger means.
--
--     added g x    g with x ng more
--     Few g        g has room: 10^8 units × 200,000 kJ × 200,000 mg/MJ is 4 × 10^18
unfoldable pub added : Ledger → ℕ → Ledger
added g x = record { rest = g.rest + x }

abbrev pub Few : Ledger → Type 0
Few g = g.rest < tonne

pub rest_of : Ledger → ℕ
rest_of g = g.rest

pub data Kind : Type 0 where
  whole : Kind

-- Only a promise reaches it, by the infix name.
unfoldable pub ◌within◌ : Ledger → Kind → Type 0
◌within◌ g whole = Few g

pub record Whole (g : Ledger) : Type 0 where
  pub below : Few g
=== crates/mass/specs/Carry.antt
use Rattle.mass.specs.Ledger as ledger

pub carried : Ledger → Ledger
carried g = ledger.added g 0
=== crates/mass/proofs/LedgerLaws.antt
use Rattle.mass.specs.Ledger.{added, Whole}

pub whole-added : (g : Ledger) → Whole g
    → Whole (added g 0)
whole-added g w = w
=== crates/mass/proofs/Unique.antt
use Rattle.mass.proofs.ledger.Ledger.rest.Reads as rest
use Rattle.mass.proofs.ledger.add.Reads as add

pub rest_unique : (κs : _) (a : _) (r s : _) (x y : _)
    → rest.Post κs a r x → rest.Post κs a s y → r ≡ s
rest_unique κs a r s x y p q = p ∙ sym q

pub add_unique : (κs : _) (a : _) (r s : _) (x y : _)
    → add.Post κs a r x → add.Post κs a s y → r ≡ s
add_unique κs a r s x y p q = p ∙ sym q
=== crates/mass/must-fail/ledger_rest_is_the_carry.edit
# the rest is what is left of the sum
file: src/ledger.rt
old: g.rest + x
new: g.rest - x
=== crates/job/src/lib.rt
ghost use Rattle.job.specs.Wake.{woken, tail_of};

#[tactic(auto, unfolding(crate::specs::Wake::woken))]
pub fn wake(
    book: &[u8],
    out: &mut [u8],
    log: &'a mut [u8],
) -> u32
    ensures answer { result ≡ woken book.now }
    ensures kept { out.new ≡ out.old }
{
    0
}

pub fn tail(book: &[u8]) -> &[u8]
    ensures tail { result.now ≡ tail_of book.now }
{
    &book[1..]
}

pub fn pick(book: &[u8]) -> u8 {
    0
}
=== crates/job_c/src/lib.rt
ghost use Rattle.job.specs.Wake.{woken};

#[unsafe(no_mangle)]
pub extern "C" fn wake(book: &[u8], out: &mut [u8], log: &'a mut [u8]) -> u32
    ensures answer { result ≡ woken book.now }
    ensures kept { out.new ≡ out.old }
{
    job::wake(book, out, log)
}
=== crates/job/specs/Wake.antt
pub woken : List ℕ → ℕ
woken b = 0

pub tail_of : List ℕ → List ℕ
tail_of b = drop 1 b
=== crates/job/proofs/Demands.antt
use Rattle.mass.specs.Ledger.{added, rest_of, ◌within◌, whole}
use Rattle.job.specs.Wake as wake
use Rattle.files.specs.Got.{Within}

pub record Demand (g : Ledger) : Type 0 where
  pub kept : rest_of (added g 0) ≡ wake.woken []
  pub held : g within whole
  pub read : Within (length (wake.tail_of [])) []
=== crates/job/proofs/Unique.antt
use Rattle.job.proofs.wake.Reads as wake
use Rattle.job.proofs.tail.Reads as tail

pub wake_unique : (κs : _) (a : _) (r s : _) (x y : _)
    → wake.Post κs a r x → wake.Post κs a s y → r ≡ s
wake_unique κs a r s x y p q = p.0 ∙ sym q.0

pub wake_out_unique : (κs : _) (a : _) (r s : _) (x y : _)
    → wake.Post κs a r x → wake.Post κs a s y → x.1.0.now ≡ y.1.0.now
wake_out_unique κs a r s x y p q = p.1 ∙ sym q.1

pub wake_log_unique : (κs : _) (a : _) (r s : _) (x y : _)
    → wake.Post κs a r x → wake.Post κs a s y → x.1.1.0.now ≡ y.1.1.0.now
wake_log_unique κs a r s x y p q = p.2 ∙ sym q.2

pub tail_unique : (κs : _) (a : _) (r s : _) (x y : _)
    → tail.Post κs a r x → tail.Post κs a s y → r.now ≡ s.now
tail_unique κs a r s x y p q = p ∙ sym q
=== crates/job/proofs/wake/Answers.antt
-- The lem that the place is below the end?
use Rattle.std.specs.Prelude.{take}
use Rattle.mass.specs.Ledger.{added as plus, rest_of}
use Rattle.mass.specs.Ledger as ledger
use Rattle.job.specs.Wake.{woken}

pub returns : goal.returns
unfolding woken take
returns c = unfold woken in lemma-of c plus "?"
=== crates/files/src/lib.rt
ghost use Rattle.files.specs.Got.{Within};

use std::fs::File;

pub fn read_all(file: &File, buf: &mut [u8]) -> usize
    ensures within { Within result buf.new }
{
    file.read_full(buf)
}
=== crates/files/specs/Got.antt
pub Within : ℕ → List ℕ → Type 0
Within n xs = n ≤ length xs
=== crates/show/src/main.rt
pub fn helper() {}
fn main() {}
=== docs/TRUST.md
| definitions | lines | what they fix |
|---|---|---|
| `mass`: [Ledger](../crates/mass/specs/Ledger.antt) | 22 | ledgers |
| `job`: [Wake](../crates/job/specs/Wake.antt) | 5 | wakes |
| `files`: [Got](../crates/files/specs/Got.antt) | 2 | counts |

`whole-added` of [LedgerLaws](../crates/mass/proofs/LedgerLaws.antt): a whole ledger stays whole.
=== docs/FORMAT.md
## One book

```
0000  01 ff
0010  20
```
=== crates/rules/proofs/Sample.antt
sample_book =
    0x01 ∷ 0xff
    ∷ 0x20
    ∷ []
=== docs/CONTRACTS.md
# Contracts

## mass

### `mass::ledger::Ledger::rest`

- Gives: `rest_of` (specs/Ledger.antt).
- Shuts out: 1. the tonnes. 2. the carry.

### `mass::ledger::add`

- Gives: `added` (specs/Ledger.antt).
- Asks: `few`, because a sum must fit.
- Shuts out: 1. a rest that keeps the carry (`ledger_rest_is_the_carry`).
  2. an addition in µg.

## job

### `job::wake`

- Gives: `woken` (specs/Wake.antt).
- Shuts out: 1. a wake that is late. 2. a wake that is early.

### `job::tail`

- Gives: `tail_of`.
- Shuts out: 1. the head. 2. the whole.

## files

### `files::read_all`

- Gives: `Within`.
- Shuts out: 1. a byte more than there are. 2. two bytes more.

## Exceptions

| function | rule | why |
|---|---|---|
| `job::pick` | ensures | Any answer is right. |
| `job::pick` | entry | It promises nothing. |
| `job::pick` | unique | Two answers may differ. |
| `files::read_all` | unique | The system decides. |
=== run.sh
#!/bin/sh
# The parts run in this order: proofs first.
exit 0
=== target/rt-ci.log
== mass
fn mass::ledger::add: proved
logic=proved functions=3 sum=064d native=nat,char,string logic-built=trusted
rt: mass proved
rt: job is kept: an earlier run on this machine proved the same files over the same libraries
== files: its tests
logic=proved tests=1 functions=2 axioms=2 sum=064d
rt: files: its tests are proved
== files
logic=proved functions=1 sum=064d
rt: files proved
== job_c
axioms libc: none reached of the 128 declared
logic=proved functions=1 sum=064e
rt: job_c proved
== show
logic=proved functions=1 axioms=2 sum=064f
rt: show proved
rt: must-fail mass/ledger_rest_is_the_carry.edit: refused, as it must be: note: src/ledger.rt:23:1: it isn't proved
"""

LEDGER, WAKE = "crates/mass/src/ledger.rt", "crates/job/src/lib.rt"
SPEC, PROOF = "crates/mass/specs/Ledger.antt", "crates/job/proofs/wake/Answers.antt"
FILES, EXPORTS = "crates/files/src/lib.rt", "crates/job_c/src/lib.rt"
MASS_LAWS, JOB_LAWS = "crates/mass/proofs/Unique.antt", "crates/job/proofs/Unique.antt"
PAGE, TRUST, LOG = "docs/CONTRACTS.md", "docs/TRUST.md", "target/rt-ci.log"

# The rule, the file, old text, new text, and words of the fault. A file of no old text is removed.
EDITS = [
    ("ensures", LEDGER, "    ensures exact { result ≡ added g x }\n", "", "add has no ensures"),
    ("ensures", LEDGER, "ensures rest {", "ghost rest {", "Ledger::rest has no ensures"),
    ("ensures", FILES, "    ensures within { Within result buf.new }\n", "",
     "files::read_all has no ensures"),
    ("entry", PAGE, "### `files::read_all`", "### read_all", "files::read_all has no entry"),
    ("entry", PAGE, "### `mass::ledger::Ledger::rest`", "### rest", "Ledger::rest has no entry"),
    ("entry", PAGE, "Gives: `added`", "Gives: `rest_of`", "add has an entry whose Gives"),
    ("entry", SPEC, "unfoldable pub added", "added", "add has an entry whose Gives"),
    ("entry", PAGE, "2. an addition in µg", "An addition in µg", "doesn't shut out two"),
    ("entry", PAGE, "1. the tonnes. 2. the", "1. `tonnes`. 2. the", "doesn't shut out two"),
    ("stale", PAGE, "## job\n", "### `job::gone`\n\n", "job::gone is no public function"),
    ("stale", PAGE, "| `job::pick` | unique", "| `job::pick` | law | X |\n| `job::pick` | unique",
     "fits no rule"),
    ("named", PAGE, "(`ledger_rest_is_the_carry`)", "", "is not named in docs/CONTRACTS.md"),
    ("exception", PAGE, "Two answers may differ.", "",
     "exception from unique that is needless or has no"),
    ("exception", PAGE, "| `job::pick` | ensures",
     "| `job::wake` | unique | So. |\n| `job::pick` | ensures", "needless"),
    ("unique", PAGE, "| `job::pick` | unique | Two answers may differ. |\n", "",
     "job::pick has no import"),
    ("unique", PAGE, "| `files::read_all` | unique | The system decides. |\n", "",
     "files::read_all has no import"),
    ("unique", MASS_LAWS, "ledger.add.Reads", "ledger.Ledger.add.Reads",
     "add has no import of its Reads"),
    ("unique", MASS_LAWS, "y → r ≡ s\nadd", "y → r ≡ r\nadd", "no law that ends in r ≡ s"),
    ("unique", MASS_LAWS, "add.Post κs a s y", "rest.Post κs a s y", "no law that ends in r ≡ s"),
    ("unique", MASS_LAWS, "pub add_unique", "add_unique", "no law that ends in r ≡ s"),
    ("unique", JOB_LAWS, "→ r.now ≡ s.now", "→ r ≡ s", "no law that ends in r.now ≡ s.now"),
    ("unique", JOB_LAWS, "y.1.1.0.now", "x.1.1.0.now", "2 &mut parameters and laws for 1"),
    ("unique", JOB_LAWS, "x.1.1.0.now ≡ y.1.1.0.now", "x.1.0.now ≡ y.1.0.now", "laws for 1"),
    ("requires", WAKE, "    ensures tail", "    requires any { ⊤ }\n    ensures tail",
     "tail has a requires"),
    ("requires", FILES, "    ensures within", "    requires any { ⊤ }\n    ensures within",
     "files::read_all has a requires"),
    ("requires", LEDGER, "requires few {", "requires {", "a requires with no name"),
    ("requires", LEDGER, "requires few {", "requires many {", "asks many, and its entry"),
    ("unfolding", PROOF, "unfolding woken", "unfolding plus woken", "unfolds plus"),
    ("unfolding", PROOF, "unfolding woken take", "unfolding woken\n    rest_of", "unfolds rest_of"),
    ("unfolding", PROOF, "unfolding woken", "unfolding ledger.added", "unfolds ledger.added"),
    ("unfolding", PROOF, "unfolding woken", "unfolding Rattle.mass.specs.Ledger.added",
     "unfolds Rattle.mass"),
    ("unfolding", PROOF, "unfold woken in", "unfold woken plus in", "unfolds plus"),
    ("unfolding", PROOF, "{added as plus, rest_of}\n", "*\nuse lib.Sum.{plus}\nunfolding rest_of\n",
     "unfolds rest_of"),
    ("unfolding", WAKE, "unfolding(crate::specs::Wake::woken)",
     "unfolding(crate::specs::Wake::woken, mass::specs::Ledger::added)",
     "has mass::specs::Ledger::added of another crate unfolded"),
    ("export", EXPORTS, "out.new ≡ out.old", "out.new ≡ book.now", "else than job::wake"),
    ("export", EXPORTS, "ensures answer { result ≡ woken book.now }\n    ", "",
     "else than job::wake"),
    ("export", EXPORTS, "-> u32", "-> u64", "else than job::wake"),
    ("export", EXPORTS, "book: &[u8], out: &mut [u8]", "out: &mut [u8], book: &[u8]",
     "else than job::wake"),
    ("export", EXPORTS, "fn wake(", "fn job_wake(", "what 0 functions"),
    ("system", WAKE, "pub fn pick(", "use std::fs;\n\npub fn pick(", "names fs of std"),
    ("system", WAKE, "pub fn pick(", "use std::{fmt, io};\n\npub fn pick(", "names io of std"),
    ("system", WAKE, "pub fn pick(", "fn say() { io::write_all(1, b\"x\"); }\n\npub fn pick(", "names io of"),
    ("system", WAKE, "pub fn pick(", "use os;\n\npub fn pick(", "names os of"),
    ("system", WAKE, "pub fn pick(", "use std as s;\n\npub fn pick(", "names std as s of"),
    ("system", WAKE, "pub fn pick(", "fn say() { core::rt::x(); }\n\npub fn pick(", "names core::rt of"),
    ("system", LEDGER, "pub fn add(", "fn print(rt: HostRuntime) {}\n\npub fn add(", "Runtime"),
    ("reading", "crates/job/proofs/Demands.antt", "  pub held : g within whole\n", "",
     "has Kind, whole, ◌within◌, which nothing promised reaches"),
    ("reading", TRUST, "`whole-added` of", "`whole-added` in", "has Whole, which nothing promised"),
    ("reading", TRUST, "[Wake](../crates/job/specs/Wake.antt)", "Wake", "not listed in docs/TRUST.md"),
    ("reading", TRUST, "[Got](", "[Got](../crates/files/specs/Got.antt), [Got](", "docs/TRUST.md"),
    ("reading", TRUST, "[Ledger](", "[Carry](../crates/mass/specs/Carry.antt), [Ledger](",
     "docs/TRUST.md"),
    ("reading", TRUST, "| 22 |", "| 23 |", "says 23 lines of mass, which has 22"),
    ("sample", "docs/FORMAT.md", "01 ff", "01 fe", "prints another book"),
    ("sample", "docs/FORMAT.md", "```\n0000", "0000", "prints another book"),
    ("sample", "crates/rules/proofs/Sample.antt", "    ∷ 0x20\n", "", "prints another book"),
    ("axiom", PROOF, "lemma-of c", "Prim.lem c", "uses lem"),
    ("axiom", PROOF, "lemma-of c", "(ac c)", "uses ac"),
    ("axiom", PROOF, "pub returns", "axiom pub told : ⊥\npub returns", "uses axiom"),
    ("hole", PROOF, "lemma-of c", "(lemma-of ?)", "has a hole"),
    ("hole", PROOF, "lemma-of c", "{! lemma-of c !}", "has a hole"),
    ("edit", LOG, "be: note: src", "be (only because a proof file names what the edit took away): src",
     "shape"),
    ("edit", LOG, "be: note: src", "be (only by a limit of the prover): src", "by a limit"),
    ("edit", LOG, "refused, as it must be", "NOT REFUSED", "isn't refused"),
    ("edit", LOG, "refused, as it must be", "BAD EDIT", "isn't refused"),
    ("edit", LOG, "rt: must-fail mass", "rt: must-fail job", "is tried 0 times"),
    ("check", LOG, "functions=3", "functions=3 axioms=2", "is proved with axioms=2"),
    ("check", LOG, "functions=3", "functions=3 foreign=f", "is proved with foreign=f"),
    ("check", LOG, "functions=1 sum=064d", "functions=1 axioms=2", "is proved with axioms=2"),
    ("check", LOG, "functions=1 sum=064e", "functions=1 axioms=2", "is proved with axioms=2"),
    ("check", LOG, "logic=proved", "logic=not-proved", "isn't proved by"),
    ("check", LOG, "rt: mass proved", "rt: mass NOT PROVED", "isn't proved by"),
    ("check", LOG, "rt: job is kept", "rt: job is lost", "isn't proved by"),
    ("law", TRUST, "stays whole.", "stays whole. `none` of [LedgerLaws]"
     "(../crates/mass/proofs/LedgerLaws.antt) says more.", "names none, which"),
    ("leftover", "run.sh", "proofs first", "TODO", "line 2 has a mark of open work"),
    ("leftover", LEDGER, "    x\n}", "    // let y = x;\n    x\n}", "line 18 is code"),
    ("leftover", LEDGER, "// The sum may", "// self.rest = g;\n// The sum may", "is code"),
    ("leftover", WAKE, "#[tactic", "// use mass::ledger;\n#[tactic", "line 3 is code"),
    ("leftover", PROOF, "use Rattle.std", "-- use Rattle.std", "line 2 is code"),
    ("leftover", PROOF, "unfolding", "-- unfolding", "is code"),
    ("leftover", SPEC, "--     added g x    g with x ng more", "-- pub total : Ledger → ℕ", "is code"),
    ("leftover", SPEC, "--     added g x    g with x ng more", "-- total g = tonne + g.rest", "is code"),
    ("leftover", "run.sh", "exit 0", '# rm -f "$log"\nexit 0', "line 3 is code"),
    ("leftover", "run.sh", "exit 0", "# import os\n# count = 0\nexit 0", "is code"),
]


def write(root, edited, old, new):
    for part in SAMPLE.split("=== ")[1:]:
        name, text = part.split("\n", 1)
        file = root / name
        file.parent.mkdir(parents=True, exist_ok=True)
        file.write_text(text, encoding="utf-8")
        if name == edited and old is None:
            file.unlink()
        elif name == edited:
            assert old in text, f"{name} has no {old!r}"
            file.write_text(text.replace(old, new, 1), encoding="utf-8")


def trials(audit):
    """Yields a result for the good sample and for each edit, in the form of the audit's own."""
    with tempfile.TemporaryDirectory() as folder:
        root = pathlib.Path(folder)
        subprocess.run(["git", "init", "-q", root], check=True)
        for rule, path, old, new, words in [(None, None, None, None, ""), *EDITS]:
            write(root, path, old, new)
            subprocess.run(["git", "-C", root, "add", "-A"], check=True)
            found = [(broken, subject + " " + fault)
                     for broken, subject, faults in audit(root) for fault in faults]
            right = [broken for broken, line in found if words in line] == [rule] * len(found)
            right = right and bool(found) == bool(rule)
            yield "itself", "tools/audit:", [] if right else [f"{new!r} for {rule} gives {found}"]
