"""Tests what tools/edits reads from sources: names of functions, bodies, and sums. tools/edits_test runs it with a folder in
which it makes crates of its own."""
import os
import shutil
import sys

sys.path.insert(0, os.path.dirname(os.path.dirname(os.path.realpath(__file__))))

from edits_lib.crates import crates
from edits_lib.edits import edits_of
from edits_lib.names import name_of
from edits_lib.record import Sums
from rt_syntax import functions_of, without_bodies

# Headers of impls and traits in src/a/b.rt, and what a check names a function f of theirs by. `Here` is a type of that
# module, `There` one of src/c.rt.
NAMES = [
    (None, "k::a::b::f"),
    ("pub trait Does", "k::a::b::Does::f"),
    ("impl There", "k::c::There::f"),
    ("impl<'a, K, O: Offset> There<'a, K, O>", "k::c::There::f"),
    ("impl<K> There<K, K>", "k::a::b::There+K+K::f"),
    ("impl<O> There<Utf8, O>", "k::a::b::There+Utf8+O::f"),
    ("impl<O> There<Binary, O>", "k::a::b::There+Binary+O::f"),
    ("impl<A> Here<(u8, &'static [A])>", "k::a::b::Here+tuple2+u8+ref+slice+A::f"),
    ("impl Does for There", "k::a::b::ThereDoes::f"),
    ("impl fmt::Debug for There", "k::a::b::ThereDebug::f"),
    ("impl Does for one::There", "k::a::b::OneThereDoes::f"),
    ("impl<T: NativeType> Operation<T> for Add", "k::a::b::AddOperation::f"),
    ("impl<'a, T: NativeType, O: Offset> ChangesEntry<T, O> for To<'a>", "k::a::b::ToChangesEntry::f"),
    ("impl<K: ByteKind, O> From<There<K, O>> for Here<K, O>", "k::a::b::HereFromThere::f"),
    ("impl From<io::Error> for Error", "k::a::b::ErrorFromIoError::f"),
    ("impl<O> Does for There<Utf8, O>", "k::a::b::ThereUtf8Does::f"),
    ("impl<O> Does for There<Binary, O>", "k::a::b::ThereBinaryDoes::f"),
    ("impl<'a> ByteItem<Utf8> for &'a str", "k::a::b::RefStrByteItemUtf8::f"),
    ("impl<'a> Does for &'a mut [u8]", "k::a::b::RefMutSliceU8Does::f"),
    ("impl<A: Word, B: Words> Words for (A, B)", "k::a::b::Tuple2Words::f"),
    ("impl Words for ()", "k::a::b::UnitWords::f"),
    ("impl Does for [u8; 4]", "k::a::b::ArrayU84Does::f"),
    ("impl<T: NativeType + Ord> Scalar<PrimitiveArray<T>> for T", "k::a::b::AnyScalarPrimitiveArray::f"),
    ("impl<T> Of<T, i32> for days_ms where T: Copy", "k::a::b::Days_msOfI32::f"),
]

SOURCE = """impl<T> Here<T> {
    const MOST: usize = 3;

    #[tactic(auto)]
    pub fn long(
        &self,
        rest: usize,
    ) -> usize {
        rest
    }

    pub fn f(&self)
        ensures { result ≡ self }
    {
        let g = |x| { x };
    }
}

trait Does {
    fn f(&self) -> u8
        ensures { x };

    fn g(&self) -> u8;
}

fn empty() {}
"""
BODILESS = """impl<T> Here<T> {
    const MOST: usize = 3;

    #[tactic(auto)]
    pub fn long(
        &self,
        rest: usize,
    ) -> usize

    pub fn f(&self)
        ensures { result ≡ self }
}

trait Does {
    fn f(&self) -> u8
        ensures { x };

    fn g(&self) -> u8;
}

fn empty()
"""

UPPER = """#![tactic(auto)]

const STEP: usize = 1;

const STEPS: usize = STEP + 1;

fn f() -> usize
    ensures { result ≡ 1 }
{
    STEP + 0
}

#[tactic(auto, using(crate::proofs::Named::named))]
fn g() -> usize
    ensures { result ≡ 2 }
{
    STEPS
}
"""
FILES = {
    "crates.txt": "lower:\nupper: lower\n",
    "crates/lower/src/lib.rt": "//! Lower.\npub fn low() -> usize\n    ensures { result ≡ 0 }\n{\n    0\n}\n",
    "crates/lower/proofs/CallerLemmas.antt": "lemma : a\nlemma = b\n",
    "crates/lower/proofs/Private.antt": "private : a\nprivate = b\n",
    "crates/upper/src/lib.rt": UPPER,
    "crates/upper/specs/Lib.antt": "pub most : a\nmost = b\n",
    "crates/upper/proofs/f/Answers.antt": "use Rattle.upper.proofs.Cited.{cited}\n",
    "crates/upper/proofs/g/Answers.antt": "pub returns : goal.returns\n",
    "crates/upper/proofs/Cited.antt": "use Rattle.upper.proofs.Reached.{reached}\n",
    "crates/upper/proofs/Reached.antt": "reached : a\n",
    "crates/upper/proofs/Named.antt": "named : a\n",
    "crates/upper/proofs/Other.antt": "other : a\n",
    "crates/upper/edits/of_f.edit": "file: src/lib.rt\nold: STEP + 0\nnew: 0\n",
    "crates/upper/edits/of_g.edit": "file: src/lib.rt\nold:     STEPS\nnew:     0\n",
    "crates/upper/edits/of_step.edit": "file: src/lib.rt\nold: usize = 1;\nnew: usize = 2;\n",
}
# What is changed in one of the files, and the edits whose sums are then others.
CHANGES = [
    ("crates/upper/src/lib.rt", "    STEPS\n", "    // Why.\n    STEPS // why\n", ""),
    ("crates/upper/src/lib.rt", "#![", "//! Upper.\n#![", ""),
    ("crates/upper/src/lib.rt", "    STEPS\n", "    1 + STEP\n", "of_g of_step"),
    ("crates/upper/src/lib.rt", "result ≡ 2", "result ≤ 2", "of_f of_g of_step"),
    ("crates/upper/src/lib.rt", "usize = 1", "usize = 3", "of_f of_g of_step"),
    ("crates/upper/src/lib.rt", "#[tactic(auto, using(crate::proofs::Named::named))]\n", "", "of_f of_g of_step"),
    ("crates/upper/specs/Lib.antt", "most = b", "most = c", "of_f of_g of_step"),
    ("crates/upper/specs/Lib.antt", "pub most", "-- The most.\npub most", ""),
    ("crates/upper/proofs/f/Answers.antt", "use", "-- Why.\nuse", ""),
    ("crates/upper/proofs/g/Answers.antt", "goal.returns", "goal.other", "of_g of_step"),
    ("crates/upper/proofs/Cited.antt", "reached}", "reached, more}", "of_f of_step"),
    ("crates/upper/proofs/Reached.antt", ": a", ": b", "of_f of_step"),
    ("crates/upper/proofs/Named.antt", ": a", ": b", "of_g of_step"),
    ("crates/upper/proofs/Other.antt", ": a", ": b", "of_step"),
    ("crates/upper/edits/of_f.edit", "new: 0", "new: 2", "of_f"),
    ("crates/lower/src/lib.rt", "    0\n", "    1 - 1\n", ""),
    ("crates/lower/src/lib.rt", "result ≡ 0", "result ≤ 0", "of_f of_g of_step"),
    ("crates/lower/proofs/CallerLemmas.antt", "lemma : a", "lemma : c", "of_f of_g of_step"),
    ("crates/lower/proofs/Private.antt", "private = b", "private = c", ""),
]
faults = []


def expect(what, came, wanted):
    if came != wanted:
        faults.append(f"{what}: wanted {wanted!r}, got {came!r}")


def write(top, file, text):
    os.makedirs(os.path.dirname(f"{top}/{file}"), exist_ok=True)
    with open(f"{top}/{file}", "w", encoding="utf-8") as out:
        out.write(text)


def test_sources():
    home = {"Here": "a::b", "There": "c"}.get
    for header, wanted in NAMES:
        text = f"{header} {{\n    fn f() {{\n    }}\n}}\n" if header else "fn f() {\n}\n"
        expect(header, name_of("k", "src/a/b.rt", functions_of(text)[0], home), wanted)
    expect("a function of the root", name_of("k", "src/lib.rt", functions_of("fn f() {}")[0], home), "k::f")
    expect("a text without bodies", without_bodies(SOURCE), BODILESS)
    names = [f"{it.name} {it.first} {it.last}" for it in functions_of(SOURCE)]
    expect("functions", names, ["MOST 2 2", "long 4 10", "f 12 16", "f 20 21", "g 23 23", "empty 26 26"])


def sums_of(top):
    known = crates(top)
    sums = Sums(known)
    return {os.path.basename(it.path)[: -len(".edit")]: sums.edit(it) for it in edits_of(known["upper"])}


def test_sums(top):
    for file, text in FILES.items():
        write(top, file, text)
    before = sums_of(top)
    for file, old, new, wanted in CHANGES:
        write(top, file, FILES[file].replace(old, new))
        others = " ".join(it for it, total in sums_of(top).items() if total != before[it])
        expect(f"{file}: {old!r} becomes {new!r}: sums that change", others, wanted)
        write(top, file, FILES[file])


def test_outside(top):
    of_step = next(it for it in edits_of(crates(top)["upper"]) if it.name == "upper/of_step")
    expect("what names a constant", of_step.names(), ["upper::f", "upper::g"])


def test_over(top, over):
    fault = lambda: crates(top, over)["upper"].fault_over()
    expect("libraries that aren't built", fault(), f"{over} has no built library lower")
    shutil.copytree(f"{top}/crates/lower", f"{over}/crates/lower")
    write(over, "crates/lower/out/rlib/lower.rlib/format", "")
    expect("libraries that are built", fault(), None)
    write(over, "crates/lower/src/lib.rt", "")
    expect("other sources", fault(), f"{over} was built of other sources: crates/lower/src/lib.rt differs")


test_sources()
test_sums(f"{sys.argv[1]}/top")
test_outside(f"{sys.argv[1]}/top")
test_over(f"{sys.argv[1]}/top", f"{sys.argv[1]}/over")
for fault in faults:
    print(f"edits_test: {fault}")
sys.exit(bool(faults))
