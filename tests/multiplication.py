"""Shows on the source that no multiplication in the field has a branch (C-14).

    multiplication.py

Walks from each multiplication through all that it calls; of LOOPS, whose loops go
over many elements, it looks at the body. Prints what it looked at, and stops at
the first thing that is not arithmetic with an error exit. A function that calls
one of the field's and is neither looked at nor among CALLERS is an error too, so
that a new multiplication is not forgotten. First it is tried on wrong sources.
"""

import sys
from pathlib import Path

from branches import looked_at
from rattlesource import Source
from rejecting import Rejected, reject_all

ROOT = Path(__file__).parent.parent

# where the field's arithmetic stands
FIELD = [("gf256",), ("blocks", "doublings"), ("kernel", "bits"), ("kernel", "plan"), ("coding", "weights")]

MULTIPLICATIONS = {
    "exports::mezgaudre_product": "the library's product",
    "gf256::product": "by the two tables",
    "gf256::inverse": "no product, but by the same tables",
    "gf256::double": "by x",
    "blocks::doublings::Doublings::of": "a factor made ready for many",
    "blocks::doublings::Doublings::times": "by the bits of the other factor",
    "kernel::plan::pack": "the bits of four weights, made ready",
    "kernel::bits::Eight::sum": "twelve weights times twelve bytes, and their sum, by the bits of the weights",
    "kernel::bits::One::sum": "the same, by weights of one bit",
    "coding::weights::over": "a quotient, by logarithms",
}

# functions of one loop, whose body is looked at
LOOPS = {
    "blocks::add_times": "each byte of a block",
    "kernel::plan::pack_all": "each four weights",
    "kernel::bits::sixteen": "each of sixteen bytes",
    "kernel::bits::fill_sixteens": "each sixteen bytes of a block",
    "lanes::write": "each of sixteen bytes, copied",
    "coding::weights::span": "each factor of a product, by logarithms",
    "coding::weights::recover_row": "each weight of a lost block, by logarithms",
}

# what calls the field's functions and multiplies by them alone
CALLERS = {
    "code::coefficient": "one inverse",
    "codecheck::field::products": "prints products",
    "codecheck::field::inverses": "prints inverses",
    "codecheck::field::print": "prints the tables",
    "coding::weights::data_weight": "an inverse, where there is such a data node",
    "coding::weights::data_weights": "each weight of the redundant nodes",
    "coding::weights::others": "the spans before and after a node",
    "coding::weights::scale": "whether a node is among the data nodes, by its number",
    "coding::weights::share_of": "the factors of one node",
    "coding::recovering::node_row": "whether a node is among those decoded from",
    "coding::recovering::fill_rows": "each node's row",
    "kernel::bits::fill_whole": "by how many bits a block's bytes are made",
    "kernel::combine": "each tile",
}

# ---- a source that is accepted, and its wrong edits

RIGHT = {
    "crates/small/src/lib.rt": """// if a == 0 && b == 0: a comment is no code
#![tactic(auto)]
ghost use Rattle.std.specs.Prelude.{◌≡◌, ◌<◌, ◌≤◌, ◌×◌, ◌==◌, ◌*◌, ℕ};

use tables::power;

#[derive(Clone, Copy)]
pub struct Pair {
    iffy: u8,
    ghost seen: { ℕ },
}

impl Pair {
    fn sum(self) -> u8
        ensures { result ≡ self.iffy }
    {
        self.iffy ^ 1
    }
}

#[tactic(auto, using(Rattle.small.proofs.Laws.law))]
pub fn product(a: u8, b: u8) -> u8
    requires { (a < 256) × (b ≤ 255) }
    ensures times { 0 < a → result ≡ a * b }
    ensures same { {s : ℕ} → s == s }
{
    let p = Pair { iffy: a };
    p.sum() ^ inner(a, b) ^ part::<Half>(a)
}

fn inner(a: u8, b: u8) -> u8 {
    let t = [0u8; 4];
    power(a) ^ t[(b % 4) as usize]
}

trait Part {
    ghost by: { ℕ };

    fn of(a: u8) -> u8
        ensures { result ≡ a / by };

    fn next(a: u8) -> u8 {
        Self::of(a) + 1
    }
}

struct Half;

impl Part for Half {
    ghost by = { 2 };

    fn of(a: u8) -> u8 {
        a >> 1
    }
}

struct Third<T>(T);

impl<T: Copy> Part for Third<T> {
    ghost by = { 3 };

    fn of(a: u8) -> u8 {
        a / 3
    }
}

fn part<P: Part>(a: u8) -> u8 {
    P::next(a)
}

pub fn each(t: &mut [u8], a: u8) {
    let mut i = 0;
    while i < t.len() {
        t[i] = product(a, t[i]);
        i += 1;
    }
}

pub fn square(a: u8) -> u8 {
    if a == 0 {
        return 0;
    }
    product(a, a)
}
""",
    "crates/tables/src/lib.rt": "pub mod deep;\n\npub fn power(a: u8) -> u8 {\n    deep::entry::<2>(a)[0]\n}\n",
    "crates/tables/src/deep.rt": "pub fn entry<const N: usize>(a: u8) -> [u8; 2] {\n    [0, a * 2]\n}\n",
}
# what is looked at of it
LOOKED_AT = [
    "small::product",
    "small::Pair::sum",
    "small::inner",
    "tables::power",
    "tables::deep::entry",
    "small::part",
    "small::Part::next",
    "small::Half::of",
    "small::Third::of",
    "small::each",
]
BODY, LOOP, DEEP = "let p = Pair { iffy: a };", "t[i] = product(a, t[i]);", "a * 2"
# a line of the source, what it becomes, and what must be said of it
WRONG = [
    (BODY, "let p = Pair { iffy: if a { 1 } else { 2 } };", "an if"),
    (BODY, "match a { 0 => return 0, _ => {} }", "a match"),
    (BODY, "while a {}", "a loop: while"),
    (BODY, "loop { break; }", "a loop: loop"),
    (BODY, "for i in 0..a {}", "a loop: for"),
    *[(BODY, f"let p = a {sign} b;", f"a comparison: {sign}") for sign in ("==", "!=", "<", ">", "<=", ">=")],
    (BODY, "let p = a && b;", "an &&"),
    (BODY, "let p = a || b;", "an ||"),
    ("deep::entry::<2>(a)[0]", "if a { 1 } else { 2 }", "tables::power has an if"),  # two calls deep, in another crate
    (DEEP, "match a { _ => 1 }", "tables::deep::entry has a match"),  # three
    (BODY, "let p = each(a, b);", "small::each has a loop"),
    (DEEP, "power(a)", "which is not in the source"),
    (DEEP, "crate::power(a)", "calls itself"),
    (DEEP, "a.min(2)", "which is not in the source"),
    (DEEP, "a.copy_from_slice(a)", "which is not in the source"),
    (DEEP, "far::<2>(a)", "which is not in the source"),
    (DEEP, "a < 2", "a comparison: <"),
    (DEEP, "assert!(a)", "is not arithmetic"),
    (DEEP, "return a;", "is not arithmetic"),
    ("self.iffy ^ 1", "self.iffy < 1", "Pair::sum has a comparison"),  # by a method
    ("a >> 1", "if a { 1 } else { 2 }", "small::Half::of has an if"),  # by a type parameter
    ("a / 3", "for i in 0..a {}", "small::Third::of has a loop"),  # by the same, of another type
    ("Self::of(a) + 1", "a < 1", "small::Part::next has a comparison"),  # by the same, in the trait
    ("P::next(a)", "P::far(a)", "which is not in the source"),
    ("<P: Part>", "<P: Default>", "calls P::next, which is not in the source"),  # a trait that is not there
    (LOOP, "if t[i] { t[i] = 0; }", "small::each has an if"),  # in a loop's body
    (LOOP, "while a {}", "has 2 loops"),
    ("pub fn square", "pub fn cube(a: u8) -> u8 { inner(a, a) }\npub fn square", "small::cube calls small::inner and is not looked at"),
    ("pub fn product", "pub fn times", "small::product is not in the source"),
    ("product(a, a)", "1", "small::square is among the callers and calls no function of the field"),
]


def look_at_small(files):
    return looked_at(Source(files), [("small",)], ["small::product"], ["small::each"], ["small::square"])


def edited(old, new):
    files = {file: text.replace(old, new) for file, text in RIGHT.items()}
    if files == RIGHT:
        sys.exit(f"source: {old} is not in the right source")
    return files


def reject_all_wrong():
    """Returns how many wrong sources were rejected, each for what is wrong in it."""
    found = [str(function) for function in look_at_small(RIGHT)]
    if found != LOOKED_AT:
        sys.exit(f"source: of the right source {found} were looked at")
    return reject_all("source", look_at_small, [(new, edited(old, new), reason) for old, new, reason in WRONG])


def main():
    rejected = reject_all_wrong()
    try:
        functions = looked_at(Source.of_folder(ROOT), FIELD, MULTIPLICATIONS, LOOPS, CALLERS)
    except Rejected as error:
        sys.exit(f"source: {error}")
    for function in functions:
        name = str(function)
        what = f": {MULTIPLICATIONS[name]}" if name in MULTIPLICATIONS else f", the body of its loop: {LOOPS[name]}" if name in LOOPS else ""
        print(f"source: {name}, {function.file}:{function.line}{what}")
    print(
        f"source: {len(MULTIPLICATIONS)} multiplications, the bodies of {len(LOOPS)} loops and what they call, {len(functions)} functions in all:"
        f" no if, match, loop, comparison, && or ||; {rejected} wrong sources were rejected"
    )


if __name__ == "__main__":
    main()
