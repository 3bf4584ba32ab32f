//! What a volume adds to the calls of one stripe: a swap and an add by its entry point beside the same by that of one stripe, and in one stripe of 1,024
//! beside a volume of one; and how fast a lost card is rebuilt, beside a plain encode of the same stripes.
use mezgaudre::{encode, Answer};
use std::hint::black_box;
use tables::{callbench_calls, one_call, proved};
use tables::{Tables, Work, ADDS, DUES, K, LENGTHS, N, SWAPS};
use timing::{best_of, met, on_own_stack};

#[macro_use]
mod tables;
mod timing;

// of a volume of one; of a volume of 1,024
entry_points!(callbench_volume_calls callbench_large_volume_calls);

const STRIPES: usize = 1024;
const STRIPE: usize = 511;

/// Eight swaps by one client, their adds, and the sweeps of a round.
const ROUND: usize = 92;

const WRITES: Work = Work {
    number: 4,
    least: 2 * ROUND,
    most: 202 * ROUND,
};
const MANY_DUES: Work = Work {
    least: 1000,
    most: 21_000,
    ..DUES
};
const CARD: Work = Work {
    number: 5,
    least: 0,
    most: 1 + STRIPES * (4 * N + 1),
};

/// A line of the table, and whether the ratio is at most the aim.
fn line(name: &str, b: usize, [ours, theirs]: [f64; 2], aim: f64) {
    let ratio = ours / theirs;
    println!("{name:<24}{b:>6}{ours:>12.1}{theirs:>12.1}{ratio:>8.3}");
    if 0.0 < aim {
        met(&format!("{name} at {b}"), ratio, &format!("at most {aim}"), ratio <= aim);
    }
}

/// ns of one call in a volume of one stripe, and by the entry point of one stripe. Both leave the same bytes.
fn in_one(work: Work, b: usize) -> [f64; 2] {
    let (mut ours, mut theirs) = (Tables::new(b), Tables::new(b));
    proved(callbench_volume_calls, work, 0, work.most, &mut ours);
    proved(callbench_calls, work, 0, work.most, &mut theirs);
    assert!(ours.bytes() == theirs.bytes());
    one_call(
        work,
        |calls| proved(callbench_volume_calls, work, 0, calls, black_box(&mut ours)),
        |calls| proved(callbench_calls, work, 0, calls, black_box(&mut theirs)),
    )
}

/// ns of one call in one stripe of 1,024, and in a volume of one.
fn in_many(work: Work, b: usize) -> [f64; 2] {
    let (mut ours, mut theirs) = (Tables::of_volume(b, STRIPES, STRIPE, b), Tables::new(b));
    one_call(
        work,
        |calls| {
            let tables = black_box(&mut ours);
            proved(callbench_large_volume_calls, work, STRIPE, calls, tables)
        },
        |calls| proved(callbench_volume_calls, work, 0, calls, black_box(&mut theirs)),
    )
}

/// Encodes every stripe.
fn encode_all(b: usize, blocks: &mut [u8]) {
    for stripe in blocks.chunks_exact_mut(N * b) {
        let (data, redundant) = stripe.split_at_mut(K * b);
        assert_eq!(encode(K, N, b, data, redundant), Answer::Accepted);
    }
}

/// Seconds of a card's failure and a rebuild of every stripe, and of a plain encode of them.
fn card(b: usize) -> [f64; 2] {
    let mut ours = Tables::of_volume(b, STRIPES, 0, STRIPES * b);
    encode_all(b, ours.blocks.get());
    let mut theirs = ours.blocks.get().to_vec();
    let rebuild = |calls, ours: &mut Tables| proved(callbench_large_volume_calls, CARD, 0, calls, ours);
    rebuild(1, &mut ours);
    assert!(ours.blocks.get() != theirs);
    rebuild(CARD.most, &mut ours);
    assert!(ours.blocks.get() == theirs);
    let [made, _] = best_of(|| rebuild(0, black_box(&mut ours)), || ());
    let [all, encoded] = best_of(
        || rebuild(CARD.most, black_box(&mut ours)),
        || encode_all(b, black_box(&mut theirs)),
    );
    [all - made, encoded]
}

fn measure_all() {
    println!("ns                           B      volume  one stripe   ratio");
    for b in LENGTHS {
        line("swap", b, in_one(SWAPS, b), 1.2);
    }
    for b in LENGTHS {
        line("add", b, in_one(ADDS, b), 1.2);
    }
    line("due", 1, in_one(DUES, 1), 0.0);
    println!("ns                           B    of 1,024        of 1   ratio");
    for b in LENGTHS {
        line("write and sweep", b, in_many(WRITES, b), 1.1);
    }
    line("due", 1, in_many(MANY_DUES, 1), 1.1);
    let b = 4096;
    let [rebuilt, encoded] = card(b);
    for (name, seconds) in [("rebuild of a card", rebuilt), ("plain encode", encoded)] {
        let stripes = STRIPES as f64 / seconds;
        println!(
            "{name:<24}{b:>6}{stripes:>12.0} stripes/s{:>10.0} MB/s of the stripes{:>10.0} MB/s of the card",
            stripes * (N * b) as f64 / 1e6,
            stripes * b as f64 / 1e6
        );
    }
    println!("rebuild of a card beside a plain encode: {:.2}", rebuilt / encoded);
}

fn main() {
    on_own_stack(measure_all);
}
