//! What a swap, an add and a whole rebuild cost on lent tables in the largest stripe, beside the same calls in plain Rust (`plain.rs`), in one run, on
//! tables at the same places of a page; a tick beside a lock; an image beside a copy of the three tables; and a read beside one of blocks of one byte.
use mezgaudre::image_length;
use plain::{Client, Node, Sizes, Stripe};
use std::cmp::Ordering;
use std::hint::black_box;
use tables::{accepted, callbench_calls, one_call, one_of_each, proved};
use tables::{Buffer, Tables, Work, ADDS, CLIENTS, DUES, K, LENGTHS, LOST, N, SWAPS};
use timing::{best_of, met, on_own_stack};

mod field;
mod plain;
mod tables;
mod timing;

const REBUILD: Work = Work {
    number: 3,
    least: 1,
    most: 4 * N + 1,
};
const TICKS: Work = Work {
    number: 6,
    least: 1,
    most: 256,
};
const LOCKS: Work = Work {
    number: 7,
    least: 1,
    most: N,
};

const IMAGES: Work = Work {
    number: 0, // images are no work of callbench_calls
    least: 1,
    most: 64,
};

const READS: Work = Work {
    number: 0, // nor are reads
    least: 1,
    most: 1024,
};

#[link(name = "callbench", kind = "static")]
extern "C" {
    fn callbench_images(
        calls: usize,
        b: usize,
        blocks: *const u8,
        blocks_length: usize,
        differences: *const u8,
        differences_length: usize,
        spare: *const u8,
        spare_length: usize,
        out: *mut u8,
        out_length: usize,
    ) -> u8;
    fn callbench_reads(
        calls: usize,
        b: usize,
        blocks: *const u8,
        blocks_length: usize,
        spare: *const u8,
        spare_length: usize,
    ) -> u8;
}

/// So many calls with blocks of b bytes in plain Rust.
type Plain = fn(usize, usize, &mut Tables);

// The same in plain Rust.

fn sizes(b: usize) -> Sizes {
    Sizes {
        k: K,
        n: N,
        b,
        failures: LOST,
        m: CLIENTS,
    }
}

/// Plays on a stripe of these nodes and clients.
fn plainly(
    tables: &mut Tables,
    nodes: &mut [Node],
    clients: &mut [Client],
    play: impl FnOnce(&mut Stripe, &[u8]),
) {
    let mut stripe = Stripe {
        nodes,
        clients,
        blocks: tables.blocks.get(),
        spare: tables.spare.get(),
        differences: tables.differences.get(),
    };
    play(&mut stripe, tables.value.get());
    black_box(&stripe.nodes);
}

/// At node 1, one by each client.
fn plain_swaps(calls: usize, b: usize, tables: &mut Tables) {
    let z = sizes(b);
    let (nodes, clients) = (&mut [Node::fresh(); N], &mut [Client::fresh(); CLIENTS]);
    plainly(tables, nodes, clients, |stripe, value| {
        for c in 1..=calls {
            accepted(stripe.swap(&z, c as u8, 1, value));
        }
    });
}

/// By clients that have a write in hand, one by each at each redundant node.
fn plain_adds(calls: usize, b: usize, tables: &mut Tables) {
    let z = sizes(b);
    let nodes = &mut [Node::fresh(); N];
    let clients = &mut std::array::from_fn::<_, CLIENTS, _>(|c| Client::writing(c as u8 + 1));
    plainly(tables, nodes, clients, |stripe, _| {
        for i in 0..calls {
            let (c, j) = (i % CLIENTS + 1, K + 1 + i / CLIENTS);
            accepted(stripe.add(&z, c as u8, j as u8));
        }
    });
}

fn plain_rebuild(calls: usize, b: usize, tables: &mut Tables) {
    let z = sizes(b);
    let (nodes, clients) = (&mut [Node::fresh(); N], &mut [Client::fresh(); CLIENTS]);
    nodes[..LOST].fill(Node::failed());
    plainly(tables, nodes, clients, |stripe, _| {
        for i in 0..calls {
            accepted(match i.cmp(&N) {
                Ordering::Less => stripe.lock(&z, 1),
                Ordering::Equal => stripe.pick(&z, 1),
                Ordering::Greater => stripe.advance(&z, 1),
            });
        }
    });
}

/// On nodes with 16 entries each.
fn plain_ticks(calls: usize, b: usize, tables: &mut Tables) {
    let z = sizes(b);
    let (nodes, clients) = (&mut [Node::full(); N], &mut [Client::fresh(); CLIENTS]);
    plainly(tables, nodes, clients, |stripe, _| {
        for _ in 0..calls {
            accepted(stripe.tick(&z));
        }
    });
}

/// A line of the table, which says the times of one call or of all. Both sides leave the same bytes. Returns the ratio.
fn line(name: &str, work: Work, plain: Plain, is_one: bool, b: usize) -> f64 {
    let (mut ours, mut theirs) = (Tables::new(b), Tables::new(b));
    proved(callbench_calls, work, 0, work.most, &mut ours);
    plain(work.most, b, &mut theirs);
    assert!(ours.bytes() == theirs.bytes());
    let mut ours = |calls| proved(callbench_calls, work, 0, calls, black_box(&mut ours));
    let mut theirs = |calls| plain(calls, b, black_box(&mut theirs));
    let [proved, plain] = if is_one {
        one_call(work, ours, theirs)
    } else {
        best_of(|| ours(work.most), || theirs(work.most)).map(|seconds| seconds * 1e9)
    };
    let ratio = proved / plain;
    println!("{name:<8}{b:>6}{proved:>12.0}{plain:>12.0}{ratio:>8.2}");
    ratio
}

fn lines(name: &str, work: Work, plain: Plain, is_one: bool) -> [f64; 3] {
    LENGTHS.map(|b| line(name, work, plain, is_one, b))
}

/// ns of a tick and of a lock, where each node has 16 entries: both look at every entry.
fn tick_and_lock() -> [f64; 2] {
    let (mut ours, mut theirs) = (Tables::new(1), Tables::new(1));
    one_of_each(
        [TICKS, LOCKS],
        |calls| proved(callbench_calls, TICKS, 0, calls, black_box(&mut ours)),
        |calls| proved(callbench_calls, LOCKS, 0, calls, black_box(&mut theirs)),
    )
}

/// So many images into one buffer. Safety: each pointer and its length come from one slice, and the slices do not overlap.
fn images(calls: usize, tables: &mut Tables, out: &mut [u8]) {
    let b = tables.b;
    let [blocks, spare, differences] = tables.bytes();
    accepted(unsafe {
        callbench_images(
            calls,
            b,
            blocks.as_ptr(),
            blocks.len(),
            differences.as_ptr(),
            differences.len(),
            spare.as_ptr(),
            spare.len(),
            out.as_mut_ptr(),
            out.len(),
        )
    });
}

/// So many copies of the three tables, one after the other, into the end of the buffer, where an image has them: memcpy.
fn copies(calls: usize, tables: &mut Tables, out: &mut [u8]) {
    for _ in 0..calls {
        let [blocks, spare, differences] = tables.bytes();
        let mut end = out.len();
        for table in [&*spare, &*differences, &*blocks] {
            let start = end - table.len();
            out[start..end].copy_from_slice(black_box(table));
            end = start;
        }
        black_box(&mut *out);
    }
}

/// ns of an image, and of a copy of the three tables, at blocks of 4,096 bytes. Both leave the same bytes there.
fn image_and_copy() -> [f64; 2] {
    let b = LENGTHS[2];
    let length = image_length(K, N, b, LOST, CLIENTS).unwrap();
    let (mut ours, mut theirs) = (Tables::new(b), Tables::new(b));
    let (mut image, mut copy) = (Buffer::new(length, 0, 0), Buffer::new(length, 0, 0));
    images(1, &mut ours, image.get());
    copies(1, &mut theirs, copy.get());
    let tables = length - (2 * N + CLIENTS) * b;
    assert!(image.get()[tables..] == copy.get()[tables..]);
    one_of_each(
        [IMAGES, IMAGES],
        |calls| images(calls, black_box(&mut ours), black_box(image.get())),
        |calls| copies(calls, black_box(&mut theirs), black_box(copy.get())),
    )
}

/// So many reads of positions 1 to 12 in turn. Safety: each pointer and its length come from one slice.
fn reads(calls: usize, tables: &mut Tables) -> u8 {
    let b = tables.b;
    let [blocks, spare, _] = tables.bytes();
    unsafe {
        callbench_reads(
            calls,
            b,
            blocks.as_ptr(),
            blocks.len(),
            spare.as_ptr(),
            spare.len(),
        )
    }
}

/// ns of a read of a stripe by value, its answer and the part that it names, at blocks of 1 and of 4,096 bytes.
fn reads_of_both() -> [f64; 2] {
    let (mut small, mut large) = (Tables::new(LENGTHS[0]), Tables::new(LENGTHS[2]));
    for tables in [&mut small, &mut large] {
        let b = tables.b;
        let [blocks, _, _] = tables.bytes();
        for i in 0..K {
            blocks[i * b] = 1 << (i % 8);
        }
        assert_eq!(reads(8, tables), 255);
    }
    one_of_each(
        [READS, READS],
        |calls| {
            black_box(reads(calls, black_box(&mut small)));
        },
        |calls| {
            black_box(reads(calls, black_box(&mut large)));
        },
    )
}

fn measure_all() {
    println!("ns            B      proved  plain Rust   ratio");
    let aims = [
        ("swap", lines("swap", SWAPS, plain_swaps, true), [2.0, 1.25]),
        ("add", lines("add", ADDS, plain_adds, true), [1.8, 1.10]),
        (
            "rebuild",
            lines("rebuild", REBUILD, plain_rebuild, false),
            [2.8, 1.6],
        ),
    ];
    line("tick", TICKS, plain_ticks, true, 1);
    let tables = &mut Tables::new(1);
    let due = |calls| proved(callbench_calls, DUES, 0, calls, black_box(tables));
    let [asking, _] = one_call(DUES, due, |_| ());
    println!("a call that only asks whether a node is due: {asking:.0} ns");
    let [tick, lock] = tick_and_lock();
    println!("with 16 entries at each node, a tick: {tick:.0} ns, a lock: {lock:.0} ns");
    let [image, copy] = image_and_copy();
    println!("an image at 4096: {image:.0} ns, a memcpy of its three tables: {copy:.0} ns");
    let [small, large] = reads_of_both();
    println!("a read at 1: {small:.0} ns, at 4096: {large:.0} ns");
    println!("(12,18), 8 clients, lent tables, all in the cache. A swap is one of 8 at one node, one by each client; an add is one of 48, one by each client at each redundant node; the first call and the making of the tables are not in their time. A rebuild is 18 locks, a pick, 18 writes, 18 settles and 18 unlocks with 6 nodes lost, and the making of its tables. A tick is one of 256 on nodes with 16 entries each.");
    for (name, ratios, [small, large]) in aims {
        for (b, ratio, most) in [(1, ratios[0], small), (4096, ratios[2], large)] {
            let what = format!("{name} at {b} on lent tables, times plain Rust's");
            met(&what, ratio, &format!("at most {most}"), ratio <= most);
        }
    }
    let ratio = tick / lock;
    met("a tick, times a lock's", ratio, "at most 2.5", ratio <= 2.5);
    let ratio = image / copy;
    met(
        "an image at 4096, times a memcpy of its three tables",
        ratio,
        "at most 1.5",
        ratio <= 1.5,
    );
    let ratio = large / small;
    met(
        "a read at 4096, times one at 1",
        ratio,
        "at most 1.1",
        ratio <= 1.1,
    );
}

fn main() {
    on_own_stack(measure_all);
}
