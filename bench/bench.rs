//! How many bytes a second the library multiplies, beside a plain loop over a row of products. A source byte counts once for each
//! block that it is multiplied into.
use mezgaudre::{add_times, decode, encode, product, Answer};
use std::hint::black_box;
use timing::{best_of, met, noise, on_own_stack};

#[allow(dead_code)] // its product alone
mod field;
mod timing;

const K: usize = 12;
const N: usize = 18;
const LOST: usize = N - K;
const LENGTHS: [usize; 3] = [64, 512, 4096];

/// At place c the products of c with 0 to 255.
type Rows = Vec<[u8; 256]>;

fn rows() -> Rows {
    (0..=255)
        .map(|c| std::array::from_fn(|x| product(c, x as u8)))
        .collect()
}

/// The loop to compare with: dst plus the row's number times src.
#[inline(never)]
fn add_row(row: &[u8; 256], dst: &mut [u8], src: &[u8]) {
    for (d, s) in dst.iter_mut().zip(src) {
        *d ^= row[*s as usize];
    }
}

/// Each block of `out` becomes the sum of its weights times the blocks of `sources`.
fn combine_rows(rows: &Rows, weights: &[[u8; K]], b: usize, sources: &[u8], out: &mut [u8]) {
    out.fill(0);
    for (weights, dst) in weights.iter().zip(out.chunks_exact_mut(b)) {
        for (&c, src) in weights.iter().zip(sources.chunks_exact(b)) {
            add_row(&rows[c as usize], dst, src);
        }
    }
}

/// With what weight each of K blocks counts in each of LOST others: `column(i)` is what the byte 1 in block i alone gives.
fn weights(column: impl Fn(usize) -> Vec<u8>) -> [[u8; K]; LOST] {
    let columns: Vec<_> = (0..K).map(column).collect();
    std::array::from_fn(|j| std::array::from_fn(|i| columns[i][j]))
}

fn accepted(answer: Answer) {
    assert_eq!(answer, Answer::Accepted);
}

/// A line of the table, on calls that multiply so many bytes. Returns the library's GB/s and its ratio to the row loop.
fn line(
    name: &str,
    b: usize,
    bytes: usize,
    library: impl FnMut(),
    row: impl FnMut(),
) -> (f64, f64) {
    let [library, row] = best_of(library, row).map(|seconds| bytes as f64 / seconds / 1e9);
    let ratio = library / row;
    println!("{name:<24}{b:>6}{library:>12.2}{row:>12.2}{ratio:>8.2}");
    (library, ratio)
}

fn multiply_add(rows: &Rows, b: usize) -> (f64, f64) {
    let (c, src, mut dst, mut row_dst) = (0x8E, noise(b), vec![0; b], vec![0; b]);
    accepted(add_times(&mut dst, &src, c));
    add_row(&rows[c as usize], &mut row_dst, &src);
    assert_eq!(dst, row_dst);
    let library = || {
        accepted(add_times(
            black_box(&mut dst),
            black_box(&src),
            black_box(c),
        ))
    };
    let row = || {
        add_row(
            black_box(&rows[c as usize]),
            black_box(&mut row_dst),
            black_box(&src),
        )
    };
    line("multiply-add", b, b, library, row)
}

fn encode_12_6(rows: &Rows, b: usize) -> (f64, f64) {
    let weights = weights(|i| {
        let (mut data, mut out) = ([0; K], vec![0; LOST]);
        data[i] = 1;
        accepted(encode(K, N, 1, &data, &mut out));
        out
    });
    let data = noise(K * b);
    let (mut out, mut row_out) = (vec![0; LOST * b], vec![0; LOST * b]);
    accepted(encode(K, N, b, &data, &mut out));
    combine_rows(rows, &weights, b, &data, &mut row_out);
    assert_eq!(out, row_out);
    let library = || accepted(encode(K, N, b, black_box(&data), black_box(&mut out)));
    let row = || {
        combine_rows(
            rows,
            black_box(&weights),
            b,
            black_box(&data),
            black_box(&mut row_out),
        )
    };
    line("encode 12+6", b, K * b * LOST, library, row)
}

/// Data blocks 1 to 6 are lost: they are decoded from the others, and the six data blocks that are left are copied.
fn decode_6_lost(rows: &Rows, b: usize) -> (f64, f64) {
    let left: [u8; K] = std::array::from_fn(|i| (LOST + 1 + i) as u8);
    let weights = weights(|i| {
        let (mut table, mut out) = ([0; N], vec![0; K]);
        table[left[i] as usize - 1] = 1;
        accepted(decode(K, N, 1, &left, &table, &mut out));
        out
    });
    let mut table = noise(N * b);
    let data = table[..K * b].to_vec();
    accepted(encode(K, N, b, &data, &mut table[K * b..]));
    table[..LOST * b].fill(0xA5);
    let (mut out, mut row_out) = (vec![0; K * b], vec![0; K * b]);
    let by_rows = |table: &[u8], out: &mut [u8]| {
        let (lost, kept) = out.split_at_mut(LOST * b);
        combine_rows(rows, &weights, b, &table[LOST * b..], lost);
        kept.copy_from_slice(&table[LOST * b..K * b]);
    };
    accepted(decode(K, N, b, &left, &table, &mut out));
    by_rows(&table, &mut row_out);
    assert!(out == data && row_out == data);
    let library = || {
        accepted(decode(
            K,
            N,
            b,
            &left,
            black_box(&table),
            black_box(&mut out),
        ))
    };
    let row = || by_rows(black_box(&table), black_box(&mut row_out));
    line("decode 12+6, 6 lost", b, K * b * LOST, library, row)
}

/// One product, over pairs of bytes with no pattern: ns in the library, by a call of it, and in plain Rust with a test for 0.
fn product_alone() -> [f64; 2] {
    const PAIRS: usize = 4096;
    let factors = noise(2 * PAIRS);
    let sum = |product: fn(u8, u8) -> u8| {
        let product = black_box(product);
        let products = factors
            .chunks_exact(2)
            .map(|pair| product(pair[0], pair[1]));
        black_box(products.fold(0, |sum, r| sum ^ r))
    };
    assert_eq!(sum(product), sum(field::times));
    let library = || {
        sum(product);
    };
    let plain = || {
        sum(field::times);
    };
    best_of(library, plain).map(|seconds| seconds / PAIRS as f64 * 1e9)
}

fn aim(what: &str, measured: f64, least: f64) {
    met(
        what,
        measured,
        &format!("at least {least}"),
        measured >= least,
    );
}

fn measure_all() {
    let rows = rows();
    println!("GB/s of bytes multiplied     B     library    row loop   ratio");
    let [_, _, added] = LENGTHS.map(|b| multiply_add(&rows, b));
    let [small, _, encoded] = LENGTHS.map(|b| encode_12_6(&rows, b));
    let [_, _, decoded] = LENGTHS.map(|b| decode_6_lost(&rows, b));
    println!("Encode and decode write their whole output in each call; the row loop clears its own, within its time.");
    println!("Multiply-add adds to the same block again and again, and nothing clears it. All buffers stay in the cache.");
    aim("multiply-add at 4096, ratio", added.1, 1.5);
    aim("encode 12+6 at 4096, ratio", encoded.1, 2.5);
    let call = (K * LENGTHS[0] * LOST) as f64 / small.0 / 1e3;
    met(
        "a call of encode 12+6 at 64, microseconds",
        call,
        "at most 0.85",
        call <= 0.85,
    );
    // Decoding puts out K blocks, of which LOST are computed and the rest copied; encoding puts out N - K.
    let beside = decoded.0 / encoded.0;
    let output = K as f64 / LOST as f64;
    aim(
        "decode beside encode, per byte of output",
        beside * output,
        0.95,
    );
    println!("decode beside encode, per byte of a lost block: {beside:.2}");
    let [library, plain] = product_alone();
    println!(
        "a product alone, ns: {library:.1}, in plain Rust with a test for 0 {plain:.1}, ratio {:.2}",
        library / plain
    );
}

fn main() {
    on_own_stack(measure_all);
}
