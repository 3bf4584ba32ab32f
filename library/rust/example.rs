//! Encodes four blocks, loses three of the seven, decodes and compares; then places blocks and nodes, and asks for lengths of
//! images. What the library computes is checked by a product bit by bit, and by counting.
use mezgaudre::{
    add_times, block_home, card, decode, encode, image_length, node_on, product, Answer, Home,
};

const K: usize = 4;
const N: usize = 7;
const B: usize = 512;

fn expect(right: bool, what: &str) {
    println!("{}: {what}", if right { "right" } else { "WRONG" });
    if !right {
        std::process::exit(1);
    }
}

/// a times b in GF(256), polynomial 0x11D, bit by bit.
fn slow_product(a: u8, b: u8) -> u8 {
    let bits = (0..8).filter(|&bit| b >> bit & 1 == 1);
    bits.map(|bit| (0..bit).fold(a, |x, _| x << 1 ^ (x >> 7) * 0x1D))
        .fold(0, |sum, x| sum ^ x)
}

/// c(j,i), the inverse of (j-1) XOR (i-1), by trying.
fn coefficient(j: usize, i: usize) -> u8 {
    let difference = (j - 1 ^ i - 1) as u8;
    (1..=255)
        .find(|&c| slow_product(c, difference) == 1)
        .unwrap()
}

fn products_agree() -> bool {
    (0..=255).all(|a| (0..=255).all(|b| product(a, b) == slow_product(a, b)))
}

/// Redundant block j of the table, byte by byte. Block j, from 1, stands at (j - 1) * B.
fn redundant_agrees(table: &[u8], j: usize) -> bool {
    let byte = |j: usize, p: usize| table[(j - 1) * B + p];
    let sum = |p| {
        (1..=K).fold(0, |sum, i| {
            sum ^ slow_product(coefficient(j, i), byte(i, p))
        })
    };
    (0..B).all(|p| byte(j, p) == sum(p))
}

/// The difference of data block i and its new value, times c(j,i), makes redundant block j the new one.
fn update_agrees(table: &mut [u8], j: usize, i: usize) -> bool {
    let difference: Vec<u8> = (0..B).map(|p| (p * 11 + 3) as u8).collect();
    for p in 0..B {
        table[(i - 1) * B + p] ^= difference[p];
    }
    let answer = add_times(
        &mut table[(j - 1) * B..j * B],
        &difference,
        coefficient(j, i),
    );
    answer == Answer::Accepted && redundant_agrees(table, j)
}

/// The homes of 1,000 blocks: position by position, stripe by stripe.
fn homes_agree() -> bool {
    let positions =
        (0..).flat_map(|stripe| (1..=K as u8).map(move |position| Home { stripe, position }));
    positions
        .take(1000)
        .enumerate()
        .all(|(b, home)| block_home(K, b) == Some(home))
}

/// The cards of the nodes of 1,000 stripes: node 1 a card further at each, the next node on the next card, and back by `node_on`.
fn cards_agree() -> bool {
    (0..1000).all(|s| {
        let cards = (1..=N as u8).cycle().skip(s % N);
        (1..=N as u8)
            .zip(cards)
            .all(|(j, at)| card(N, s, j) == Some(at) && node_on(N, s, at) == Some(j))
    })
}

/// The length of an image: a header and the sizes, 140 bytes a node, 135 a client, two blocks a node and one a client.
fn expected_image_length(n: usize, b: usize, m: usize) -> usize {
    4 + 6 * 8 + 8 + n * (140 + 2 * b) + m * (135 + b)
}

fn image_lengths_agree() -> bool {
    (1..=8).all(|m| {
        (2..=12).all(|k| {
            (k + 1..=(k + 6).min(2 * k)).all(|n| {
                [1, 8, 64, 512, 4096].into_iter().all(|b| {
                    image_length(k, n, b, n - k, m) == Some(expected_image_length(n, b, m))
                })
            })
        })
    })
}

fn main() {
    let mut table: Vec<u8> = (0..N * B)
        .map(|q| (q % B * (q % B) / 7 + 31 * (q % B) + 97 * (q / B)) as u8)
        .collect();

    expect(products_agree(), "all products");
    let (data, redundant) = table.split_at_mut(K * B);
    expect(
        encode(K, N, B, data, redundant) == Answer::Accepted,
        "encoding is accepted",
    );
    expect(
        (K + 1..=N).all(|j| redundant_agrees(&table, j)),
        "the redundant blocks",
    );

    let mut damaged = table.clone();
    for lost in [1, 3, 6] {
        damaged[(lost - 1) * B..lost * B].fill(0xA5);
    }
    let mut found = vec![0; K * B];
    expect(
        decode(K, N, B, &[7, 2, 5, 4], &damaged, &mut found) == Answer::Accepted,
        "decoding is accepted",
    );
    expect(
        found == table[..K * B],
        "the data without blocks 1, 3 and 6",
    );
    expect(
        update_agrees(&mut table, 6, 3),
        "a redundant block after an update",
    );

    expect(
        decode(K, N, B, &[2, 7, 2], &damaged, &mut found) == Answer::TooFew(2),
        "two nodes are too few",
    );
    expect(
        decode(K, N, B, &[2, 4, 5, 8], &damaged, &mut found) == Answer::OutOfRange,
        "there is no node 8",
    );
    let (data, redundant) = damaged.split_at_mut(K * B);
    expect(
        encode(K, N, B, &data[1..], redundant) == Answer::OutOfLimits,
        "a byte is missing",
    );

    expect(homes_agree(), "the homes of 1,000 blocks");
    expect(cards_agree(), "the cards of 1,000 stripes");
    expect(block_home(13, 30).is_none(), "no stripe has 13 data blocks");
    expect(
        card(N, 0, N as u8 + 1).is_none() && node_on(N, 0, 0).is_none(),
        "there is no node 8 and no card 0",
    );

    expect(image_lengths_agree(), "the lengths of images");
    expect(
        image_length(12, 18, 4096, 6, 8) == Some(183_884),
        "the longest image",
    );
    expect(
        image_length(12, 18, 4096, 7, 8).is_none(),
        "no stripe of 18 nodes plans for 7 failures",
    );
}
