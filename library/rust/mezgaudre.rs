//! Mezgaudre's erasure code over GF(256), a volume's layout and the length of a stripe's image, proved, for safe Rust. The library
//! tests every size and length itself, and answers what is wrong with them, so these functions take any arguments.

/// What encoding and decoding answer. Only `Accepted` has written to the buffer lent for the result.
#[derive(Clone, Copy, Debug, PartialEq, Eq)]
#[must_use]
pub enum Answer {
    Accepted,
    /// The sizes, or a buffer's length.
    OutOfLimits,
    /// A node that is not one of 1 to n.
    OutOfRange,
    /// Fewer than k distinct nodes: so many.
    TooFew(u8),
    /// Proved never to be given.
    NoInverse,
}

/// A position of a stripe: stripes are counted from 0, positions from 1.
#[derive(Clone, Copy, Debug, PartialEq, Eq)]
pub struct Home {
    pub stripe: usize,
    pub position: u8,
}

#[link(name = "exports", kind = "static")]
extern "C" {
    fn mezgaudre_encode(
        k: usize,
        n: usize,
        b: usize,
        blocks: *const u8,
        blocks_length: usize,
        out: *mut u8,
        out_length: usize,
    ) -> u32;
    fn mezgaudre_decode(
        k: usize,
        n: usize,
        b: usize,
        nodes: *const u8,
        nodes_length: usize,
        blocks: *const u8,
        blocks_length: usize,
        out: *mut u8,
        out_length: usize,
    ) -> u32;
    fn mezgaudre_product(a: u8, b: u8) -> u8;
    fn mezgaudre_add_times(
        dst: *mut u8,
        dst_length: usize,
        src: *const u8,
        src_length: usize,
        c: u8,
    ) -> u32;
    fn mezgaudre_block_stripe(k: usize, b: usize) -> usize;
    fn mezgaudre_block_position(k: usize, b: usize) -> u8;
    fn mezgaudre_card(n: usize, s: usize, j: u8) -> u8;
    fn mezgaudre_node_on(n: usize, s: usize, card: u8) -> u8;
    fn mezgaudre_image_length(k: usize, n: usize, b: usize, failures: usize, m: usize) -> usize;
}

impl Answer {
    /// Of the number that the library returns: the answer's own, and 256 times the size.
    fn of(answer: u32) -> Self {
        match answer % 256 {
            0 => Self::Accepted,
            1 => Self::OutOfLimits,
            2 => Self::OutOfRange,
            11 => Self::TooFew((answer / 256) as u8),
            _ => Self::NoInverse,
        }
    }
}

// Safety of the calls: a pointer and a length come from one slice, and what is lent as `&mut` overlaps nothing else.

/// Encodes k data blocks of b bytes into the n - k redundant blocks: k is 2 to 12, n - k is 1 to 6 and at most k, b is 1 to 4096,
/// `blocks` has k * b bytes and `out` has (n - k) * b.
pub fn encode(k: usize, n: usize, b: usize, blocks: &[u8], out: &mut [u8]) -> Answer {
    Answer::of(unsafe {
        mezgaudre_encode(
            k,
            n,
            b,
            blocks.as_ptr(),
            blocks.len(),
            out.as_mut_ptr(),
            out.len(),
        )
    })
}

/// Decodes the k data blocks from the blocks of the given nodes, in any order: `blocks` is a table of n * b bytes, of which only
/// the given nodes' blocks are read, and `out` has k * b.
pub fn decode(k: usize, n: usize, b: usize, nodes: &[u8], blocks: &[u8], out: &mut [u8]) -> Answer {
    Answer::of(unsafe {
        mezgaudre_decode(
            k,
            n,
            b,
            nodes.as_ptr(),
            nodes.len(),
            blocks.as_ptr(),
            blocks.len(),
            out.as_mut_ptr(),
            out.len(),
        )
    })
}

/// a times b in GF(256).
pub fn product(a: u8, b: u8) -> u8 {
    unsafe { mezgaudre_product(a, b) }
}

/// Adds c times `src` to `dst`; `OutOfLimits` where their lengths differ.
pub fn add_times(dst: &mut [u8], src: &[u8], c: u8) -> Answer {
    Answer::of(unsafe {
        mezgaudre_add_times(dst.as_mut_ptr(), dst.len(), src.as_ptr(), src.len(), c)
    })
}

/// `None` for 0, which stands for no position, no card and no node.
fn counted(number: u8) -> Option<u8> {
    (number != 0).then_some(number)
}

/// Where block b of a volume is, k blocks to a stripe: stripe b / k, position b % k + 1. `None` where k is not 1 to 12.
pub fn block_home(k: usize, b: usize) -> Option<Home> {
    let stripe = unsafe { mezgaudre_block_stripe(k, b) };
    let position = counted(unsafe { mezgaudre_block_position(k, b) })?;
    Some(Home { stripe, position })
}

/// The card, of n, that node j of stripe s is on: (j - 1 + s) % n + 1. `None` where n is more than 18, or j is not 1 to n.
pub fn card(n: usize, s: usize, j: u8) -> Option<u8> {
    counted(unsafe { mezgaudre_card(n, s, j) })
}

/// The node of stripe s that is on the card, of n. `None` where n is more than 18, or the card is not 1 to n.
pub fn node_on(n: usize, s: usize, card: u8) -> Option<u8> {
    counted(unsafe { mezgaudre_node_on(n, s, card) })
}

/// How many bytes the image of a stripe has (docs/IMAGE.md), by its sizes: `failures` are those planned for, 0 to n - k, and m is
/// the number of clients, 1 to 8. `None` where the sizes are outside the limits.
pub fn image_length(k: usize, n: usize, b: usize, failures: usize, m: usize) -> Option<usize> {
    let length = unsafe { mezgaudre_image_length(k, n, b, failures, m) };
    (length != 0).then_some(length)
}
