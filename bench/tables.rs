//! The tables of a stripe or of a volume of such stripes, and the proved calls on them.
use crate::timing::{best_of_all, noise};
use std::cell::RefCell;

pub const K: usize = 12;
pub const N: usize = 18;
pub const LOST: usize = N - K;
pub const CLIENTS: usize = 8;
pub const LENGTHS: [usize; 3] = [1, 512, 4096];
const PAGE: usize = 4096;

/// Bytes of which one is at a fixed place of a page, the same for every buffer of that place.
pub struct Buffer {
    bytes: Vec<u8>,
    start: usize,
    length: usize,
}

impl Buffer {
    /// Byte `at` is at that place.
    pub fn new(length: usize, at: usize, place: usize) -> Self {
        let mut bytes = vec![0; length + 2 * PAGE];
        let now = (bytes.as_ptr() as usize + at) % PAGE;
        let start = (PAGE - now) % PAGE + place;
        bytes[start..start + length].copy_from_slice(&noise(length));
        Buffer {
            bytes,
            start,
            length,
        }
    }

    pub fn get(&mut self) -> &mut [u8] {
        &mut self.bytes[self.start..self.start + self.length]
    }
}

/// Tables, and a value to swap in. Those of the records are made for the calls.
pub struct Tables {
    pub b: usize,
    pub value: Buffer,
    pub blocks: Buffer,
    pub spare: Buffer,
    pub differences: Buffer,
}

impl Tables {
    pub fn new(b: usize) -> Self {
        Tables::of_volume(b, 1, 0, b)
    }

    /// Of so many stripes, of which that one is at the same places of a page as a stripe alone; and a value of that length.
    pub fn of_volume(b: usize, stripes: usize, stripe: usize, value: usize) -> Self {
        let table = |each, place| Buffer::new(stripes * each, stripe * each, place);
        Tables {
            b,
            value: Buffer::new(value, 0, 0),
            blocks: table(N * b, 1024),
            spare: table(N * b, 2048),
            differences: table(CLIENTS * b, 3072),
        }
    }

    /// All that a call may change.
    pub fn bytes(&mut self) -> [&mut [u8]; 3] {
        [
            self.blocks.get(),
            self.spare.get(),
            self.differences.get(),
        ]
    }
}

pub fn accepted(number: u8) {
    assert_eq!(number, 0);
}

/// Declares an entry point's proved calls: so many of the work of that number, in that stripe.
macro_rules! entry_points {
    ($($name:ident)*) => {
        #[link(name = "callbench", kind = "static")]
        extern "C" {
            $(pub fn $name(
                work: u8,
                stripe: usize,
                calls: usize,
                b: usize,
                value: *const u8,
                value_length: usize,
                blocks: *mut u8,
                blocks_length: usize,
                spare: *mut u8,
                spare_length: usize,
                differences: *mut u8,
                differences_length: usize,
            ) -> u8;)*
        }
    };
}

// of one stripe
entry_points!(callbench_calls);

type EntryPoint = unsafe extern "C" fn(
    u8,
    usize,
    usize,
    usize,
    *const u8,
    usize,
    *mut u8,
    usize,
    *mut u8,
    usize,
    *mut u8,
    usize,
) -> u8;

/// So many calls by an entry point, in that stripe. Safety: each pointer and its length come from one slice, and the slices do not overlap.
pub fn proved(by: EntryPoint, work: Work, stripe: usize, calls: usize, tables: &mut Tables) {
    let b = tables.b;
    let (value, blocks, spare, differences) = (
        tables.value.get(),
        tables.blocks.get(),
        tables.spare.get(),
        tables.differences.get(),
    );
    accepted(unsafe {
        by(
            work.number,
            stripe,
            calls,
            b,
            value.as_ptr(),
            value.len(),
            blocks.as_mut_ptr(),
            blocks.len(),
            spare.as_mut_ptr(),
            spare.len(),
            differences.as_mut_ptr(),
            differences.len(),
        )
    });
}

/// What is done, by its number in callbench: how many calls are made at least and at most on one set of tables.
#[derive(Clone, Copy)]
pub struct Work {
    pub number: u8,
    pub least: usize,
    pub most: usize,
}

pub const DUES: Work = Work {
    number: 0,
    least: 1,
    most: 256,
};
pub const SWAPS: Work = Work {
    number: 1,
    least: 1,
    most: CLIENTS,
};
pub const ADDS: Work = Work {
    number: 2,
    least: 1,
    most: LOST * CLIENTS,
};

/// ns of one call of either side, without the first and the making of the tables: the most calls and the fewest are timed in the same rounds.
pub fn one_call(work: Work, ours: impl FnMut(usize), theirs: impl FnMut(usize)) -> [f64; 2] {
    one_of_each([work, work], ours, theirs)
}

/// The same where each side has its own work.
pub fn one_of_each(
    works: [Work; 2],
    ours: impl FnMut(usize),
    theirs: impl FnMut(usize),
) -> [f64; 2] {
    let (ours, theirs) = (RefCell::new(ours), RefCell::new(theirs));
    let times = best_of_all([
        &mut || (ours.borrow_mut())(works[0].least),
        &mut || (theirs.borrow_mut())(works[1].least),
        &mut || (ours.borrow_mut())(works[0].most),
        &mut || (theirs.borrow_mut())(works[1].most),
    ]);
    [0, 1].map(|side| {
        let calls = (works[side].most - works[side].least) as f64;
        (times[2 + side] - times[side]) * 1e9 / calls
    })
}
