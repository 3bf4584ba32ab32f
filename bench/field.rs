//! The field in plain Rust, by tables and with tests for 0.

pub const fn double(a: u8) -> u8 {
    a << 1 ^ (a >> 7) * 0x1D
}

const fn powers() -> [u8; 512] {
    let mut table = [1; 512];
    let mut i = 1;
    while i < 512 {
        table[i] = double(table[i - 1]);
        i += 1;
    }
    table
}

const fn logarithms() -> [u8; 256] {
    let mut table = [0; 256];
    let mut i = 0;
    while i < 255 {
        table[POWERS[i] as usize] = i as u8;
        i += 1;
    }
    table
}

static POWERS: [u8; 512] = powers();
static LOGARITHMS: [u8; 256] = logarithms();

fn logarithm(a: u8) -> usize {
    LOGARITHMS[usize::from(a)].into()
}

pub fn times(a: u8, b: u8) -> u8 {
    match (a, b) {
        (0, _) | (_, 0) => 0,
        _ => POWERS[logarithm(a) + logarithm(b)],
    }
}

pub fn inverse(a: u8) -> u8 {
    match a {
        0 => 0,
        _ => POWERS[255 - logarithm(a)],
    }
}
