//! The chip and the tables of fields, as the generator knows them.

use crate::plain::Template;

pub const BILLION: i64 = 1_000_000_000;

pub fn register(kind: u8) -> usize {
    if kind == 0 { 8 } else { 0 }
}

pub fn pages(kind: u8) -> usize {
    [1, 4, 16][usize::from(kind % 3)]
}

pub fn image_length(kind: u8) -> usize {
    register(kind) + 32 * pages(kind)
}

pub fn stream_bits(kind: u8) -> usize {
    8 * (register(kind) + 31 * pages(kind))
}

pub fn stream_byte(kind: u8, byte: usize) -> usize {
    match byte.checked_sub(register(kind)) {
        Some(byte) => register(kind) + byte / 31 * 32 + 1 + byte % 31,
        None => byte,
    }
}

/// The parts of so many bits by stream byte: the byte's place in the image, the first bit in it, how many, and how many came
/// before; those past the stream's end fall away.
fn parts(kind: u8, bit: usize, width: usize) -> impl Iterator<Item = (usize, usize, usize, usize)> {
    let end = (bit + width).min(stream_bits(kind));
    let bytes = if bit < end { bit / 8..(end - 1) / 8 + 1 } else { 0..0 };
    bytes.map(move |byte| {
        let from = bit.max(8 * byte);
        let to = end.min(8 * byte + 8);
        (stream_byte(kind, byte), from % 8, to - from, from - bit)
    })
}

/// Puts bits into the stream; those past its end fall away.
pub fn put(kind: u8, image: &mut [u8], bit: usize, width: usize, code: u64) {
    for (byte, first, count, before) in parts(kind, bit, width) {
        let mask = (0xff >> (8 - count)) << first;
        image[byte] = image[byte] & !mask | (code >> before << first) as u8 & mask;
    }
}

/// Bits of the stream; those past its end are 0.
pub fn get(kind: u8, image: &[u8], bit: usize, width: usize) -> u64 {
    parts(kind, bit, width)
        .map(|(byte, first, count, before)| u64::from(image[byte] >> first & 0xff >> (8 - count)) << before)
        .sum()
}

pub fn mend(kind: u8, image: &mut [u8]) {
    for page in 0..pages(kind) {
        let check = register(kind) + 32 * page;
        let first = if page == 0 { 0 } else { check };
        image[check] = 0;
        let sum = image[first..check + 32].iter().fold(0u8, |sum, byte| sum.wrapping_add(*byte));
        image[check] = sum.wrapping_neg();
    }
}

#[derive(Clone, Copy, PartialEq)]
pub enum Row {
    Plain(i64, i64),
    /// Lowest and highest figure, step.
    Stepped(i64, i64, i64),
    /// Start, ratio and last code.
    Geometric(f64, f64, u64),
    Single,
}

impl Row {
    /// The lowest and the highest figure.
    pub fn ends(self) -> (i64, i64) {
        match self {
            Row::Plain(least, most) | Row::Stepped(least, most, _) => (least, most),
            Row::Geometric(_, _, last) => (self.scaled(0), self.scaled(last)),
            Row::Single => (0, 0),
        }
    }

    /// A geometric row's value of a code.
    pub fn scaled(self, code: u64) -> i64 {
        match self {
            Row::Geometric(start, ratio, _) => (start * ratio.powi(code as i32)).round() as i64,
            _ => 0,
        }
    }
}

/// What the fields of a sheet go by.
#[derive(Clone, Copy, Debug, PartialEq)]
pub struct Layout {
    pub template: Template,
    pub precision: usize,
}

const BRIDGE: [usize; 21] = [14, 15, 5, 6, 24, 6, 32, 32, 2, 0, 0, 2, 18, 6, 9, 9, 9, 16, 15, 12, 11];
const RESISTANCE: [usize; 19] = [14, 15, 5, 6, 24, 6, 32, 32, 2, 0, 0, 2, 6, 8, 8, 16, 15, 12, 11];

impl Layout {
    /// How many fields there are.
    pub fn last(self) -> usize {
        self.template.last()
    }

    pub fn row(self, field: usize) -> Row {
        match field {
            1 => Row::Plain(17, 16381),
            3 => Row::Plain(1, 26),
            6 => Row::Plain(0, 45),
            7 | 8 => Row::Single,
            2 | 4 | 5 => Row::Plain(0, (1 << self.width(field)) - 1),
            _ => match self.template {
                Template::Bridge => self.bridge(field),
                Template::Resistance => self.resistance(field),
            },
        }
    }

    fn bridge(self, field: usize) -> Row {
        match field {
            9 | 12 => Row::Plain(0, 2),
            10 | 11 => match self.precision {
                0 => Row::Stepped(-BILLION, 1_046_000_000, 1_000_000),
                1 => Row::Stepped(-6_550_000, -6_550_000 + 25 * 524_286, 25),
                _ => Row::Single,
            },
            13 => Row::Stepped(10, 10 + 262_142, 1),
            14 => RESPONSE,
            15..=17 => Row::Stepped(1, 511, 1),
            18 => Row::Stepped(0, 65_534, 1),
            _ => Row::Plain(0, (1 << self.width(field)) - 1),
        }
    }

    fn resistance(self, field: usize) -> Row {
        match field {
            10 | 11 => match self.precision {
                0 => Row::Stepped(0, 1_260, 10),
                1 => Row::Stepped(0, 1_022_000, 1_000),
                2 => Row::Stepped(0, 65_534, 1),
                _ => Row::Single,
            },
            13 => RESPONSE,
            14 | 15 => CURRENT,
            16 => Row::Stepped(0, 65_534, 1),
            _ => Row::Plain(0, (1 << self.width(field)) - 1),
        }
    }

    pub fn width(self, field: usize) -> usize {
        match (self.template, field) {
            (Template::Bridge, 10 | 11) => [11, 19, 32][self.precision],
            (Template::Resistance, 10 | 11) => [7, 10, 16, 32][self.precision],
            (Template::Bridge, _) => BRIDGE[field - 1],
            (Template::Resistance, _) => RESISTANCE[field - 1],
        }
    }

    pub fn first_bit(self, field: usize) -> usize {
        let before: usize = (1..field).map(|field| self.width(field)).sum();
        before + if field > 5 { 10 } else { 0 }
    }

    /// Bits of a sheet with selector 3 and the end bit, without text.
    pub fn bits_without_text(self, points: usize) -> usize {
        let block = if points > 0 { 18 + 37 * points } else { 0 };
        self.first_bit(self.last() + 1) + block + 3
    }

    /// The most points that a kind holds.
    pub fn capacity(self, kind: u8) -> usize {
        stream_bits(kind).saturating_sub(self.bits_without_text(0) + 18) / 37
    }
}

pub const RESPONSE: Row = Row::Geometric(100.0, 1.292, 62);
pub const CURRENT: Row = Row::Geometric(10_000.0, 1.0 + 2.0 * 0.02356427402545, 254);

pub fn gcd(a: i64, b: i64) -> i64 {
    if b == 0 { a.abs() } else { gcd(b, a % b) }
}
