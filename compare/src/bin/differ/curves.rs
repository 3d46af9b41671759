//! Curves: handed to a build, laid bit by bit, and damaged.

use compare::layout::{Layout, put, stream_bits};
use compare::plain::{self, Curve, Segment, Term};

use crate::Differ;

/// Bits of block 41 before its segments, of a segment before its terms, and of a term.
const HEAD: usize = 19;
const SEGMENT: usize = 20;
const TERM: usize = 39;

impl Differ {
    /// Term counts of a curve: mostly one that the kind has room for, and 30 terms in all.
    fn term_counts(&mut self, layout: Layout) -> Vec<u64> {
        let room = stream_bits(self.kind).saturating_sub(layout.bits_without_text(0) + HEAD);
        let most = (room / (SEGMENT + TERM)).clamp(1, 20);
        let count = match self.random.below(10) {
            0 => 1,
            1 => most,
            2 => self.random.within(1, 20) as usize,
            _ => self.random.within(1, most as i64) as usize,
        };
        let mut left = match self.random.below(10) {
            0 => 30,
            1 => 31 + self.random.below(6),
            _ => (room.saturating_sub(SEGMENT * count) / TERM).clamp(count, 30) as u64,
        };
        let mut counts = Vec::new();
        for behind in (0..count as u64).rev() {
            let spare = left.saturating_sub(behind).clamp(1, 6);
            let terms = if self.random.percent(40) { spare } else { 1 + self.random.below(spare) };
            left = left.saturating_sub(terms);
            counts.push(terms);
        }
        counts
    }

    /// So many exponents, rising.
    fn exponents(&mut self, count: u64) -> Vec<i64> {
        let mut left: Vec<i64> = (0..6).collect();
        while left.len() as u64 > count {
            left.remove(self.random.below(left.len() as u64) as usize);
        }
        left
    }

    fn coefficient(&mut self) -> f32 {
        match self.random.below(4) {
            0 => self.finite(),
            1 => self.random.pick(&[0.0, -0.0, 1.0, -1.0]),
            _ => self.random.within(-1_000_000, 1_000_000) as f32 * 1e-9,
        }
    }

    /// A curve for a build; behind what counts there may be anything.
    pub fn curve(&mut self, layout: Layout) -> Curve {
        let mut curve = Curve::default();
        for segment in &mut curve.segments {
            *segment = Segment { start: self.random.word() as i64, terms: self.random.below(9) };
        }
        for term in &mut curve.terms {
            *term =
                Term { exponent: self.random.within(-1, 7), coefficient: f32::from_bits(self.random.word() as u32) };
        }
        let counts = self.term_counts(layout);
        curve.count = counts.len() as u64;
        let gap = 8_190 / counts.len() as i64;
        let (mut code, mut first) = (0, 0);
        for (segment, count) in curve.segments.iter_mut().zip(&counts) {
            let on_step = 123_000 * code;
            let start = match self.random.below(6) {
                0 => on_step - 61_500,
                1 => on_step + 61_499,
                2 => self.random.within(on_step - 61_500, on_step + 61_499),
                _ => on_step,
            };
            *segment = Segment { start: start.clamp(0, 123_000 * 8_190), terms: *count };
            code += if self.random.percent(20) { 1 } else { self.random.within(1, gap) };
            for exponent in self.exponents(*count) {
                if let Some(term) = curve.terms.get_mut(first) {
                    *term = Term { exponent, coefficient: self.coefficient() };
                }
                first += 1;
            }
        }
        if self.random.percent(25) {
            for _ in 0..self.random.within(1, 3) {
                self.spoil_curve(&mut curve);
            }
        }
        curve
    }

    fn spoil_curve(&mut self, curve: &mut Curve) {
        let word = self.random.word();
        let segment = self.random.below(curve.count.clamp(1, 20)) as usize;
        let term = self.random.below(30.min(4 * curve.count.max(1))) as usize;
        match self.random.below(8) {
            0 => curve.count = self.random.pick(&[0, 21, 20, 256, 257, u64::MAX, word]),
            1 => {
                let wrong = [-1, 123_000 * 8_190 + 1, 61_500, 61_499, i64::MIN, i64::MAX, word as i64];
                curve.segments[segment].start = self.random.pick(&wrong);
            }
            2 if segment > 0 => {
                let before = curve.segments[segment - 1].start.clamp(0, 1 << 30);
                curve.segments[segment].start = before + self.random.within(-1, 123_000);
            }
            3 | 4 => curve.segments[segment].terms = self.random.pick(&[0, 7, 6, 1, 128, 1 << 32 | 1, u64::MAX, word]),
            5 | 6 => {
                let near = self.random.within(-1, 6);
                curve.terms[term].exponent = self.random.pick(&[near, near, -32, 1 << 32, i64::MIN, word as i64]);
            }
            _ => {
                let wrong = [0x7f80_0000, 0xff80_0000, 0xffff_ffff, 0x7fff_ffff, word as u32 | 0x7f80_0000];
                curve.terms[term].coefficient = f32::from_bits(self.random.pick(&wrong));
            }
        }
    }

    /// Block 41 behind its selector, as widths and codes.
    pub fn curve_pieces(&mut self, layout: Layout) -> Vec<(usize, u64)> {
        let counts = self.term_counts(layout);
        let gap = 8_190 / counts.len() as i64;
        let mut start = 0;
        let mut pieces = vec![(8, 41), (1, 0), (8, counts.len() as u64)];
        for count in counts {
            pieces.extend([(13, start), (7, count)]);
            start += self.random.within(1, gap) as u64;
            for exponent in self.exponents(count) {
                pieces.extend([(7, 64 + 2 * exponent as u64), (32, u64::from(self.coefficient().to_bits()))]);
            }
        }
        if self.random.percent(20) {
            let place = self.random.below(pieces.len() as u64) as usize;
            let width = pieces[place].0;
            pieces[place].1 = self.curve_code(width);
        }
        pieces
    }

    /// A code for a part of a block 41 of so many bits: all ones, at the edges, any.
    fn curve_code(&mut self, width: usize) -> u64 {
        let ones = (1 << width) - 1;
        let any = self.random.word() & ones;
        let small = self.random.below(24) & ones;
        match width {
            7 => self.random.pick(&[ones, 0, 1, 6, 7, 63, 64, 65, 66, 74, 75, 76, any]),
            32 => self.random.pick(&[ones, ones - 1, 0x7f80_0000, 0xff80_0000, any]),
            _ => self.random.pick(&[ones, 0, 1, small, any]),
        }
    }

    /// Another code in a part of the image's curve.
    pub fn damage_curve(&mut self, image: &mut [u8], first: usize) {
        let kind = self.kind;
        let segments = plain::check(kind, image).map_or(0, |summary| summary.segments);
        let terms = |index| plain::segment(kind, image, index).map_or(1, |segment| segment.terms as usize);
        let chosen = self.random.below(segments.max(1));
        let segment = first + HEAD + (0..chosen).map(|index| SEGMENT + TERM * terms(index)).sum::<usize>();
        let term = segment + SEGMENT + TERM * self.random.below(terms(chosen) as u64) as usize;
        let (bit, width) = self.random.pick(&[
            (first + 10, 1),
            (first + 11, 8),
            (segment, 13),
            (segment + 13, 7),
            (segment + 13, 7),
            (term, 7),
            (term, 7),
            (term + 7, 32),
        ]);
        let code = self.curve_code(width);
        put(kind, image, bit, width, code);
    }
}
