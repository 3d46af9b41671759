//! Images: laid bit by bit with anything wrong now and then, and damaged.

use compare::laid::Laid;
use compare::layout::{Layout, Row, image_length, mend, put, stream_bits};
use compare::plain::{self, Template};

use crate::{Differ, MARGIN};

impl Differ {
    pub fn pick_kind(&mut self) {
        let before = image_length(self.kind);
        self.kind = self.random.pick(&[0, 1, 2]);
        match self.random.below(4) {
            0 => self.lent.image.fill(0),
            1 => self.lent.image.fill(0xff),
            2 => self.random.fill(&mut self.lent.image),
            // What the buffer held before.
            _ => self.lent.image[MARGIN + before..].fill(0x5a),
        }
    }

    pub fn pick_layout(&mut self) -> Layout {
        if self.random.percent(40) {
            return Layout { template: Template::Resistance, precision: self.random.below(4) as usize };
        }
        // Kind 0 has no room for precision 2.
        let precision = match self.random.below(if self.kind > 0 { 3 } else { 20 }) {
            choice @ 0..=2 => choice as usize,
            choice => (choice % 2) as usize,
        };
        Layout { template: Template::Bridge, precision }
    }

    /// A code of a field: mostly one that is accepted.
    pub fn field_code(&mut self, field: usize, layout: Layout, wrong: u64) -> u64 {
        let ones = (1u64 << layout.width(field)) - 1;
        if self.random.percent(wrong) {
            return match layout.row(field) {
                Row::Single => {
                    let any = self.random.word() & ones | 0x7f80_0000;
                    self.random.pick(&[0x7f80_0000, 0xff80_0000, 0xffff_fffe, 0x7fff_ffff, any])
                }
                _ => self.random.word() & ones,
            };
        }
        match layout.row(field) {
            Row::Plain(least, most) => self.random.within(least, most) as u64,
            _ if self.random.percent(4) => ones,
            Row::Single if field > 9 => u64::from(self.end().to_bits()),
            Row::Single => u64::from(self.finite().to_bits()),
            _ => self.random.below(ones),
        }
    }

    /// An image laid bit by bit, with anything wrong now and then and its end anywhere.
    pub fn lay(&mut self) {
        let kind = self.kind;
        let mut image = self.image().to_vec();
        let layout = self.pick_layout();
        let mut bit = 0;
        let mut lay = |image: &mut Vec<u8>, width: usize, code: u64| {
            put(kind, image, bit, width, code);
            bit += width;
        };
        for field in 1..=layout.last() {
            let width = layout.width(field);
            if field == 6 {
                let selector = if self.random.percent(1) { self.random.below(4) } else { 0 };
                lay(&mut image, 2, selector);
                let number = u64::from(layout.template.number());
                let other = self.random.pick(&[32, 33, 34, 40, 160, 161, 0, 255]);
                lay(&mut image, 8, if self.random.percent(2) { other } else { number });
            }
            let mut code = self.field_code(field, layout, 1);
            if field == 9 && (code < 3 || layout.template == Template::Resistance) {
                code = layout.precision as u64;
            }
            if (field == 10 || field == 11) && width < 32 && self.random.percent(80) {
                let half = 1 << (width - 1);
                code = self.random.below(half - 1) + if field == 11 { half } else { 0 };
            }
            lay(&mut image, width, code);
        }
        let mut block = 0;
        // Kind 0 has no room for a point.
        if self.random.percent(if kind == 0 { 3 } else { 20 }) {
            lay(&mut image, 2, 0);
            for (width, code) in self.curve_pieces(layout) {
                lay(&mut image, width, code);
                block += width;
            }
        } else if self.random.percent(if kind == 0 { 12 } else { 60 }) {
            let selector = if self.random.percent(2) { self.random.pick(&[1, 2]) } else { 0 };
            lay(&mut image, 2, selector);
            let template = if self.random.percent(2) { self.random.pick(&[33, 41, 168, 0, 255]) } else { 40 };
            lay(&mut image, 8, template);
            let physical = self.random.percent(40);
            lay(&mut image, 1, u64::from(physical));
            let most = layout.capacity(kind) as u64;
            let points = match self.random.below(20) {
                0 => 0,
                1 => self.random.below(128),
                2 => 127,
                3..=5 => most,
                6 | 7 => most + 1,
                8 => most + 2,
                // Around what the small dash takes.
                9..=12 => most.clamp(1, 30 + self.random.below(11)),
                _ => 1 + self.random.below(most.max(1)),
            };
            lay(&mut image, 7, points);
            block = 16 + 37 * points as usize;
            let gap = 65_534 / points.max(1);
            let mut code = self.random.below(gap / 2);
            let mut last = 0;
            let wrong = if self.random.percent(25) { self.random.below(points.max(1)) } else { u64::MAX };
            let mut sum = 0;
            for index in 0..points {
                let (mut point, mut deviation) = (code, self.random.below((1 << 21) - 1));
                if self.random.percent(30) {
                    deviation = 1_000_000 + self.random.below(4_000);
                }
                // In domain 1 mostly sums that rise, often by as little as can be.
                if physical && !self.random.percent(1) && 15_300 * point + 1_000 * deviation <= sum {
                    deviation = (sum + 1_000).saturating_sub(15_300 * point) / 1_000 + self.random.below(2);
                    deviation = deviation.min((1 << 21) - 2);
                }
                sum = 15_300 * point + 1_000 * deviation;
                if index == wrong {
                    match self.random.below(6) {
                        0 => point = 0xffff,
                        1 => deviation = 0x1f_ffff,
                        2 => {
                            point = self.random.word() & 0xffff;
                            deviation = self.random.word() & 0x1f_ffff;
                        }
                        3 => (point, deviation) = (0, 0x1f_ffff),
                        4 => point = last,
                        _ => point = point.saturating_sub(gap),
                    }
                }
                lay(&mut image, 16, point);
                lay(&mut image, 21, deviation);
                last = point;
                let next = 1 + self.random.below(gap.max(2) - 1);
                code += if self.random.percent(30) { next.min(1 << self.random.below(8)) } else { next };
            }
        }
        let selector = if self.random.percent(6) { self.random.below(4) } else { 3 };
        lay(&mut image, 2, selector);
        lay(&mut image, 1, u64::from(self.random.percent(60)));
        let rest = stream_bits(kind).saturating_sub(layout.bits_without_text(0) + 2 + block);
        let length = match self.random.below(4) {
            0 => 0,
            1 => rest / 7,
            2 => (rest / 7).saturating_sub(1),
            _ => self.random.below(rest as u64 / 7 + 1) as usize,
        };
        for _ in 0..length {
            let character = 1 + self.random.below(127);
            lay(&mut image, 7, character);
        }
        if self.random.percent(70) {
            lay(&mut image, 7, 0);
        }
        if self.random.percent(50) {
            for _ in 0..rest / 32 + 1 {
                lay(&mut image, 32, 0);
            }
        }
        mend(kind, &mut image);
        self.lent.image[MARGIN..MARGIN + image.len()].copy_from_slice(&image);
    }

    /// An image laid line by line: accepted, with a line made wrong, or with the stream's end inside one.
    pub fn shape(&mut self) {
        let kind = self.kind;
        let laid = Laid::any(&mut self.random, &self.ends[usize::from(kind)]);
        let image = &mut self.lent.image[MARGIN..MARGIN + image_length(kind)];
        laid.lay(image);
        self.met.note(&laid, image);
    }

    /// Blank pages: all of them or but one; before the page of kind 0 a register that adds up to 32, so that the sum is right.
    fn blank(&mut self, image: &mut [u8]) {
        let register = image.len() % 32;
        let pages = image.len() / 32;
        let written = if self.random.percent(60) { pages } else { self.random.below(pages as u64) as usize };
        for page in (0..pages).filter(|page| *page != written) {
            let start = register + 32 * page;
            image[start..start + 32].fill(0xff);
        }
        if register > 0 && self.random.percent(50) {
            let others = image[1..register].iter().fold(0u8, |sum, byte| sum.wrapping_add(*byte));
            image[0] = 32u8.wrapping_sub(others);
        }
    }

    /// Another code in a field, with the check bytes mended.
    pub fn damage_field(&mut self, field: usize, layout: Layout) {
        let code = self.field_code(field, layout, 50);
        let image = &mut self.lent.image[MARGIN..MARGIN + image_length(self.kind)];
        put(self.kind, image, layout.first_bit(field), layout.width(field), code);
        mend(self.kind, image);
    }

    /// Damages the image, mostly with its check bytes mended.
    pub fn damage(&mut self) {
        let kind = self.kind;
        let bits = stream_bits(kind) as u64;
        let layout = self.layout();
        let (points, segments) =
            plain::check(kind, self.image()).map_or((0, 0), |summary| (summary.points, summary.segments));
        let mut image = self.image().to_vec();
        let length = image.len() as u64;
        let mut mended = true;
        let after = layout.first_bit(layout.last() + 1);
        let pairs = after + 18;
        match self.random.below(15) {
            0 => {
                mended = false;
                for _ in 0..self.random.within(1, 3) {
                    image[self.random.below(length) as usize] ^= 1 << self.random.below(8);
                }
            }
            1 => {
                for _ in 0..self.random.within(1, 3) {
                    image[self.random.below(length) as usize] ^= 1 << self.random.below(8);
                }
            }
            2..=4 => {
                let field = self.random.within(1, layout.last() as i64) as usize;
                let code = self.field_code(field, layout, 50);
                put(kind, &mut image, layout.first_bit(field), layout.width(field), code);
            }
            5 => {
                let precision = self.random.below(4);
                put(kind, &mut image, 144, 2, precision);
            }
            6 => put(kind, &mut image, after, 2, self.random.below(4)),
            7..=10 if segments > 0 => self.damage_curve(&mut image, after),
            7 if points > 0 => put(kind, &mut image, after + 11, 7, self.random.below(128)),
            8 if points > 0 => {
                let near = points + self.random.below(3);
                put(kind, &mut image, after + 11, 7, near.min(127));
            }
            9 if points > 0 => {
                let bit = pairs + 37 * self.random.below(points) as usize;
                let point = self.random.pick(&[0, 1, 0xfffe, 0xffff, 0x8000]);
                put(kind, &mut image, bit, 16, point);
            }
            10 if points > 0 => {
                let bit = pairs + 37 * self.random.below(points + 1) as usize;
                put(kind, &mut image, bit, 3, self.random.below(8));
            }
            11 => {
                mended = false;
                self.blank(&mut image);
            }
            12 => put(kind, &mut image, 66, 8, self.random.pick(&[32, 33, 34, 40])),
            _ => {
                let bit = self.random.below(bits) as usize;
                let tail = self.random.below(200) as usize;
                for bit in bit..(bit + tail).min(bits as usize) {
                    put(kind, &mut image, bit, 1, self.random.below(2));
                }
            }
        }
        if mended {
            mend(kind, &mut image);
        }
        self.lent.image[MARGIN..MARGIN + image.len()].copy_from_slice(&image);
    }
}
