//! What the calls are handed: values, inputs, points, texts; good ones, at the edges, and bad ones.

use compare::layout::{BILLION, Layout, Row, gcd, stream_bits};
use compare::plain::{self, Domain, Template, Value};
use compare::structs::ByFlags;

use crate::Differ;

impl Differ {
    pub fn finite(&mut self) -> f32 {
        match self.random.below(8) {
            0 => self.random.pick(&[0.0, -0.0, f32::MIN_POSITIVE, f32::MAX, f32::MIN, 1.0, -1.0, f32::EPSILON]),
            1 => f32::from_bits(self.random.word() as u32 & 0x807f_ffff | self.random.pick(&[0, 0x0080_0000])),
            2 => self.random.within(-1000, 1000) as f32,
            3 => f32::from_bits(self.random.word() as u32 & 0x80ff_ffff | 0x7e00_0000),
            _ => {
                let bits = self.random.word() as u32;
                if bits >> 23 & 0xff == 0xff { f32::from_bits(bits & 0xbfff_ffff) } else { f32::from_bits(bits) }
            }
        }
    }

    /// A flag that says yes: any byte but 0.
    pub fn yes(&mut self) -> u8 {
        if self.random.percent(80) { 1 } else { self.random.within(1, 255) as u8 }
    }

    /// A writer's level: often the maker's, which may write what a value suits; or a byte that is none.
    pub fn level(&mut self) -> u8 {
        let any = self.random.word() as u8;
        self.random.pick(&[0, 1, 1, 2, 2, 2, 2, 3, any])
    }

    /// A template as a flag.
    pub fn template(&mut self, template: Template) -> u8 {
        match template {
            Template::Bridge => 0,
            Template::Resistance => self.yes(),
        }
    }

    /// A domain as a byte: any but 0 is 1.
    pub fn domain(&mut self) -> u8 {
        let any = self.random.word() as u8;
        self.random.pick(&[0, 0, 0, 0, 1, 1, 1, any])
    }

    /// A dash as a byte: any but 0 is the small one.
    pub fn dash(&mut self) -> u8 {
        let any = self.random.word() as u8;
        self.random.pick(&[0, 0, 1, 1, any])
    }

    /// A value by flags, with anything in the members that it does not need.
    pub fn given(&mut self, value: Value) -> ByFlags {
        let mut given = ByFlags {
            whole: self.random.word() as i64,
            single: f32::from_bits(self.random.word() as u32),
            is_single: 0,
            is_missing: 0,
        };
        match value {
            Value::Whole(whole) => given.whole = whole,
            Value::Single(single) => {
                given.single = single;
                given.is_single = self.yes();
            }
            Value::Missing => {
                given.is_single = self.random.word() as u8 & self.random.pick(&[0, 1, 255]);
                given.is_missing = self.yes();
            }
        }
        given
    }

    /// A figure that a row stores.
    pub fn figure(&mut self, row: Row) -> i64 {
        match row {
            Row::Plain(least, most) => match self.random.below(10) {
                0 => least,
                1 => most,
                _ => self.random.within(least, most),
            },
            Row::Stepped(least, most, step) => {
                let on_step = least + step * self.random.within(0, (most - least) / step);
                match self.random.below(12) {
                    0 => least,
                    1 => most,
                    2 => least + step / 2,
                    3 => most - step / 2,
                    4 => (on_step + step / 2).min(most),
                    5 => (on_step + step / 2 + 1).min(most),
                    6 => (on_step + step / 2 - 1).clamp(least, most),
                    7..=9 => on_step,
                    _ => self.random.within(least, most),
                }
            }
            Row::Geometric(_, _, last) => {
                let code = self.random.below(last);
                let (low, high) = (row.scaled(code), row.scaled(code + 1));
                match self.random.below(4) {
                    0 => low,
                    1 => high,
                    2 => ((low * high) as f64).sqrt() as i64 + self.random.within(-1, 1),
                    _ => self.random.within(low, high),
                }
            }
            Row::Single => 0,
        }
    }

    pub fn good(&mut self, field: usize, layout: Layout) -> ByFlags {
        let row = layout.row(field);
        let value = match row {
            Row::Plain(..) => Value::Whole(self.figure(row)),
            _ if self.random.percent(4) => Value::Missing,
            Row::Single if field > 9 => Value::Single(self.end()),
            Row::Single => Value::Single(self.finite()),
            _ => Value::Whole(self.figure(row)),
        };
        self.given(value)
    }

    pub fn bad(&mut self, field: usize, layout: Layout) -> ByFlags {
        let row = layout.row(field);
        let value = match (self.random.below(4), row) {
            (0, _) => Value::Missing,
            (1, Row::Single) => Value::Whole(self.random.within(-5, 5)),
            (1, _) => Value::Single(self.finite()),
            (_, Row::Single) => {
                let any = self.random.word() as u32 | 0x7f80_0000;
                Value::Single(f32::from_bits(self.random.pick(&[
                    0x7f80_0000,
                    0xff80_0000,
                    0x7fc0_0000,
                    0xffc0_0000,
                    0x7f80_0001,
                    0xff80_0001,
                    0x7fff_ffff,
                    0xffff_ffff,
                    0xffff_fffe,
                    any,
                ])))
            }
            _ => {
                let (least, most) = row.ends();
                let any = self.random.word() as i64;
                let wide = self.random.within(least - 3_000, most + 3_000);
                Value::Whole(self.random.pick(&[
                    least - 1,
                    most + 1,
                    most + 2,
                    -1,
                    i64::MIN,
                    i64::MAX,
                    1 << 32,
                    any,
                    wide,
                ]))
            }
        };
        self.given(value)
    }

    /// A Single for an electrical end: mostly of -2 to 2 V/V, on a half of an nV/V, around a whole one, or at the edges.
    pub fn end(&mut self) -> f32 {
        match self.random.below(12) {
            0 => self.random.pick(&[2.0, -2.0, 0.0, -0.0]),
            1 => self.random.pick(&[0x4000_0001, 0xc000_0001, 0x3fff_ffff, 0xbfff_ffff].map(f32::from_bits)),
            2 | 3 => self.random.within(-2_100, 2_100) as f32 / 1_024.0,
            4 => self.random.within(-40, 40) as f32 * 0.25e-9,
            5 => self.random.within(-2_000_000_000, 2_000_000_000) as f32 * 1e-9,
            6 => self.finite(),
            _ => self.random.within(-5_000_000, 5_000_000) as f32 * 1e-9,
        }
    }

    /// Electrical ends for a reading: wide ones and powers of two among them, so that halves are met.
    pub fn ends(&mut self, layout: Layout) -> (Value, Value) {
        let Row::Stepped(least, most, step) = layout.row(10) else {
            let (a, b) = (self.end(), self.end());
            let rising = a < b || self.random.percent(10);
            let (e, f) = if rising { (a, b) } else { (b, a) };
            return (Value::Single(e), Value::Single(f));
        };
        let steps = (most - least) / step;
        let span = match self.random.below(4) {
            0 => 1 << self.random.below(layout.width(10) as u64),
            1 => self.random.within(steps / 2, steps),
            2 => self.random.pick(&[1, 2, 3, 16, 1000, 1024]),
            _ => self.random.within(1, steps),
        };
        let low = match self.random.below(3) {
            0 => 0,
            1 => steps - span,
            _ => self.random.within(0, steps - span),
        };
        (Value::Whole(least + step * low), Value::Whole(least + step * (low + span)))
    }

    /// An input for a reading of the image.
    pub fn input(&mut self) -> i64 {
        let kind = self.kind;
        let end = |field| match plain::field(kind, self.image(), field) {
            Ok(Value::Whole(figure)) => Some(figure),
            Ok(Value::Single(figure)) => plain::nanovolts(figure),
            _ => None,
        };
        let (points, domain, segments) = plain::check(kind, self.image())
            .map_or((0, None, 0), |summary| (summary.points, summary.domain, summary.segments));
        let (e, f) = match (end(10), end(11)) {
            (Some(e), Some(f)) if e < f => (e, f),
            _ => (0, 3_000_000),
        };
        let span = f - e;
        // The input at which p comes nearest to a position.
        let at = |p: i64| {
            let exact = i128::from(p) * i128::from(span) + 500_000_000;
            e + exact.div_euclid(i128::from(BILLION)) as i64
        };
        match self.random.below(20) {
            0 => e + self.random.within(-2, 2),
            1 => f + self.random.within(-2, 2),
            2 => e - span / 10 + self.random.within(-2, 2),
            3 => f + span / 10 + self.random.within(-2, 2),
            4 => self.random.pick(&[
                i64::MIN,
                i64::MAX,
                i64::MIN + 1,
                2_000_000_000,
                2_000_000_001,
                -2_000_000_000,
                -2_000_000_001,
                0,
            ]),
            5 if self.random.percent(50) => self.random.word() as i64,
            6 => self.random.within(e - span, f + span),
            7..=10 => {
                // p on a half: (2 x 10^9 / g) x t with both odd.
                let g = gcd(2 * BILLION, span);
                let odd = 2 * self.random.within(-g / 20 - 1, g / 2 + g / 20 + 1) + 1;
                e + span / g * odd
            }
            11..=16 if segments > 0 => {
                let index = self.random.below(segments);
                let start = plain::segment(kind, self.image(), index).map_or(0, |segment| segment.start);
                at(start + self.random.within(-2, 2))
            }
            11..=16 if points > 0 => {
                let index = self.random.below(points);
                let (a, s) = plain::pair(kind, self.image(), index).unwrap_or((0, 0));
                let (b, t) = plain::pair(kind, self.image(), index + 1).unwrap_or((a + 1, s));
                let p = match self.random.below(6) {
                    0..=4 if domain == Some(Domain::Physical) => {
                        // Around what a whole q, now and then at a point, comes to.
                        let q = if self.random.percent(20) { a } else { self.random.within(a, b) };
                        let deviation = i128::from(t - s) * i128::from(q - a) / i128::from(b - a);
                        q + s + deviation as i64 + self.random.within(-1, 1)
                    }
                    0 => a + self.random.within(-2, 2),
                    1 => self.random.within(a, b),
                    _ => {
                        // The deviation on a half.
                        let g = gcd(2 * (t - s), b - a).max(1);
                        let odd = 2 * self.random.within(0, g / 2) + 1;
                        a + (b - a) / g * odd
                    }
                };
                at(p)
            }
            _ => self.random.within(e - span / 10, f + span / 10),
        }
    }

    pub fn point_list(&mut self, layout: Layout, domain: Domain) -> Vec<i64> {
        let most = layout.capacity(self.kind) as i64;
        let count = match self.random.below(20) {
            0..=5 => 0,
            6 => 1,
            7 => most,
            8 => most + 1,
            9 => self.random.within(120, 127),
            10 => self.random.within(126, 130),
            11 => self.random.within(0, 130),
            // Around what the small dash takes.
            12..=14 => self.random.within(30, 40).min(most),
            _ => self.random.within(0, most),
        } as usize;
        let mut list = Vec::with_capacity(262);
        let gap = 65_534 / count.max(1) as i64;
        let mut code = self.random.within(0, gap / 2);
        for _ in 0..count {
            let on_step = 15_300 * code;
            let point = match self.random.below(6) {
                0 => on_step - 7_650,
                1 => on_step + 7_649,
                2 => self.random.within(on_step - 7_650, on_step + 7_649),
                _ => on_step,
            };
            list.push(point.clamp(0, 15_300 * 65_534));
            let small = self.random.percent(50);
            let on_step = 1_000
                * if small { self.random.within(-30_000, 30_000) } else { self.random.within(-1_000_000, 1_097_150) };
            let deviation = match self.random.below(12) {
                0 => on_step - 500,
                1 => on_step + 499,
                2 => self.random.within(on_step - 500, on_step + 499),
                3 => self.random.pick(&[-BILLION, 1_097_150_000]),
                _ => on_step,
            };
            list.push(deviation.clamp(-BILLION, 1_097_150_000));
            let power = 1i64 << self.random.below(12);
            let next = self.random.within(1, gap.max(2) - 1);
            code += if self.random.percent(40) { power.min(next) } else { next };
        }
        if domain == Domain::Physical && self.random.percent(85) {
            self.raise_sums(&mut list);
        }
        if count > 0 && self.random.percent(18) {
            let index = self.random.below(count as u64) as usize;
            for _ in 0..self.random.within(1, 3) {
                self.spoil(&mut list, index);
            }
        }
        match self.random.below(50) {
            0 => {
                list.pop();
            }
            1 => list.push(0),
            2 => {
                let length = self.random.within(250, 260) as usize;
                list.resize(length, 5);
            }
            _ => (),
        }
        list
    }

    /// Deviations raised where the points plus deviations would not rise as stored: often by as little as can be.
    fn raise_sums(&mut self, list: &mut [i64]) {
        let mut least = i64::MIN;
        for pair in list.chunks_exact_mut(2) {
            let point = (pair[0] + 7_650) / 15_300 * 15_300;
            let stored = |deviation: i64| (deviation + BILLION + 500) / 1_000 * 1_000 - BILLION;
            if point + stored(pair[1]) <= least {
                let next = (least - point).div_euclid(1_000) * 1_000 + 1_000;
                let more = if self.random.percent(50) { 0 } else { 1_000 * self.random.within(0, 20) };
                pair[1] = (next + more).clamp(-BILLION, 1_097_150_000);
            }
            least = point + stored(pair[1]);
        }
    }

    /// A wrong figure at a point, or a point that does not rise.
    pub fn spoil(&mut self, list: &mut [i64], index: usize) {
        let any = self.random.word() as i64;
        match self.random.below(7) {
            0 => {
                let wrong = [-1, 15_300 * 65_534 + 1, i64::MIN, i64::MAX, any];
                list[2 * index] = self.random.pick(&wrong);
            }
            1 | 2 => {
                let wrong = [-BILLION - 1, 1_097_150_001, i64::MIN, i64::MAX, any];
                list[2 * index + 1] = self.random.pick(&wrong);
            }
            3 if index > 0 => list[2 * index] = list[2 * index - 2],
            4 if index > 0 => {
                // The same code, or just the next.
                let code = list[2 * index - 2].clamp(0, BILLION) / 15_300;
                list[2 * index] = 15_300 * code + 7_650 - self.random.within(0, 1);
            }
            _ => {
                let other = self.random.below(list.len() as u64 / 2) as usize;
                list.swap(2 * index, 2 * other);
            }
        }
    }

    /// A text behind so many bits.
    pub fn closing_text(&mut self, before: usize) -> Vec<u8> {
        let left = stream_bits(self.kind).saturating_sub(before);
        let length = match self.random.below(20) {
            0..=4 => 0,
            5..=10 => self.random.within(0, left as i64 / 7),
            11..=14 => left as i64 / 7,
            15 => left as i64 / 7 + 1,
            16 => left as i64 / 7 - 1,
            17 => self.random.within(0, 600),
            18 if self.random.percent(10) => {
                let edge = (65_535 - before as i64) / 7;
                edge + self.random.within(-2, 2)
            }
            18 if self.random.percent(5) => self.random.within(9_000, 20_000),
            _ => self.random.within(0, 12),
        };
        let mut text: Vec<u8> = (0..length).map(|_| self.random.within(1, 127) as u8).collect();
        if !text.is_empty() && self.random.percent(8) {
            let place = self.random.below(text.len() as u64) as usize;
            text[place] = self.random.pick(&[0, 128, 129, 200, 255]);
        }
        text
    }
}
