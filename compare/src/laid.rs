//! Sheets laid line by line: accepted ones, ones with a line made wrong, and ones that the stream ends inside of.

use crate::layout::{Layout, Row, mend, put, stream_bits};
use crate::plain::Template;
use crate::random::Random;

/// What a line of the stream is.
#[derive(Clone, Copy, Debug, PartialEq, Eq, PartialOrd, Ord)]
pub enum Part {
    Field(usize),
    Selector,
    Number,
    BlockSelector,
    BlockNumber,
    Domain,
    Points,
    Point,
    Deviation,
    Segments,
    Start,
    Terms,
    Power,
    Coefficient,
    Closing,
    EndBit,
    Character,
}

#[derive(Clone, Copy, Debug)]
pub struct Line {
    pub part: Part,
    pub width: usize,
    pub code: u64,
}

/// The line that the stream ends in, and how many of its bits there are.
pub type End = (Part, usize);

/// Bits of a pair, of a segment before its terms, and of a term.
const PAIR: usize = 37;
const SEGMENT: usize = 20;
const TERM: usize = 39;

/// Singles that are infinite or a NaN, and their neighbours.
const SINGLES: [u64; 10] = [
    0x7f80_0000,
    0xff80_0000,
    0x7f80_0001,
    0xff80_0001,
    0x7fc0_0000,
    0x7fff_ffff,
    0xffff_fffe,
    0xffff_ffff,
    0x7f7f_ffff,
    0xff7f_ffff,
];

pub const LAYOUTS: [Layout; 7] = [
    Layout { template: Template::Bridge, precision: 0 },
    Layout { template: Template::Bridge, precision: 1 },
    Layout { template: Template::Bridge, precision: 2 },
    Layout { template: Template::Resistance, precision: 0 },
    Layout { template: Template::Resistance, precision: 1 },
    Layout { template: Template::Resistance, precision: 2 },
    Layout { template: Template::Resistance, precision: 3 },
];

// ---- where a stream can end ----

/// A sheet that the stream ends inside of, as it is laid.
#[derive(Clone, Copy, Debug)]
enum Way {
    Fields,
    /// So many pairs and part of one more.
    Table(u64),
    /// So many pairs, and no room to close behind them.
    Closing(u64),
    /// So many segments with so many terms in all, then one with so many.
    Curve(u64, u64, u64),
}

/// The lines that the stream of a kind can end in, by layout, each with the ways there.
pub struct Ends {
    kind: u8,
    ends: Vec<(Layout, End, Vec<Way>)>,
}

impl Ends {
    pub fn new(kind: u8) -> Ends {
        let mut ends = Ends { kind, ends: Vec::new() };
        for layout in LAYOUTS {
            let room = stream_bits(kind).checked_sub(layout.first_bit(layout.last() + 1));
            match room {
                None => ends.add(layout, cut(kind, &fields(&mut Random(0), layout)), Way::Fields),
                Some(room) => {
                    let (whole, left) = ((room - 18) / PAIR, (room - 18) % PAIR);
                    ends.add(layout, Some(past_pairs(left)), Way::Table(whole as u64));
                    if whole > 0 {
                        ends.add(layout, past_block(left), Way::Closing(whole as u64));
                    }
                    ends.curves(layout, room - 19);
                }
            }
        }
        ends
    }

    fn add(&mut self, layout: Layout, end: Option<End>, way: Way) {
        let Some(end) = end else {
            return;
        };
        let same = |to: &&mut (Layout, End, Vec<Way>)| to.0 == layout && to.1 == end;
        match self.ends.iter_mut().find(same) {
            Some((_, _, ways)) => ways.push(way),
            None => self.ends.push((layout, end, vec![way])),
        }
    }

    /// The ends inside a block 41 whose segments have so many bits.
    fn curves(&mut self, layout: Layout, room: usize) {
        for segments in 0..20 {
            for terms in segments..=(6 * segments).min(30) {
                let Some(left) = room.checked_sub(SEGMENT * segments + TERM * terms) else {
                    continue;
                };
                for more in 1..=(30 - terms).min(6) {
                    let way = Way::Curve(segments as u64, terms as u64, more as u64);
                    self.add(layout, past_segment(left, more), way);
                }
            }
        }
    }

    /// Layouts with the lines that the stream can end in.
    pub fn all(&self) -> impl Iterator<Item = (Layout, End)> {
        self.ends.iter().map(|(layout, end, _)| (*layout, *end))
    }

    /// A sheet that the stream ends inside of.
    fn pick(&self, random: &mut Random) -> Laid {
        let (layout, (part, _), ways) = &self.ends[random.below(self.ends.len() as u64) as usize];
        let mut laid = Laid { kind: self.kind, layout: *layout, lines: fields(random, *layout) };
        match random.pick(ways) {
            Way::Fields => (),
            Way::Table(whole) => {
                let count = if random.percent(30) { whole + 1 } else { random.within(whole as i64 + 1, 127) as u64 };
                laid.table(random, count);
            }
            Way::Closing(whole) => laid.table(random, whole),
            Way::Curve(segments, terms, more) => {
                let mut counts = shares(random, segments, terms);
                counts.push(more);
                // Behind the end it may promise more.
                let closed = matches!(part, Part::Closing | Part::EndBit);
                let promised = if closed { counts.len() as i64 } else { random.within(counts.len() as i64, 20) };
                laid.curve(random, &counts, promised as u64);
            }
        }
        laid.close(random);
        laid
    }
}

/// The end so many bits behind the last whole pair.
fn past_pairs(left: usize) -> End {
    if left < 16 { (Part::Point, left) } else { (Part::Deviation, left - 16) }
}

/// The end so many bits behind the start of a segment of so many terms; none where text follows.
fn past_segment(left: usize, terms: usize) -> Option<End> {
    let (term, inside) = (left.checked_sub(SEGMENT).map(|left| left / TERM), left.saturating_sub(SEGMENT) % TERM);
    match term {
        None if left < 13 => Some((Part::Start, left)),
        None => Some((Part::Terms, left - 13)),
        Some(term) if term < terms && inside < 7 => Some((Part::Power, inside)),
        Some(term) if term < terms => Some((Part::Coefficient, inside - 7)),
        Some(_) => past_block(left - SEGMENT - TERM * terms),
    }
}

/// The end so many bits behind a block; none where text follows.
fn past_block(left: usize) -> Option<End> {
    match left {
        0 | 1 => Some((Part::Closing, left)),
        2 => Some((Part::EndBit, 0)),
        _ => None,
    }
}

/// So many terms shared out to so many segments, one to six each.
fn shares(random: &mut Random, segments: u64, terms: u64) -> Vec<u64> {
    let mut counts = vec![1; segments as usize];
    for _ in segments..terms {
        let first = random.below(segments) as usize;
        let open = (0..counts.len()).map(|i| (first + i) % counts.len()).find(|place| counts[*place] < 6);
        if let Some(place) = open {
            counts[place] += 1;
        }
    }
    counts
}

/// The first line that the stream has no room for.
fn cut(kind: u8, lines: &[Line]) -> Option<End> {
    let mut bit = 0;
    for line in lines {
        if bit + line.width > stream_bits(kind) {
            return Some((line.part, stream_bits(kind) - bit));
        }
        bit += line.width;
    }
    None
}

// ---- lines ----

/// A Single that is finite, or missing where that may be.
fn single(random: &mut Random) -> u64 {
    let bits = random.word() & 0xffff_ffff;
    if bits >> 23 & 0xff == 0xff { bits & 0xbfff_ffff } else { bits }
}

/// A code that a field may hold.
fn field_code(random: &mut Random, layout: Layout, field: usize) -> u64 {
    let width = layout.width(field);
    let ones = (1u64 << width) - 1;
    let electrical = field == 10 || field == 11;
    match layout.row(field) {
        _ if field == 9 => layout.precision as u64,
        Row::Plain(least, most) => match random.below(12) {
            0 => least as u64,
            1 => most as u64,
            _ => random.within(least, most) as u64,
        },
        _ if random.percent(4) => ones,
        // Mostly ends that rise.
        Row::Single if electrical && random.percent(70) => {
            let figure = random.within(0, 2_000_000_000) as f32 * 1e-9;
            u64::from(if field == 10 { -figure } else { figure }.to_bits())
        }
        Row::Single => single(random),
        _ if electrical && random.percent(70) => {
            let half = 1 << (width - 1);
            random.below(half - 1) + if field == 11 { half } else { 0 }
        }
        _ => match random.below(12) {
            0 => 0,
            1 => ones - 1,
            _ => random.below(ones),
        },
    }
}

fn fields(random: &mut Random, layout: Layout) -> Vec<Line> {
    let mut lines = Vec::with_capacity(64);
    for field in 1..=layout.last() {
        if field == 6 {
            lines.push(Line { part: Part::Selector, width: 2, code: 0 });
            lines.push(Line { part: Part::Number, width: 8, code: u64::from(layout.template.number()) });
        }
        let code = field_code(random, layout, field);
        lines.push(Line { part: Part::Field(field), width: layout.width(field), code });
    }
    lines
}

/// A sheet by its lines.
pub struct Laid {
    pub kind: u8,
    pub layout: Layout,
    pub lines: Vec<Line>,
}

impl Laid {
    /// A sheet for a kind: accepted, made wrong in a line or two, or too long.
    pub fn any(random: &mut Random, ends: &Ends) -> Laid {
        match random.below(10) {
            0..=2 => Laid::sound(random, ends.kind),
            3..=7 => {
                let mut laid = Laid::sound(random, ends.kind);
                laid.spoil(random);
                if random.percent(10) {
                    laid.spoil(random);
                }
                laid
            }
            8 if ends.kind == 2 => Laid::too_many_terms(random),
            _ => ends.pick(random),
        }
    }

    /// A curve of 31 to 36 terms, for which only kind 2 has room.
    fn too_many_terms(random: &mut Random) -> Laid {
        let layout = random.pick(&LAYOUTS);
        let mut laid = Laid { kind: 2, layout, lines: fields(random, layout) };
        let before = random.within(25, 30) as u64;
        let segments = random.within(5, 19) as u64;
        let mut counts = shares(random, segments, before);
        counts.push(random.within(31 - before as i64, 6) as u64);
        laid.curve(random, &counts, segments + 1);
        laid.close(random);
        laid
    }

    /// An accepted sheet.
    pub fn sound(random: &mut Random, kind: u8) -> Laid {
        let fits = |layout: &Layout| layout.bits_without_text(0) <= stream_bits(kind);
        let layout = loop {
            let layout = random.pick(&LAYOUTS);
            if fits(&layout) {
                break layout;
            }
        };
        let mut laid = Laid { kind, layout, lines: fields(random, layout) };
        let points = layout.capacity(kind) as u64;
        let room = stream_bits(kind) - layout.bits_without_text(0);
        // The least curve has one segment of one term.
        let curve = room.checked_sub(19 + SEGMENT + TERM);
        match (random.below(10), curve) {
            (0..=3, _) if points > 0 => {
                let count = match random.below(6) {
                    0 => points,
                    1 => 1,
                    _ => 1 + random.below(points),
                };
                laid.table(random, count);
            }
            (4..=6, Some(more)) => {
                let segments = 1 + random.below((more / (SEGMENT + TERM) + 1).min(20) as u64);
                let most = (room - 19 - SEGMENT * segments as usize) / TERM;
                let terms = random.within(segments as i64, (most as i64).min(6 * segments as i64).min(30)) as u64;
                let counts = shares(random, segments, terms);
                laid.curve(random, &counts, segments);
            }
            _ => (),
        }
        laid.close(random);
        laid
    }

    fn push(&mut self, part: Part, width: usize, code: u64) {
        self.lines.push(Line { part, width, code });
    }

    /// Block 40: points that rise, in domain 1 sums too, often by as little as can be.
    fn table(&mut self, random: &mut Random, count: u64) {
        let physical = random.percent(50);
        self.push(Part::BlockSelector, 2, 0);
        self.push(Part::BlockNumber, 8, 40);
        self.push(Part::Domain, 1, u64::from(physical));
        self.push(Part::Points, 7, count);
        let gap = 65_535 / count;
        let (mut point, mut least) = (random.below(gap), 0);
        for index in 0..count {
            let deviation = if physical {
                let lowest = u64::saturating_sub(least, 15_300 * point).div_ceil(1_000);
                let first = if index == 0 { random.below(1_500_000) } else { 0 };
                lowest + first + random.pick(&[0, 0, 1, 2_000])
            } else {
                match random.below(8) {
                    0 => 0,
                    1 => (1 << 21) - 2,
                    _ => random.below((1 << 21) - 1),
                }
            };
            self.push(Part::Point, 16, point);
            self.push(Part::Deviation, 21, deviation);
            least = 15_300 * point + 1_000 * deviation + 1;
            point += if random.percent(30) { 1 } else { 1 + random.below(gap - 1) };
        }
    }

    /// Block 41 of segments with so many terms each; the number of segments may promise more.
    fn curve(&mut self, random: &mut Random, counts: &[u64], promised: u64) {
        self.push(Part::BlockSelector, 2, 0);
        self.push(Part::BlockNumber, 8, 41);
        self.push(Part::Domain, 1, 0);
        self.push(Part::Segments, 8, promised);
        let gap = 8_190 / counts.len() as u64;
        let mut start = 0;
        for count in counts {
            self.push(Part::Start, 13, start);
            self.push(Part::Terms, 7, *count);
            start += if random.percent(30) { 1 } else { 1 + random.below(gap) };
            let mut powers: Vec<u64> = (0..6).collect();
            while powers.len() as u64 > *count {
                powers.remove(random.below(powers.len() as u64) as usize);
            }
            for power in powers {
                self.push(Part::Power, 7, 64 + 2 * power);
                let coefficient = single(random);
                self.push(Part::Coefficient, 32, coefficient);
            }
        }
    }

    /// Selector 3, end bit, and a text of any length that there is room for, mostly ended by a zero.
    fn close(&mut self, random: &mut Random) {
        let ended = random.percent(70);
        self.push(Part::Closing, 2, 3);
        self.push(Part::EndBit, 1, u64::from(ended));
        let bits: usize = self.lines.iter().map(|line| line.width).sum();
        let room = stream_bits(self.kind).saturating_sub(bits) as u64 / 7;
        let length = match random.below(6) {
            0 => room,
            1 => random.below(room.min(12) + 1),
            _ => random.below(room + 1),
        };
        for _ in 0..length {
            self.push(Part::Character, 7, 1 + random.below(127));
        }
        if random.percent(85) {
            self.push(Part::Character, 7, 0);
        }
    }

    /// Whether a code of the line can be refused.
    pub fn closed(&self, line: &Line) -> bool {
        match line.part {
            Part::Field(1 | 3 | 6 | 7 | 8) => true,
            Part::Field(9 | 12) => self.layout.template == Template::Bridge,
            Part::Field(10 | 11) => line.width == 32,
            Part::Field(_) | Part::EndBit | Part::Character => false,
            _ => true,
        }
    }

    /// A line whose code can be refused: first any part, then any line of it.
    fn closed_line(&self, random: &mut Random, narrow: bool) -> usize {
        let wanted = |place: &usize| {
            let line = &self.lines[*place];
            self.closed(line) && (!narrow || line.width <= 8)
        };
        let places: Vec<usize> = (0..self.lines.len()).filter(wanted).collect();
        let mut parts: Vec<Part> = places.iter().map(|place| self.lines[*place].part).collect();
        parts.sort_unstable();
        parts.dedup();
        let part = random.pick(&parts);
        let places: Vec<usize> = places.into_iter().filter(|place| self.lines[*place].part == part).collect();
        random.pick(&places)
    }

    /// A line's code made another, mostly one that is refused.
    fn spoil(&mut self, random: &mut Random) {
        let tabled = self.lines.iter().filter(|line| line.part == Part::Point).count();
        match random.below(12) {
            0 | 1 => {
                let line = self.closed_line(random, false);
                self.lines[line].code = (1 << self.lines[line].width) - 1;
            }
            2..=5 => {
                let line = self.closed_line(random, true);
                self.lines[line].code = random.below(1 << self.lines[line].width);
            }
            6 | 7 => {
                let line = self.closed_line(random, false);
                self.lines[line].code = edge(random, self.lines[line]);
            }
            8.. if tabled > 1 => self.spoil_pair(random, tabled as u64),
            _ => {
                let fields = 2 + self.layout.last() as u64;
                for _ in 0..random.within(1, 3) {
                    let line = &mut self.lines[random.below(fields) as usize];
                    line.code ^= 1 << random.below(line.width as u64);
                }
            }
        }
    }

    /// A point that equals the one before it or is just below or above it, or in domain 1 a sum.
    fn spoil_pair(&mut self, random: &mut Random, count: u64) {
        let first = self.lines.iter().position(|line| line.part == Part::Point).unwrap_or(0);
        let place = first + 2 * (1 + random.below(count - 1)) as usize;
        let (point, deviation) = (self.lines[place - 2].code, self.lines[place - 1].code);
        if random.percent(50) {
            self.lines[place].code = (point + 1).saturating_sub(random.below(3));
            return;
        }
        // Ten steps of a point are 153 of a deviation.
        let tens = random.within(1, 20) as u64;
        self.lines[first - 2].code = 1;
        self.lines[place].code = point + 10 * tens;
        self.lines[place + 1].code = (deviation + 1).saturating_sub(153 * tens + random.below(3));
    }

    /// The line that the stream ends in, if it is too short.
    pub fn end(&self) -> Option<End> {
        cut(self.kind, &self.lines)
    }

    /// Puts the lines into the image's stream, and the check bytes right.
    pub fn lay(&self, image: &mut [u8]) {
        let mut bit = 0;
        for line in &self.lines {
            put(self.kind, image, bit, line.width, line.code);
            bit += line.width;
        }
        mend(self.kind, image);
    }
}

/// A code at an edge of what a line may hold.
fn edge(random: &mut Random, line: Line) -> u64 {
    let ones = (1 << line.width) - 1;
    match line.part {
        Part::Field(1) => random.pick(&[0, 16, 17, 16_381, 16_382, ones]),
        Part::Field(3) => random.pick(&[0, 1, 26, 27]),
        Part::Field(6) => random.pick(&[45, 46]),
        Part::Number | Part::BlockNumber => random.pick(&[32, 33, 40, 41]),
        Part::Segments => random.pick(&[0, 1, 20, 21]),
        Part::Terms => random.pick(&[0, 1, 6, 7]),
        Part::Power => random.pick(&[62, 63, 64, 65, 74, 75, 76]),
        _ if line.width == 32 => random.pick(&SINGLES),
        _ => random.pick(&[0, 1, ones - 1, ones]),
    }
}

#[cfg(test)]
mod tests {
    use super::*;
    use crate::layout::image_length;
    use crate::plain;

    /// The plain implementation's refusal of a sheet laid over anything.
    fn refused(random: &mut Random, laid: &Laid) -> Option<u8> {
        let mut image = vec![0; image_length(laid.kind)];
        random.fill(&mut image);
        laid.lay(&mut image);
        plain::check(laid.kind, &image).err().map(|refusal| refusal.number)
    }

    #[test]
    fn sound_sheets_are_accepted() {
        let mut random = Random(1);
        for turn in 0..3_000u32 {
            let laid = Laid::sound(&mut random, (turn % 3) as u8);
            assert_eq!(refused(&mut random, &laid), None, "{:?} {:?}", laid.layout, laid.lines);
        }
    }

    /// Each line that a stream can end in is reached, and refused with 3 at its first bit.
    #[test]
    fn streams_end_where_they_should() {
        let mut random = Random(2);
        for kind in 0..3 {
            let ends = Ends::new(kind);
            for (layout, end, ways) in &ends.ends {
                for way in ways {
                    let one = Ends { kind, ends: vec![(*layout, *end, vec![*way])] };
                    let laid = one.pick(&mut random);
                    let mut image = vec![0; image_length(kind)];
                    laid.lay(&mut image);
                    assert_eq!(laid.end(), Some(*end), "{way:?}");
                    let place = (stream_bits(kind) - end.1) as u64;
                    assert_eq!(plain::check(kind, &image).err(), Some(plain::Refusal { number: 3, place }), "{way:?}");
                }
            }
        }
    }
}
