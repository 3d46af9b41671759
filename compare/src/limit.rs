//! The limit of a check: each page is summed once, and only what can be refused is looked at, at its place. It tells what an
//! accepted image holds; of a refused one only that it is refused. Measured, and used for nothing else.

use crate::plain::{Domain, Summary, Template};

pub fn check(kind: u8, image: &[u8]) -> Option<Summary> {
    match kind {
        0 => Chip::<40>(image.try_into().ok()?).sheet(),
        1 => Chip::<128>(image.try_into().ok()?).sheet(),
        2 => Chip::<512>(image.try_into().ok()?).sheet(),
        _ => None,
    }
}

fn word(bytes: &[u8], at: usize) -> u64 {
    bytes[at..].first_chunk().map_or(0, |eight| u64::from_le_bytes(*eight))
}

/// 57 bits at least from a bit of a stream without check bytes.
fn bits(stream: &[u8; STREAM], bit: usize) -> u64 {
    word(stream, bit / 8) >> (bit % 8)
}

fn sum(bytes: &[u8]) -> u8 {
    bytes.iter().fold(0, |sum, byte| sum.wrapping_add(*byte))
}

fn outside(code: u64, least: u64, most: u64) -> bool {
    code.wrapping_sub(least) > most - least
}

/// Infinite, or a NaN that is not all ones.
fn odd_single(code: u64) -> bool {
    let code = code as u32;
    code & 0x7f80_0000 == 0x7f80_0000 && code != u32::MAX
}

/// The bytes of the longest stream, and eight more.
const STREAM: usize = 504;

/// Where the last fields end, by precision.
const BRIDGE_ENDS: [usize; 3] = [275, 291, 317];
const RESISTANCE_ENDS: [usize; 4] = [238, 244, 256, 288];

/// Lowest and highest bits of eight characters.
const LOWEST: u64 = 0x02_0408_1020_4081;
const HIGHEST: u64 = LOWEST << 6;

struct Chip<'a, const LENGTH: usize>(&'a [u8; LENGTH]);

/// What stands behind the fields, and where it ends.
#[derive(Default)]
struct Block {
    domain: Option<Domain>,
    points: u64,
    segments: u64,
    terms: u64,
    end: usize,
}

impl<const LENGTH: usize> Chip<'_, LENGTH> {
    const REGISTER: usize = LENGTH % 32;
    const PAGES: usize = LENGTH / 32;
    const BITS: usize = 8 * (LENGTH - Self::PAGES);

    /// Whether all page sums are right. A blank page's is not; on kind 0, where the register can make it so, its first selector
    /// is none.
    fn summed(&self) -> bool {
        let (register, pages) = self.0.split_at(Self::REGISTER);
        let mut before = sum(register);
        let mut wrong = 0;
        for page in pages.as_chunks::<32>().0 {
            wrong |= sum(page).wrapping_add(before);
            before = 0;
        }
        wrong == 0
    }

    /// 57 bits at least from a bit behind the register, or as many as there are and zeros.
    fn from(&self, bit: usize) -> u64 {
        let byte = bit / 8 - Self::REGISTER;
        let page = if Self::PAGES > 1 { byte / 31 } else { 0 };
        let at = Self::REGISTER + byte + page + 1;
        let gathered = if at + 8 < LENGTH {
            // Of the second word what stands behind the next check byte.
            let before = 31 * (page + 1) - byte;
            let second = if before < 8 { u64::MAX << (8 * before) } else { 0 };
            word(self.0, at) & !second | word(self.0, at + 1) & second
        } else {
            word(self.0, LENGTH - 8) >> (8 * (at + 8 - LENGTH))
        };
        gathered >> (bit % 8)
    }

    /// The stream without its check bytes, as far as the page of a bit, and zeros.
    fn stream(&self, end: usize) -> [u8; STREAM] {
        let mut stream = [0; STREAM];
        let (register, pages) = self.0.split_at(Self::REGISTER);
        stream[..Self::REGISTER].copy_from_slice(register);
        let (parts, _) = stream[Self::REGISTER..].as_chunks_mut::<31>();
        for (part, page) in parts.iter_mut().zip(pages.as_chunks::<32>().0).take(end / 248 + 1) {
            part.copy_from_slice(&page[1..]);
        }
        stream
    }

    fn sheet(&self) -> Option<Summary> {
        if !self.summed() {
            return None;
        }
        // No field that can be refused crosses a page.
        let basic = word(self.0, if Self::REGISTER > 0 { 0 } else { 1 });
        let from_64 = word(self.0, 9);
        let from_112 = word(self.0, 15);
        let from_144 = word(self.0, 19);
        let from_176 = word(self.0, 23);
        if outside(basic & 0x3fff, 17, 16_381)
            || outside(basic >> 29 & 0x1f, 1, 26)
            || from_64 >> 10 & 0x3f > 45
            || odd_single(from_64 >> 16)
            || odd_single(from_112)
        {
            return None;
        }
        let precision = (from_144 & 3) as usize;
        let (template, end, single) = match from_64 & 0x3ff {
            0x84 => {
                let end = *BRIDGE_ENDS.get(precision)?;
                let bridge = match precision {
                    0 => from_144 >> 24,
                    1 => from_144 >> 40,
                    _ => from_176 >> 34,
                };
                if bridge & 3 == 3 {
                    return None;
                }
                (Template::Bridge, end, precision == 2)
            }
            0x80 => (Template::Resistance, RESISTANCE_ENDS[precision], precision == 3),
            _ => return None,
        };
        if single && (odd_single(from_144 >> 2) || odd_single(from_176 >> 2)) {
            return None;
        }
        self.rest(template, end)
    }

    /// What stands behind the fields.
    fn rest(&self, template: Template, end: usize) -> Option<Summary> {
        let mut block = Block { end, ..Block::default() };
        if end + 3 > Self::BITS {
            return None;
        }
        let mut closing = self.from(end);
        if closing & 3 == 0 {
            block = match closing >> 2 & 0xff {
                40 => self.table(end + 18, closing >> 10)?,
                41 => self.curve(end + 19, closing >> 10)?,
                _ => return None,
            };
            closing = self.from(block.end);
        }
        if closing & 3 != 3 {
            return None;
        }
        let end_bit = closing >> 2 & 1;
        let text = block.end + 3;
        let (bits, characters) = if end_bit == 1 { self.text(text) } else { (text, 0) };
        Some(Summary {
            bits: bits as u64,
            points: block.points,
            end_bit,
            characters: characters as u64,
            template,
            domain: block.domain,
            segments: block.segments,
            terms: block.terms,
        })
    }

    /// The pairs from a bit on; the domain and the count stand before it.
    fn table(&self, mut bit: usize, head: u64) -> Option<Block> {
        let physical = head & 1 == 1;
        let points = head >> 1 & 0x7f;
        let end = bit + 37 * points as usize;
        if points == 0 || end + 3 > Self::BITS {
            return None;
        }
        let stream = self.stream(end);
        let (mut last_point, mut last_sum) = (-1, -1);
        while bit < end {
            let pair = bits(&stream, bit);
            let (point, deviation) = ((pair & 0xffff) as i64, (pair >> 16 & 0x1f_ffff) as i64);
            let sum = 15_300 * point + 1_000 * deviation;
            if point == 0xffff || deviation == 0x1f_ffff || point <= last_point || physical && sum <= last_sum {
                return None;
            }
            (last_point, last_sum) = (point, sum);
            bit += 37;
        }
        let domain = Some(if physical { Domain::Physical } else { Domain::Electrical });
        Some(Block { domain, points, end, ..Block::default() })
    }

    /// The segments from a bit on; the domain and the count stand before it.
    fn curve(&self, mut bit: usize, head: u64) -> Option<Block> {
        let segments = head >> 1 & 0xff;
        if head & 1 == 1 || outside(segments, 1, 20) {
            return None;
        }
        let stream = self.stream(Self::BITS);
        let mut terms = 0;
        let mut least_start = 0;
        for index in 0..segments {
            if bit + 20 > Self::BITS {
                return None;
            }
            let segment = bits(&stream, bit);
            let (start, count) = (segment & 0x1fff, segment >> 13 & 0x7f);
            bit += 20;
            terms += count;
            let misplaced = if index == 0 { start != 0 } else { start < least_start };
            let end = bit + 39 * count as usize;
            if misplaced || start == 0x1fff || outside(count, 1, 6) || terms > 30 || end + 3 > Self::BITS {
                return None;
            }
            least_start = start + 1;
            let mut least_power = 64;
            while bit < end {
                let term = bits(&stream, bit);
                let (power, coefficient) = (term & 0x7f, term >> 7);
                if power < least_power || power > 74 || power % 2 == 1 || coefficient >> 23 & 0xff == 0xff {
                    return None;
                }
                least_power = power + 2;
                bit += 39;
            }
        }
        Some(Block { segments, terms, end: bit, ..Block::default() })
    }

    /// Where the text ends, and its characters.
    fn text(&self, text: usize) -> (usize, usize) {
        let room = (Self::BITS - text) / 7;
        let mut characters = 0;
        while characters < room {
            let eight = self.from(text + 7 * characters);
            let zeros = eight.wrapping_sub(LOWEST) & !eight & HIGHEST;
            if zeros != 0 {
                characters += zeros.trailing_zeros() as usize / 7;
                break;
            }
            characters += 8;
        }
        if characters < room { (text + 7 * characters + 7, characters) } else { (text + 7 * room, room) }
    }
}

#[cfg(test)]
mod tests {
    use super::*;
    use crate::laid::{Ends, Laid};
    use crate::layout::{image_length, mend};
    use crate::plain;
    use crate::random::Random;

    /// Damage below the lines: flipped bits, blank pages, a register that makes a blank page's sum right.
    fn damage(random: &mut Random, kind: u8, image: &mut [u8]) {
        let bits = 8 * image.len() as u64;
        match random.below(4) {
            0 | 1 => {
                let mended = random.percent(70);
                for _ in 0..random.within(1, 3) {
                    let bit = random.below(bits) as usize;
                    image[bit / 8] ^= 1 << (bit % 8);
                }
                if mended {
                    mend(kind, image);
                }
            }
            2 => {
                let (register, pages) = image.split_at_mut(image_length(kind) % 32);
                let written = random.below(2 * pages.len() as u64 / 32) as usize;
                for (page, bytes) in pages.chunks_exact_mut(32).enumerate() {
                    if page != written {
                        bytes.fill(0xff);
                    }
                }
                if let Some((first, others)) = register.split_first_mut() {
                    *first = 32u8.wrapping_sub(sum(others));
                }
            }
            _ => random.fill(image),
        }
    }

    #[test]
    fn accepts_what_the_plain_check_accepts() {
        let mut random = Random(30);
        let ends = [0, 1, 2].map(Ends::new);
        let mut accepted = [0; 3];
        let mut refused = [0; 26];
        for _ in 0..100_000 {
            let kind = random.pick(&[0, 1, 2]);
            let mut image = vec![random.pick(&[0, 0xff]); image_length(kind)];
            if random.percent(60) {
                random.fill(&mut image);
            }
            Laid::any(&mut random, &ends[usize::from(kind)]).lay(&mut image);
            if random.percent(15) {
                damage(&mut random, kind, &mut image);
            }
            let expected = plain::check(kind, &image);
            assert_eq!(check(kind, &image), expected.ok(), "{kind} {image:02x?} {expected:?}");
            match expected {
                Ok(_) => accepted[usize::from(kind)] += 1,
                Err(refusal) => refused[usize::from(refusal.number)] += 1,
            }
            let other = random.pick(&[0, 1, 2, 3, 255]);
            assert!(other == kind || check(other, &image).is_none());
            assert_eq!(check(kind, &image[1..]), None);
        }
        assert!(accepted.iter().all(|times| *times > 5_000), "{accepted:?}");
        for number in [2, 3, 4, 5, 6, 7, 17, 22, 24, 25] {
            assert!(refused[number] > 50, "{number}: {refused:?}");
        }
    }
}
