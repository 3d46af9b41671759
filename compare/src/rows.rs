//! The plain implementation of an image written row by row: the next row, from what the chip holds.

use crate::plain::{self, Answer, Refusal};

pub const ROW: usize = 8;

/// The row of page 1's check byte, where there is a page 1.
const SECOND: usize = 4;

/// What is to be written next.
#[derive(Clone, Copy, Debug, PartialEq, Eq)]
pub enum Row {
    Done,
    Write { offset: u64, bytes: [u8; ROW] },
}

fn row(image: &[u8], r: usize) -> &[u8] {
    &image[ROW * r..ROW * (r + 1)]
}

fn sum(bytes: &[u8]) -> u8 {
    bytes.iter().fold(0, |sum, byte| sum.wrapping_add(*byte))
}

fn write(r: usize, from: &[u8]) -> Row {
    let mut bytes = [0; ROW];
    bytes.copy_from_slice(from);
    Row::Write { offset: (ROW * r) as u64, bytes }
}

/// A row with its first byte higher by some.
fn raised(image: &[u8], r: usize, by: u8) -> Row {
    let mut bytes = [0; ROW];
    bytes.copy_from_slice(row(image, r));
    bytes[0] = bytes[0].wrapping_add(by);
    Row::Write { offset: (ROW * r) as u64, bytes }
}

pub fn next_row(kind: u8, present: &[u8], wanted: &[u8]) -> Answer<Row> {
    plain::check(kind, wanted)?;
    if present.len() != wanted.len() {
        return Err(Refusal { number: 1, place: 0 });
    }
    Ok(if kind == 0 { of_one_page(present, wanted) } else { of_pages(present, wanted) })
}

fn of_pages(present: &[u8], wanted: &[u8]) -> Row {
    if present == wanted {
        return Row::Done;
    }
    let mut unsealed = [0; 512];
    let unsealed = &mut unsealed[..wanted.len()];
    unsealed.copy_from_slice(wanted);
    unsealed[ROW * SECOND] = unsealed[ROW * SECOND].wrapping_add(1);
    match (0..present.len() / ROW).rfind(|r| row(present, *r) != row(unsealed, *r)) {
        None => write(SECOND, row(wanted, SECOND)),
        Some(r) if r >= SECOND && sum(&present[..32]) == 0 => raised(present, 0, 1),
        Some(r) => write(r, row(unsealed, r)),
    }
}

/// Row 0 is the register; the check byte is the first of row 1.
fn of_one_page(present: &[u8], wanted: &[u8]) -> Row {
    let differs = |r: &usize| row(present, *r) != row(wanted, *r);
    match (0..5).filter(differs).count() {
        0 => return Row::Done,
        1 => return (0..5).find(differs).map_or(Row::Done, |r| write(r, row(wanted, r))),
        _ => (),
    }
    let last = (0..5).rfind(|r| *r != 1 && differs(r)).unwrap_or(0);
    let now = sum(present);
    let then = now.wrapping_sub(sum(row(present, last))).wrapping_add(sum(row(wanted, last)));
    if now != 0 && then != 0 {
        return write(last, row(wanted, last));
    }
    let by = (1..=3).find(|by| now.wrapping_add(*by) != 0 && then.wrapping_add(*by) != 0);
    raised(present, 1, by.unwrap_or(0))
}

#[cfg(test)]
mod tests {
    use super::*;
    use crate::laid::Laid;
    use crate::layout::{image_length, mend};
    use crate::random::Random;

    fn sound(random: &mut Random, kind: u8) -> Vec<u8> {
        let mut image = vec![0; image_length(kind)];
        Laid::sound(random, kind).lay(&mut image);
        assert!(plain::check(kind, &image).is_ok());
        image
    }

    /// The states of a chip from one image to another, the first and the last among them.
    fn states(kind: u8, old: &[u8], wanted: &[u8]) -> Vec<Vec<u8>> {
        let mut states = vec![old.to_vec()];
        let mut present = old.to_vec();
        while let Ok(Row::Write { offset, bytes }) = next_row(kind, &present, wanted) {
            let at = offset as usize;
            assert_ne!(present[at..at + ROW], bytes);
            present[at..at + ROW].copy_from_slice(&bytes);
            states.push(present.clone());
            assert!(states.len() < 140, "no end");
        }
        states
    }

    #[test]
    fn pulled_after_each_row() {
        let mut random = Random(7);
        for round in 0..3_000 {
            let kind = (round % 3) as u8;
            let wanted = sound(&mut random, kind);
            let mut old = sound(&mut random, kind);
            if random.percent(30) {
                old = wanted.clone();
                let at = random.below(old.len() as u64) as usize;
                old[at] = random.word() as u8;
                if random.percent(50) {
                    mend(kind, &mut old);
                }
            }
            let differing = old.chunks(ROW).zip(wanted.chunks(ROW)).filter(|(a, b)| a != b).count();
            let states = states(kind, &old, &wanted);
            assert_eq!(states.last(), Some(&wanted));
            assert!(states.len() - 1 <= if kind == 0 { 2 * differing } else { differing } + 4);
            for state in &states {
                let accepted = plain::check(kind, state).is_ok();
                assert!(!accepted || *state == old || *state == wanted);
                let why = plain::check(kind, state).err().map(|refusal| refusal.number);
                assert!(*state == old || *state == wanted || why == Some(2) || why == Some(17));
            }
        }
    }

    #[test]
    fn refusals() {
        let mut random = Random(11);
        let wanted = sound(&mut random, 1);
        let mut wrong = wanted.clone();
        wrong[64] = wrong[64].wrapping_add(1);
        let refusal = |number, place| Err(Refusal { number, place });
        assert_eq!(next_row(1, &wanted, &wanted), Ok(Row::Done));
        assert_eq!(next_row(3, &wanted, &wanted), refusal(1, 0));
        assert_eq!(next_row(2, &wanted, &wanted), refusal(1, 0));
        assert_eq!(next_row(1, &wanted[..127], &wanted), refusal(1, 0));
        assert_eq!(next_row(1, &[], &wanted), refusal(1, 0));
        // The image to be written first.
        assert_eq!(next_row(1, &[], &wrong), refusal(2, 2));
        assert_eq!(next_row(1, &wanted, &[0xff; 128]), refusal(17, 0));
        assert!(matches!(next_row(1, &[0xff; 128], &wanted), Ok(Row::Write { .. })));
    }
}
