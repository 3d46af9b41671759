//! What a chip may hold that is to hold the image.

use compare::console::Command;
use compare::laid::Laid;
use compare::layout::{mend, register};
use compare::rows::{self, ROW, Row};

use crate::{Differ, NEXT};

impl Differ {
    /// The image itself or nearly, a blank chip, another sheet, anything; and rows of the image written to it already.
    fn present(&mut self) -> Vec<u8> {
        let wanted = self.image().to_vec();
        let mut present = wanted.clone();
        match self.random.below(10) {
            0 => (),
            1 => present.fill(0xff),
            2 => self.random.fill(&mut present),
            3 | 4 => Laid::sound(&mut self.random, self.kind).lay(&mut present),
            5 if self.kind != 0 => present[32] = present[32].wrapping_add(self.random.pick(&[1, 1, 1, 2, 255])),
            _ => self.alter(&mut present),
        }
        if self.random.percent(40) {
            mend(self.kind, &mut present);
        }
        if self.random.percent(20) {
            let check = register(self.kind);
            present[check] = present[check].wrapping_add(self.random.pick(&[1, 2, 3, 253, 254, 255]));
        }
        for _ in 0..self.random.pick(&[0, 0, 0, 1, 2, 3, 5, 10, 40, 70]) {
            let Ok(Row::Write { offset, bytes }) = rows::next_row(self.kind, &present, &wanted) else {
                break;
            };
            present[offset as usize..][..ROW].copy_from_slice(&bytes);
        }
        if self.random.percent(20) {
            self.ahead(&mut present, &wanted);
        }
        present
    }

    /// Some bytes are others.
    fn alter(&mut self, present: &mut [u8]) {
        for _ in 0..self.random.within(1, 6) {
            let at = self.random.below(present.len() as u64) as usize;
            present[at] = self.random.word() as u8;
        }
    }

    /// The check byte of page 0 such that it adds up with some row as in the image, or nearly.
    fn ahead(&mut self, present: &mut [u8], wanted: &[u8]) {
        let at = ROW * self.random.below(present.len() as u64 / ROW as u64) as usize;
        let mut then = present.to_vec();
        then[at..at + ROW].copy_from_slice(&wanted[at..at + ROW]);
        mend(self.kind, &mut then);
        let check = register(self.kind);
        present[check] = then[check].wrapping_add(self.random.pick(&[0, 0, 0, 253, 254, 255]));
    }

    pub fn next_row(&mut self) {
        let mut present = self.present();
        if self.random.percent(2) {
            let near = self.random.within(-1, 1) + present.len() as i64;
            present.resize(self.random.pick(&[0, 40, 128, 512, near as usize]), 0);
        }
        let before = present.clone();
        let kind = self.chip();
        let answer = self.both(
            NEXT,
            kind,
            |image| Command::Next(kind, present.clone(), image.to_vec()),
            |calls, lent| calls.next_row(kind, &present, lent.image()),
        );
        self.done += u64::from(answer.is_done);
        self.untouched(NEXT, before == present);
    }
}
