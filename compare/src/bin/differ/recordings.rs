//! Recordings of a run at ten and at sixty a second, and lists of points for their distance and for the conformity of an image.

use compare::console::Command;
use compare::layout::BILLION;
use compare::plain::{self, Dash, Domain};

use crate::{COMPARE, CONFORM, DISTANCE, Differ};

impl Differ {
    /// Some inputs of the image, accepted ones where there are such.
    fn inputs(&mut self) -> Vec<i64> {
        let mut inputs = Vec::new();
        for _ in 0..self.random.within(1, 8) {
            let mut input = self.input();
            for _ in 0..4 {
                if plain::reading(self.kind, self.image(), input, Dash::Large).is_err() {
                    input = self.input();
                }
            }
            inputs.push(input);
        }
        inputs
    }

    /// The slow recording and the fast one, with the readings of the image; 0 where one is refused.
    fn recordings(&mut self) -> (Vec<i64>, Vec<i64>) {
        let inputs = self.inputs();
        let ticks = match self.random.below(10) {
            0 => 0,
            1 => self.random.within(4, 30),
            _ => self.random.within(1, 4),
        };
        let mut fast = Vec::new();
        for _ in 0..6 * ticks {
            let input = self.random.pick(&inputs);
            let shown = plain::reading(self.kind, self.image(), input, Dash::Large);
            fast.extend([input, shown.map_or(0, |reading| reading.fraction)]);
        }
        let slow = fast.chunks_exact(12).flat_map(|ticks| [ticks[0], ticks[1]]).collect();
        (slow, fast)
    }

    /// Another figure: near, at the edges, any.
    fn other_figure(&mut self, figure: i64) -> i64 {
        let any = self.random.word() as i64;
        let near = figure.wrapping_add(self.random.pick(&[-2, -1, 1, 2]));
        self.random.pick(&[near, near, near, -figure.max(-BILLION), figure ^ 1 << 32, i64::MIN, i64::MAX, 0, any])
    }

    /// One figure of a recording, of both at a pair, or a length made wrong.
    fn spoil_recordings(&mut self, slow: &mut Vec<i64>, fast: &mut Vec<i64>) {
        let place = self.random.below(fast.len().max(1) as u64) as usize;
        let paired = self.random.below(slow.len().max(1) as u64) as usize;
        match self.random.below(12) {
            0..=3 if !fast.is_empty() => fast[place] = self.other_figure(fast[place]),
            4 | 5 if !slow.is_empty() => slow[paired] = self.other_figure(slow[paired]),
            6 | 7 if !slow.is_empty() => {
                // Alike in both, so that only the reading tells.
                slow[paired] = self.other_figure(slow[paired]);
                if let Some(place) = fast.get_mut(paired / 2 * 12 + paired % 2) {
                    *place = slow[paired];
                }
            }
            8 => fast.truncate(place),
            9 => slow.truncate(paired),
            10 => {
                let more = self.random.pick(&[1, 2, 3, 10, 12]);
                fast.resize(fast.len() + more, 5);
            }
            _ => {
                let more = self.random.pick(&[1, 2, 3]);
                slow.resize(slow.len() + more, 5);
            }
        }
    }

    pub fn compare(&mut self) {
        let (mut slow, mut fast) = self.recordings();
        if self.random.percent(60) {
            for _ in 0..self.random.pick(&[1, 1, 1, 2]) {
                self.spoil_recordings(&mut slow, &mut fast);
            }
        }
        let before = (slow.clone(), fast.clone());
        let kind = self.chip();
        let answer = self.both(
            COMPARE,
            kind,
            |image| Command::Compare(kind, image.to_vec(), slow.clone(), fast.clone()),
            |calls, lent| calls.compare(kind, lent.image(), &slow, &fast),
        );
        self.agreed += u64::from(answer.agrees);
        self.untouched(COMPARE, before == (slow, fast));
    }

    /// Two neighbours as near as they can be, mostly as far apart in their deviations.
    fn steepen(&mut self, list: &mut [i64]) {
        let pairs = list.len() / 2;
        if pairs < 2 {
            return;
        }
        let at = 2 * self.random.below(pairs as u64 - 1) as usize;
        let code = list[at].clamp(0, BILLION).saturating_add(7_650) / 15_300;
        list[at] = 15_300 * code + 7_649;
        list[at + 2] = 15_300 * code + 7_650 + self.random.pick(&[0, 0, 1, 7]);
        if self.random.percent(70) {
            let (least, most) = (-BILLION, 1_097_150_000);
            let ends = self.random.pick(&[(least, most), (most, least), (0, most), (0, 1)]);
            (list[at + 1], list[at + 3]) = ends;
        }
    }

    pub fn distance(&mut self) {
        let layout = self.pick_layout();
        let mut points = self.point_list(layout, Domain::Electrical);
        if self.random.percent(30) {
            self.steepen(&mut points);
        }
        let before = points.clone();
        self.both(DISTANCE, 0, |_| Command::Distance(points.clone()), |calls, _| calls.distance(&points));
        self.untouched(DISTANCE, before == points);
    }

    /// Points near those of the image, or any.
    fn certificate(&mut self) -> Vec<i64> {
        let stored = plain::check(self.kind, self.image()).map_or(0, |summary| summary.points);
        if stored == 0 || self.random.percent(25) {
            let layout = self.pick_layout();
            return self.point_list(layout, Domain::Electrical);
        }
        let far = self.random.pick(&[0, 1, 7_000, 20_000, 100_000_000]);
        let mut points = Vec::new();
        for index in 0..stored {
            let Ok((point, deviation)) = plain::pair(self.kind, self.image(), index) else { continue };
            if self.random.percent(90) {
                let moved =
                    point + self.random.pick(&[0, 0, 1, -1, 7_649, -7_650]) + self.random.pick(&[0, 0, far, -far]);
                let bent = deviation + self.random.pick(&[0, 1, -1, 499, -500]) + self.random.pick(&[0, 0, far, -far]);
                points.extend([moved.clamp(0, 1_002_670_200), bent.clamp(-BILLION, 1_097_150_000)]);
            }
        }
        points
    }

    pub fn conform(&mut self) {
        let mut points = self.certificate();
        if self.random.percent(10) {
            self.steepen(&mut points);
        }
        if self.random.percent(5) {
            points.pop();
        }
        let before = points.clone();
        let kind = self.chip();
        self.both(
            CONFORM,
            kind,
            |image| Command::Conform(kind, image.to_vec(), points.clone()),
            |calls, lent| calls.conformity(kind, lent.image(), &points),
        );
        self.untouched(CONFORM, before == points);
    }
}
