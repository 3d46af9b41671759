//! What the sheets that were laid line by line have met: streams that end inside a line, lines across pages, codes, texts.

use std::collections::{BTreeMap, BTreeSet};

use compare::laid::{Ends, Laid, Part};
use compare::layout::{Layout, get, register, stream_bits};
use compare::plain::{self, Summary};

/// Kind, template and precision.
type Sheet = (u8, u8, usize);

fn sheet(kind: u8, layout: Layout) -> Sheet {
    (kind, layout.template.number(), layout.precision)
}

/// A line of a sheet, and so many of its bits.
type Place = (Part, Sheet, usize);

#[derive(Default)]
pub struct Met {
    /// The stream ends behind these bits of the line.
    ends: BTreeMap<Place, u64>,
    /// A page does.
    crossings: BTreeMap<Place, u64>,
    /// Of lines of 8 bits at most whose codes can be refused, by template.
    codes: BTreeMap<(Part, u8), BTreeSet<u64>>,
    /// Characters of accepted sheets, by kind and whether a zero ends them.
    texts: BTreeMap<(u8, bool), BTreeSet<u64>>,
}

impl Met {
    pub fn note(&mut self, laid: &Laid, image: &[u8]) {
        let sheet = sheet(laid.kind, laid.layout);
        if let Some((part, inside)) = laid.end() {
            *self.ends.entry((part, sheet, inside)).or_default() += 1;
        }
        let register = 8 * register(laid.kind);
        let mut bit = 0;
        for line in &laid.lines {
            // A page has 248 bits of the stream.
            let next = (bit + 248 - register) / 248 * 248 + register;
            if bit < next && next < bit + line.width && next < stream_bits(laid.kind) {
                *self.crossings.entry((line.part, sheet, next - bit)).or_default() += 1;
            }
            if line.width <= 8 && laid.closed(line) {
                self.codes.entry((line.part, sheet.1)).or_default().insert(line.code);
            }
            bit += line.width;
        }
        if let Ok(summary) = plain::check(laid.kind, image) {
            self.text(laid.kind, image, summary);
        }
    }

    fn text(&mut self, kind: u8, image: &[u8], summary: Summary) {
        let layout = Layout { template: summary.template, precision: get(kind, image, 144, 2) as usize };
        let curve = if summary.segments > 0 { 19 + 20 * summary.segments + 39 * summary.terms } else { 0 };
        let text = layout.bits_without_text(summary.points as usize) as u64 + curve;
        if summary.end_bit == 0 {
            return;
        }
        let ended = summary.bits > text + 7 * summary.characters;
        self.texts.entry((kind, ended)).or_default().insert(summary.characters);
        if !ended {
            let left = stream_bits(kind) - summary.bits as usize;
            *self.ends.entry((Part::Character, sheet(kind, layout), left)).or_default() += 1;
        }
    }

    pub fn report(&self, ends: &[Ends; 3]) {
        println!();
        println!(
            "Streams that end inside a line: places met (by template, precision and bits of the line), least times."
        );
        println!();
        by_kind(&self.ends, |kind, part| {
            let all = ends[usize::from(kind)].all().filter(|(_, end)| end.0 == part).count();
            if all > 0 { format!(" of {all}") } else { String::new() }
        });
        println!();
        println!("Lines across pages: places met, least times.");
        println!();
        by_kind(&self.crossings, |_, _| String::new());
        println!();
        println!("| Line | Template | Codes met |");
        println!("|---|---|---|");
        for ((part, template), codes) in &self.codes {
            println!("| {part:?} | {template} | {} |", codes.len());
        }
        println!();
        println!("| Kind | Text | Lengths met | Longest |");
        println!("|---|---|---|---|");
        for ((kind, ended), lengths) in &self.texts {
            let how = if *ended { "ended by a zero" } else { "to the end" };
            println!("| {kind} | {how} | {} | {} |", lengths.len(), lengths.last().unwrap_or(&0));
        }
    }
}

/// A row for each line, a column for each kind.
fn by_kind(places: &BTreeMap<Place, u64>, of: impl Fn(u8, Part) -> String) {
    println!("| Line | Kind 0 | Kind 1 | Kind 2 |");
    println!("|---|---|---|---|");
    let parts: BTreeSet<Part> = places.keys().map(|(part, _, _)| *part).collect();
    for part in parts {
        let cell = |kind: u8| {
            let times = || places.iter().filter(|((line, sheet, _), _)| *line == part && sheet.0 == kind);
            match times().map(|(_, times)| *times).min() {
                Some(least) => format!("{}{}, {least}", times().count(), of(kind, part)),
                None => String::new(),
            }
        };
        println!("| {part:?} | {} | {} | {} |", cell(0), cell(1), cell(2));
    }
}
