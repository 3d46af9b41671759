//! bench: nanoseconds a call, the product's and the plain implementation's, and for a check the limit's, by turns on the same
//! buffers; Markdown tables, and at the end whether the targets hold. For portable/cost: --rows names the rows, with how many calls
//! of the product --counted makes in each, and --product has one pass of the product alone, a line of nanoseconds for each row.

#![forbid(unsafe_code)]

use std::env;
use std::hint::black_box;
use std::time::Instant;

use compare::calls::{Calls, Plain};
use compare::ffi::Product;
use compare::limit;
use compare::plain::{Curve, Dash, Level, Segment, Template, Term, Value};
use compare::structs::{ByFlags, CheckAnswer, Fields};

// A figure is the least of PASSES x ROUNDS rounds; a pass goes through all rows, so that what else the machine does for some
// seconds is met by no row in all its passes, and on images in other places, so that none is slower for where they came to lie.
const PASSES: usize = 8;
const ROUNDS: usize = 250;
const ROUND_NANOSECONDS: f64 = 2e4;

/// Room for an image, from a line of the cache on.
#[repr(align(64))]
struct Room([u8; 512]);

fn room(bytes: usize) -> &'static mut [u8] {
    &mut Box::leak(Box::new(Room([0; 512]))).0[..bytes]
}

/// A sheet on a chip, with what the calls are handed.
struct Case {
    kind: u8,
    image: &'static mut [u8],
    /// The template's last field, and its date.
    last: u64,
    dated: u64,
    /// The code that the date holds between commits.
    date: u64,
    fields: Fields,
    text: &'static [u8],
    points: Vec<i64>,
    curve: Curve,
    index: [u8; 480],
    /// What the chip holds that is to hold the image.
    present: Vec<u8>,
    slow: Vec<i64>,
    fast: Vec<i64>,
    /// How many fast ticks are compared in a call, and from which on in the next.
    ticks: usize,
    tick: usize,
}

/// A kind, how many points, and a text.
type Chip = (u8, i64, &'static [u8]);

const CHIPS: [Chip; 6] =
    [(0, 0, b"Dash"), (1, 0, b"Dash"), (1, 18, b"Dash"), (2, 0, b"Dash"), (2, 20, b"Dash"), (2, 99, b"D")];

const DATE: i64 = 7_306;

fn values() -> [Value; 21] {
    use Value::{Missing, Single, Whole};
    [
        Whole(17),
        Whole(1),
        Whole(1),
        Whole(0),
        Whole(1),
        Whole(6),
        Single(0.0),
        Single(16.0),
        Whole(0),
        Whole(0),
        Whole(3_000_000),
        Whole(2),
        Whole(3_500),
        Whole(100),
        Whole(50),
        Missing,
        Missing,
        Whole(DATE),
        Whole(1_057),
        Whole(365),
        Whole(21),
    ]
}

/// The same at precision 2.
fn full_precision() -> [Value; 21] {
    let mut values = values();
    values[8..11].copy_from_slice(&[Value::Whole(2), Value::Single(0.0), Value::Single(0.003)]);
    values
}

/// Of template 32.
fn resistance() -> [Value; 21] {
    use Value::{Missing, Whole};
    let mut values = values();
    values[8..].copy_from_slice(&[
        Whole(2),
        Whole(80),
        Whole(194),
        Whole(3),
        Whole(100),
        Whole(10_000_000),
        Missing,
        Whole(DATE),
        Whole(1_057),
        Whole(365),
        Whole(21),
        Missing,
        Missing,
    ]);
    values
}

impl Case {
    fn new(template: Template, values: [Value; 21], (kind, points, text): Chip) -> Case {
        let fields = Fields {
            values: values.map(ByFlags::from),
            end_bit: 1,
            level: Level::Maker.into(),
            unused: 0,
            is_resistance: u8::from(template == Template::Resistance),
        };
        let point = |i| [i * 1_000_000_000 / points.max(1), (i * 7_919 % 200 - 100) * 10_000];
        let mut case = Case {
            kind,
            image: room([40, 128, 512][usize::from(kind)]),
            last: template.last() as u64,
            // The date stands four fields from the end.
            dated: template.last() as u64 - 3,
            date: DATE as u64,
            fields,
            text,
            points: (0..points).flat_map(point).collect(),
            curve: Curve::default(),
            index: [0; 480],
            present: Vec::new(),
            slow: Vec::new(),
            fast: Vec::new(),
            ticks: 0,
            tick: 0,
        };
        let number = build(&Plain, &mut case, 0).max(index(&Plain, &mut case, 0));
        assert_eq!(number, 0, "kind {kind}, {points} points");
        case
    }

    /// With a curve of so many segments of two terms.
    fn drawn(kind: u8, segments: usize) -> Case {
        let mut case = Case::new(Template::Bridge, values(), (kind, 0, b"Dash"));
        case.curve.count = segments as u64;
        for i in 0..segments {
            case.curve.segments[i] = Segment { start: i as i64 * 1_000_000_000 / segments as i64, terms: 2 };
            case.curve.terms[2 * i] = Term { exponent: 0, coefficient: 0.1 };
            case.curve.terms[2 * i + 1] = Term { exponent: 3, coefficient: -1e-6 };
        }
        assert_eq!(build_curve(&Plain, &mut case, 0), 0, "kind {kind}, {segments} segments");
        case
    }

    /// With two recordings of a run, compared so many fast ticks a call.
    fn recorded(mut self, ticks: usize) -> Case {
        for tick in 0..RUN {
            let input = -250_000 + (tick * 7_919 % 3_500_000) as i64;
            let shown = Plain.reading(self.kind, self.image, input, Dash::Large.into()).fraction;
            self.fast.extend([input, shown]);
        }
        self.slow = self.fast.chunks_exact(12).flat_map(|ticks| [ticks[0], ticks[1]]).collect();
        assert_eq!(Plain.compare(self.kind, self.image, &self.slow, &self.fast).agrees, 1);
        self.ticks = ticks;
        self
    }

    /// On a chip that holds something.
    fn on(mut self, present: Vec<u8>) -> Case {
        self.present = present;
        self
    }

    /// The image to another place.
    fn moved(&mut self) {
        let image = room(self.image.len());
        image.copy_from_slice(self.image);
        self.image = image;
    }
}

/// Fast ticks of a run of 1,000 seconds.
const RUN: usize = 60_000;

// Both sides are called through the same functions, which are not inlined, and with the same arguments; every member of an
// answer is wanted.

#[inline(never)]
fn check<C: Calls>(calls: &C, case: &mut Case, _: usize) -> u8 {
    black_box(&calls.check(black_box(case.kind), black_box(&*case.image))).number
}

#[inline(never)]
fn field<C: Calls>(calls: &C, case: &mut Case, field: u64) -> u8 {
    black_box(&calls.field(black_box(case.kind), black_box(&*case.image), black_box(field))).number
}

/// The limit, answered as a check is.
#[inline(never)]
fn limit_check(case: &mut Case, _: usize) -> u8 {
    let summary = limit::check(black_box(case.kind), black_box(&*case.image));
    let refused = CheckAnswer { number: 1, ..CheckAnswer::default() };
    black_box(&summary.map_or(refused, CheckAnswer::from)).number
}

fn first_field<C: Calls>(calls: &C, case: &mut Case, _: usize) -> u8 {
    field(calls, case, 1)
}

fn last_field<C: Calls>(calls: &C, case: &mut Case, _: usize) -> u8 {
    field(calls, case, case.last)
}

#[inline(never)]
fn index<C: Calls>(calls: &C, case: &mut Case, _: usize) -> u8 {
    let buffer = black_box(&mut case.index[..]);
    black_box(&calls.index(black_box(case.kind), black_box(&*case.image), buffer)).number
}

#[inline(never)]
fn fetch<C: Calls>(calls: &C, case: &mut Case, field: u64) -> u8 {
    let (image, index) = (black_box(&*case.image), black_box(&case.index[..]));
    black_box(&calls.fetch(black_box(case.kind), image, index, black_box(field))).number
}

fn first_fetched<C: Calls>(calls: &C, case: &mut Case, _: usize) -> u8 {
    fetch(calls, case, 1)
}

fn last_fetched<C: Calls>(calls: &C, case: &mut Case, _: usize) -> u8 {
    fetch(calls, case, case.last)
}

#[inline(never)]
fn sheet<C: Calls>(calls: &C, case: &mut Case, _: usize) -> u8 {
    black_box(&calls.sheet(black_box(case.kind), black_box(&*case.image))).number
}

#[inline(never)]
fn reading<C: Calls>(calls: &C, case: &mut Case, turn: usize) -> u8 {
    let (input, dash) = (-250_000 + 220_000 * (turn % 16) as i64, Dash::Large.into());
    black_box(&calls.reading(black_box(case.kind), black_box(&*case.image), black_box(input), black_box(dash))).number
}

#[inline(never)]
fn change<C: Calls>(calls: &C, case: &mut Case, turn: usize) -> u8 {
    let value = ByFlags::from(Value::Whole(DATE + (turn % 2) as i64));
    let (image, level) = (black_box(&mut *case.image), black_box(Level::CalibrationRoom.into()));
    let answer = calls.change(black_box(case.kind), image, level, black_box(case.dated), black_box(value));
    black_box(&answer).number
}

#[inline(never)]
fn propose<C: Calls>(calls: &C, case: &mut Case, turn: usize) -> u8 {
    let value = ByFlags::from(Value::Whole(DATE + (turn % 2) as i64));
    let (image, level) = (black_box(&*case.image), black_box(Level::CalibrationRoom.into()));
    let answer = calls.propose(black_box(case.kind), image, level, black_box(case.dated), black_box(value));
    black_box(&answer).number
}

#[inline(never)]
fn commit<C: Calls>(calls: &C, case: &mut Case, _: usize) -> u8 {
    let (present, new) = (case.date, case.date ^ 1);
    case.date = new;
    let (image, level) = (black_box(&mut *case.image), black_box(Level::CalibrationRoom.into()));
    let answer = calls.commit(black_box(case.kind), image, level, black_box(case.dated), present, black_box(new));
    black_box(&answer).number
}

#[inline(never)]
fn build<C: Calls>(calls: &C, case: &mut Case, _: usize) -> u8 {
    let (text, domain, points) = (black_box(case.text), black_box(0), black_box(&case.points));
    let (kind, image, fields) = (black_box(case.kind), black_box(&mut *case.image), *black_box(&case.fields));
    let answer = calls.build(kind, image, fields, text, domain, points);
    black_box(&answer).number
}

#[inline(never)]
fn build_curve<C: Calls>(calls: &C, case: &mut Case, _: usize) -> u8 {
    let (text, curve) = (black_box(case.text), *black_box(&case.curve));
    let (kind, image, fields) = (black_box(case.kind), black_box(&mut *case.image), *black_box(&case.fields));
    black_box(&calls.build_curve(kind, image, fields, text, curve)).number
}

#[inline(never)]
fn compare<C: Calls>(calls: &C, case: &mut Case, _: usize) -> u8 {
    let (from, to) = (2 * case.tick, 2 * (case.tick + case.ticks));
    case.tick = if to < case.fast.len() { case.tick + case.ticks } else { 0 };
    let (slow, fast) = (black_box(&case.slow[from / 6..to / 6]), black_box(&case.fast[from..to]));
    black_box(&calls.compare(black_box(case.kind), black_box(&*case.image), slow, fast)).number
}

#[inline(never)]
fn distance<C: Calls>(calls: &C, case: &mut Case, _: usize) -> u8 {
    black_box(&calls.distance(black_box(&case.points))).number
}

#[inline(never)]
fn conformity<C: Calls>(calls: &C, case: &mut Case, _: usize) -> u8 {
    black_box(&calls.conformity(black_box(case.kind), black_box(&*case.image), black_box(&case.points))).number
}

#[inline(never)]
fn next_row<C: Calls>(calls: &C, case: &mut Case, _: usize) -> u8 {
    let (present, wanted) = (black_box(&case.present[..]), black_box(&*case.image));
    black_box(&calls.next_row(black_box(case.kind), present, wanted)).number
}

// ---- rows ----

type Run = Box<dyn Fn(&mut Case, usize)>;

/// A loop over one side's call; every call must be accepted.
fn over(call: impl Fn(&mut Case, usize) -> u8 + 'static) -> Run {
    Box::new(move |case, turns| {
        let mut refused = 0u64;
        for turn in 0..turns {
            refused += u64::from(call(case, turn) != 0);
            black_box(&*case.image);
        }
        assert_eq!(refused, 0);
    })
}

/// A call's name, and both sides of it.
struct Call {
    name: &'static str,
    product: Run,
    plain: Run,
}

macro_rules! call {
    ($name:expr, $call:ident) => {
        Call {
            name: $name,
            product: over(|case, turn| $call(&Product, case, turn)),
            plain: over(|case, turn| $call(&Plain, case, turn)),
        }
    };
}

/// The product, the plain implementation, and for a check the limit.
struct Row {
    case: usize,
    /// What stands before the figures.
    labels: Vec<String>,
    name: &'static str,
    points: i64,
    sides: Vec<Run>,
    turns: usize,
    /// How much a call does: the ticks of a comparison.
    amount: f64,
    least: Vec<f64>,
}

impl Row {
    /// So many nanoseconds a call, or a tick, on a side.
    fn figure(&self, side: usize) -> f64 {
        self.least[side] / self.amount
    }

    /// How many calls are counted: the inputs of a reading come round in 16, and one comparison can be long.
    fn counted(&self) -> usize {
        if self.amount > 1.0 { 1 } else { 16 }
    }

    fn ratio(&self) -> f64 {
        self.figure(PRODUCT) / self.figure(PLAIN)
    }

    fn to_limit(&self) -> Option<f64> {
        (self.sides.len() > LIMIT).then(|| self.figure(PRODUCT) / self.figure(LIMIT))
    }

    fn named(&self, of: &Table) -> String {
        let labels: Vec<String> = of
            .labels
            .iter()
            .zip(&self.labels)
            .map(|(name, label)| format!("{} {label}", name.to_lowercase()))
            .collect();
        format!("{}: {}, {}", of.title, labels.join(", "), self.name)
    }
}

const PRODUCT: usize = 0;
const PLAIN: usize = 1;
const LIMIT: usize = 2;

struct Table {
    title: &'static str,
    labels: Vec<&'static str>,
    rows: Vec<Row>,
}

#[derive(Default)]
struct Bench {
    cases: Vec<Case>,
    tables: Vec<Table>,
}

impl Bench {
    fn table(&mut self, title: &'static str, labels: &[&'static str]) {
        self.tables.push(Table { title, labels: labels.to_vec(), rows: Vec::new() });
    }

    /// Rows of the last table on a case.
    fn rows(&mut self, case: Case, labels: &[i64], amount: usize, calls: impl IntoIterator<Item = Call>) {
        let points = case.points.len() as i64 / 2;
        let Some(table) = self.tables.last_mut() else {
            return;
        };
        for Call { name, product, plain } in calls {
            let mut sides = vec![product, plain];
            if name == "check" {
                sides.push(over(limit_check));
            }
            table.rows.push(Row {
                case: self.cases.len(),
                labels: labels.iter().map(|label| label.to_string()).collect(),
                name,
                points,
                turns: 0,
                amount: amount as f64,
                least: vec![f64::MAX; sides.len()],
                sides,
            });
        }
        self.cases.push(case);
    }

    fn measure(&mut self) {
        for _ in 0..PASSES {
            self.cases.iter_mut().for_each(Case::moved);
            for row in self.tables.iter_mut().flat_map(|table| &mut table.rows) {
                row.pass(&mut self.cases[row.case]);
            }
        }
    }
}

/// Nanoseconds a call over so many calls.
fn timed(run: &Run, case: &mut Case, turns: usize) -> f64 {
    let start = Instant::now();
    run(case, turns);
    start.elapsed().as_nanos() as f64 / turns as f64
}

impl Row {
    /// All sides by turns, in many short rounds; the least of each.
    fn pass(&mut self, case: &mut Case) {
        if self.turns == 0 {
            let once = (0..10).map(|_| timed(&self.sides[PRODUCT], case, 2)).fold(f64::MAX, f64::min);
            self.turns = (ROUND_NANOSECONDS / once).max(1.0) as usize;
        }
        // One comparison can be longer than many rounds.
        let rounds = if self.turns > 1 { ROUNDS } else { ROUNDS / 80 * if self.amount < RUN as f64 { 20 } else { 1 } };
        for _ in 0..rounds {
            for (side, least) in self.sides.iter().zip(&mut self.least) {
                *least = least.min(timed(side, case, self.turns));
            }
        }
    }
}

// ---- the tables ----

fn sheets(bench: &mut Bench) {
    bench.table("Template 33", &["Kind", "Points"]);
    for chip in CHIPS {
        let calls = [
            call!("check", check),
            call!("field 1", first_field),
            call!("field 21", last_field),
            call!("reading", reading),
            call!("change field 18", change),
            call!("build", build),
        ];
        bench.rows(Case::new(Template::Bridge, values(), chip), &[chip.0.into(), chip.1], 1, calls);
    }
    for chip in [CHIPS[1], CHIPS[4]] {
        let case = Case::new(Template::Bridge, full_precision(), chip);
        bench.rows(case, &[chip.0.into(), chip.1], 1, [call!("reading, precision 2", reading)]);
    }
    bench.table("Template 32", &["Kind", "Points"]);
    for chip in CHIPS {
        let calls = [
            call!("check", check),
            call!("field 1", first_field),
            call!("field 19", last_field),
            call!("change field 16", change),
            call!("build", build),
        ];
        bench.rows(Case::new(Template::Resistance, resistance(), chip), &[chip.0.into(), chip.1], 1, calls);
    }
}

fn others(bench: &mut Bench) {
    bench.table("Curves", &["Kind", "Segments"]);
    for (kind, segments) in [(1, 2), (2, 2), (2, 15)] {
        let calls = [call!("check", check), call!("reading", reading), call!("build", build_curve)];
        bench.rows(Case::drawn(kind, segments), &[kind.into(), segments as i64], 1, calls);
    }
    let bridges = CHIPS.map(|chip| (Template::Bridge, values(), chip));
    let resistances = [CHIPS[0], CHIPS[5]].map(|chip| (Template::Resistance, resistance(), chip));
    let both: Vec<_> = bridges.into_iter().chain(resistances).collect();
    bench.table("Through an index", &["Template", "Kind", "Points"]);
    for (template, values, chip) in &both {
        let labels = [template.number().into(), chip.0.into(), chip.1];
        let last = if *template == Template::Bridge { FETCH_LAST } else { "fetch 19" };
        let calls = [call!("index made", index), call!("fetch 1", first_fetched), call!(last, last_fetched)];
        bench.rows(Case::new(*template, *values, *chip), &labels, 1, calls);
    }
    bench.table("Proposal and commit of the date", &["Template", "Kind", "Points"]);
    for (template, values, chip) in &both {
        let labels = [template.number().into(), chip.0.into(), chip.1];
        let calls = [call!("propose", propose), call!("commit", commit)];
        bench.rows(Case::new(*template, *values, *chip), &labels, 1, calls);
    }
    bench.table("All fields in one call", &["Template", "Kind", "Points"]);
    for (template, values, chip) in &both {
        let labels = [template.number().into(), chip.0.into(), chip.1];
        bench.rows(Case::new(*template, *values, *chip), &labels, 1, [call!("sheet", sheet)]);
    }
    // A run of 60,000 fast ticks: in one call, which another program on the machine will hardly leave alone, and by parts.
    bench.table("Recordings compared, nanoseconds a fast tick", &["Kind", "Points", "Fast ticks a call"]);
    for (chip, ticks) in [(0, 2_400), (2, 2_400), (4, 6), (4, 2_400), (4, RUN), (5, 2_400)] {
        let chip = CHIPS[chip];
        let case = Case::new(Template::Bridge, values(), chip).recorded(ticks);
        bench.rows(case, &[chip.0.into(), chip.1, ticks as i64], ticks, [call!("compare", compare)]);
    }
    bench.table("Distance", &["Points"]);
    for chip in [CHIPS[4], CHIPS[5]] {
        let case = Case::new(Template::Bridge, values(), chip);
        bench.rows(case, &[chip.1], 1, [call!("distance", distance)]);
    }
    bench.table("Conformity", &["Kind", "Points"]);
    for chip in CHIPS {
        let case = Case::new(Template::Bridge, values(), chip);
        bench.rows(case, &[chip.0.into(), chip.1], 1, [call!("conform", conformity)]);
    }
}

/// The next row for a chip that holds the image, is blank, holds the image with another date, and lacks its last write.
fn written(bench: &mut Bench) {
    bench.table("The next row of an image", &["Kind", "Points"]);
    for chip in CHIPS {
        let case = || Case::new(Template::Bridge, values(), chip);
        let labels = [chip.0.into(), chip.1];
        let whole = case().image.to_vec();
        bench.rows(case().on(whole.clone()), &labels, 1, [call!("done", next_row)]);
        bench.rows(case().on(vec![0xff; whole.len()]), &labels, 1, [call!("onto a blank chip", next_row)]);
        let mut dated = case();
        change(&Plain, &mut dated, 1);
        let present = dated.image.to_vec();
        bench.rows(case().on(present), &labels, 1, [call!("onto another date", next_row)]);
        if chip.0 != 0 {
            let mut unsealed = whole;
            unsealed[32] = unsealed[32].wrapping_add(1);
            bench.rows(case().on(unsealed), &labels, 1, [call!("the last write", next_row)]);
        }
    }
}

const FETCH_LAST: &str = "fetch 21";

fn nanoseconds(figure: f64) -> String {
    if figure < 100.0 { format!("{figure:.1}") } else { format!("{figure:.0}") }
}

fn print(table: &Table) {
    let limited = table.rows.iter().any(|row| row.to_limit().is_some());
    println!("{}:\n", table.title);
    print!("| {} | Call | Product, ns | Plain, ns | Product / plain |", table.labels.join(" | "));
    println!("{}", if limited { " Limit, ns | Product / limit |" } else { "" });
    println!("{}", "|---".repeat(table.labels.len() + if limited { 6 } else { 4 }) + "|");
    for row in &table.rows {
        let (product, plain) = (nanoseconds(row.figure(PRODUCT)), nanoseconds(row.figure(PLAIN)));
        print!("| {} | {} | {product} | {plain} | {:.2} |", row.labels.join(" | "), row.name, row.ratio());
        match row.to_limit() {
            Some(ratio) => println!(" {} | {ratio:.2} |", nanoseconds(row.figure(LIMIT))),
            None => println!("{}", if limited { " | |" } else { "" }),
        }
    }
    println!();
}

/// Whether rows stay at or below a ratio, and the worst of them.
fn target(name: &str, most: f64, ratios: impl Iterator<Item = (f64, String)>) {
    let ratios: Vec<(f64, String)> = ratios.collect();
    let held = ratios.iter().filter(|(ratio, _)| *ratio <= most).count();
    let holds = if held == ratios.len() { "yes" } else { "**no**" };
    if let Some((worst, row)) = ratios.iter().max_by(|a, b| a.0.total_cmp(&b.0)) {
        println!("| {name} | {most} | {holds} | {held} of {} | {worst:.2} | {row} |", ratios.len());
    }
}

fn targets(tables: &[Table]) {
    let named = |table: &Table, row: &Row| row.named(table);
    let all = || tables.iter().flat_map(|table| table.rows.iter().map(move |row| (table, row)));
    let sheets = || all().filter(|(table, _)| table.title.starts_with("Template"));
    let bare = || sheets().filter(|(_, row)| row.points == 0 && row.name != "build");
    println!("| Target | At most | Holds | Rows | Worst | There |");
    println!("|---|---|---|---|---|---|");
    let plain = |(table, row): (&Table, &Row)| (row.ratio(), named(table, row));
    target("templates 33 and 32: product / plain", 0.9, sheets().map(plain));
    target("check, field, reading, change without points: product / plain", 0.5, bare().map(plain));
    let limited = bare().filter_map(|(table, row)| Some((row.to_limit()?, named(table, row))));
    target("check without points: product / limit", 3.0, limited);
    let at_99 = |name: &'static str| all().find(|(_, row)| row.name == name && row.points == 99);
    let fetched = at_99(FETCH_LAST).zip(at_99("field 21"));
    let fetched = fetched
        .map(|((table, fetched), (_, read))| (fetched.figure(PRODUCT) / read.figure(PRODUCT), named(table, fetched)));
    target("fetch of field 21 at 99 points: fetch / field read", 0.2, fetched.into_iter());
    let rows = all().filter(|(table, _)| table.title.starts_with("The next row"));
    target("the next row: product / plain", 0.9, rows.map(plain));
    let others =
        all().filter(|(table, _)| !table.title.starts_with("Template") && !table.title.starts_with("The next row"));
    target("the other tables (no target): product / plain", 0.9, others.map(plain));
}

/// A row's calls for a counter of instructions, which finds them by this function's name.
#[inline(never)]
fn counted_row(row: &Row, case: &mut Case) {
    (row.sides[PRODUCT])(case, row.counted());
}

fn main() {
    let mode = env::args().nth(1);
    let mut bench = Bench::default();
    sheets(&mut bench);
    others(&mut bench);
    written(&mut bench);
    let Bench { cases, tables } = &mut bench;
    match mode.as_deref() {
        Some("--rows") => {
            for table in tables {
                table.rows.iter().for_each(|row| println!("{}\t{}", row.counted(), row.named(table)));
            }
        }
        Some("--counted") => {
            for row in tables.iter().flat_map(|table| &table.rows) {
                counted_row(row, &mut cases[row.case]);
            }
        }
        Some("--product") => {
            for row in tables.iter_mut().flat_map(|table| &mut table.rows) {
                row.sides.truncate(PLAIN);
                row.pass(&mut cases[row.case]);
                println!("{}", row.figure(PRODUCT));
            }
        }
        _ => {
            bench.measure();
            bench.tables.iter().for_each(print);
            targets(&bench.tables);
        }
    }
}
