//! pulled CONSOLE [PAIRS] [SEED]: images written to a chip that is pulled, through the program CONSOLE. Each pair is what a chip
//! holds and an image to be written to it; `next` says each row, and every state on the way, whole rows and on two pages or more
//! torn ones, is judged by `check`. Ends with status 1 if a state is accepted that is neither, if a row is written that is there
//! already, or if the image is not there after as many writes as are enough.

#![forbid(unsafe_code)]

use std::io::{BufRead, BufReader, Write};
use std::process::{Child, ChildStdin, ChildStdout, Command, ExitCode, Stdio};

use compare::laid::Laid;
use compare::layout::image_length;
use compare::random::Random;
use compare::rows::ROW;

fn hex(bytes: &[u8]) -> String {
    let digit = |half: u8| char::from(b"0123456789abcdef"[usize::from(half)]);
    bytes.iter().flat_map(|byte| [digit(byte >> 4), digit(byte & 15)]).collect()
}

fn bytes(word: &str) -> Option<[u8; ROW]> {
    let mut bytes = [0; ROW];
    for (at, byte) in bytes.iter_mut().enumerate() {
        *byte = u8::from_str_radix(word.get(2 * at..2 * at + 2)?, 16).ok()?;
    }
    (word.len() == 2 * ROW).then_some(bytes)
}

/// The console's program.
struct Console {
    child: Child,
    lines: ChildStdin,
    answers: BufReader<ChildStdout>,
}

impl Console {
    fn new(program: &str) -> std::io::Result<Console> {
        let mut child = Command::new(program).stdin(Stdio::piped()).stdout(Stdio::piped()).spawn()?;
        let pipes = child.stdin.take().zip(child.stdout.take());
        let (lines, answers) = pipes.ok_or(std::io::ErrorKind::BrokenPipe)?;
        Ok(Console { child, lines, answers: BufReader::new(answers) })
    }

    /// An answer for each line.
    fn ask(&mut self, lines: &[String]) -> std::io::Result<Vec<String>> {
        let (to, from) = (&mut self.lines, &mut self.answers);
        std::thread::scope(|scope| {
            scope.spawn(|| lines.iter().try_for_each(|line| writeln!(to, "{line}")));
            let mut answer = String::new();
            lines
                .iter()
                .map(|_| {
                    answer.clear();
                    from.read_line(&mut answer)?;
                    Ok(answer.trim_end().to_string())
                })
                .collect()
        })
    }
}

/// A chip on its way to an image.
struct Chip {
    kind: u8,
    old: Vec<u8>,
    wanted: Vec<u8>,
    present: Vec<u8>,
    /// Writes that are enough from here on.
    left: usize,
    done: bool,
}

fn sound(random: &mut Random, kind: u8) -> Vec<u8> {
    let mut image = vec![0; image_length(kind)];
    if random.percent(30) {
        random.fill(&mut image);
    }
    Laid::sound(random, kind).lay(&mut image);
    image
}

impl Chip {
    fn new(random: &mut Random, kind: u8) -> Chip {
        let wanted = sound(random, kind);
        let mut old = sound(random, kind);
        match random.below(10) {
            0 => old.fill(0xff),
            1 => random.fill(&mut old),
            // A row or two of another sheet, which every page sum may allow.
            2 | 3 => {
                for _ in 0..random.within(1, 3) {
                    let at = ROW * random.below((wanted.len() / ROW) as u64) as usize;
                    old[at..at + ROW].copy_from_slice(&wanted[at..at + ROW]);
                }
            }
            _ => (),
        }
        let mut chip = Chip { kind, present: old.clone(), old, wanted, left: 0, done: false };
        chip.left = chip.enough();
        chip
    }

    fn enough(&self) -> usize {
        let differing = self.present.chunks(ROW).zip(self.wanted.chunks(ROW)).filter(|(a, b)| a != b).count();
        if self.kind == 0 { 2 * differing + 4 } else { differing + 4 }
    }

    fn page(&self, byte: usize) -> std::ops::Range<usize> {
        if self.kind == 0 { 0..40 } else { byte / 32 * 32..byte / 32 * 32 + 32 }
    }

    /// What a write that is cut off may leave: so many of its bytes, other bytes where it changes some, and these such that the
    /// page adds up.
    fn torn(&self, random: &mut Random, at: usize, row: [u8; ROW]) -> Vec<Vec<u8>> {
        let changed: Vec<usize> = (0..ROW).filter(|i| self.present[at + i] != row[*i]).collect();
        let mut states = Vec::new();
        for count in [1, changed.len() / 2] {
            let mut state = self.present.clone();
            changed.iter().take(count).for_each(|i| state[at + i] = row[*i]);
            states.push(state);
        }
        for _ in 0..3 {
            let mut state = self.present.clone();
            changed.iter().for_each(|i| state[at + i] = random.word() as u8);
            let page = self.page(at);
            let sum = state[page].iter().fold(0u8, |sum, byte| sum.wrapping_add(*byte));
            let last = at + random.pick(&changed);
            state[last] = state[last].wrapping_sub(sum);
            states.push(state);
        }
        states
    }
}

fn run(console: &mut Console, random: &mut Random, pairs: u64) -> std::io::Result<bool> {
    let mut chips: Vec<Chip> = (0..pairs).map(|pair| Chip::new(random, (pair % 3) as u8)).collect();
    let (mut writes, mut judged, mut faults) = (0u64, 0u64, 0u64);
    let mut fault = |what: &str, chip: &Chip| {
        faults += 1;
        println!("{what}: kind {} {} to {}", chip.kind, hex(&chip.present), hex(&chip.wanted));
    };
    while chips.iter().any(|chip| !chip.done) {
        let asked: Vec<usize> = (0..chips.len()).filter(|i| !chips[*i].done).collect();
        let line = |chip: &Chip| format!("next {} {} {}", chip.kind, hex(&chip.present), hex(&chip.wanted));
        let lines: Vec<String> = asked.iter().map(|i| line(&chips[*i])).collect();
        let answers = console.ask(&lines)?;
        let (mut checks, mut states) = (Vec::new(), Vec::new());
        for (i, answer) in asked.into_iter().zip(answers) {
            let chip = &mut chips[i];
            chip.done = answer == "done";
            if chip.done != (chip.present == chip.wanted) {
                fault(&answer, chip);
            }
            if chip.done {
                continue;
            }
            let told = answer.split_once(' ').and_then(|(at, row)| at.parse().ok().zip(bytes(row)));
            let Some((at, row)) = told.filter(|(at, _)| at + ROW <= chip.present.len() && at % ROW == 0) else {
                fault(&answer, chip);
                chip.done = true;
                continue;
            };
            if chip.left == 0 || chip.present[at..at + ROW] == row {
                fault(&answer, chip);
                chip.done = true;
                continue;
            }
            let mut next = chip.present.clone();
            next[at..at + ROW].copy_from_slice(&row);
            let mut left = vec![next];
            if chip.kind != 0 {
                left.extend(chip.torn(random, at, row));
            }
            writes += 1;
            chip.left -= 1;
            let cut = left.len() > 1 && random.percent(5);
            chip.present = left[if cut { random.within(1, left.len() as i64 - 1) as usize } else { 0 }].clone();
            if cut {
                chip.left = chip.enough();
            }
            for state in left {
                checks.push(format!("check {} {}", chip.kind, hex(&state)));
                states.push((i, state));
            }
        }
        judged += checks.len() as u64;
        for ((i, state), answer) in states.iter().zip(console.ask(&checks)?) {
            let chip = &chips[*i];
            let refused = answer.starts_with("no 2 ") || answer == "no 17 0";
            if !refused && *state != chip.old && *state != chip.wanted {
                fault(&format!("{} {answer}", hex(state)), chip);
            }
        }
    }
    println!("{pairs} pairs, {writes} writes, {judged} states judged, {faults} faults");
    Ok(faults == 0)
}

fn main() -> ExitCode {
    let words: Vec<String> = std::env::args().skip(1).collect();
    let number = |place: usize, otherwise: u64| words.get(place).map_or(Some(otherwise), |word| word.parse().ok());
    let (Some(program), Some(pairs), Some(seed)) = (words.first(), number(1, 2_000), number(2, 1)) else {
        eprintln!("pulled CONSOLE [PAIRS] [SEED]");
        return ExitCode::from(2);
    };
    let ran = Console::new(program).and_then(|mut console| {
        let ran = run(&mut console, &mut Random(seed), pairs);
        drop(console.lines);
        console.child.wait()?;
        ran
    });
    match ran {
        Ok(true) => ExitCode::SUCCESS,
        Ok(false) => ExitCode::FAILURE,
        Err(error) => {
            eprintln!("{program}: {error}");
            ExitCode::FAILURE
        }
    }
}
