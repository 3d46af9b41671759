//! vectors IN OUT: answers the console lines of a file with the product and with the plain implementation, and compares.

#![forbid(unsafe_code)]

use std::process::ExitCode;

use compare::calls::{Calls, Plain};
use compare::console::answer;
use compare::ffi::Product;

fn agreeing(name: &str, calls: &dyn Calls, lines: &[&str], answers: &[&str]) -> usize {
    let mut agree = 0;
    for (number, (line, expected)) in lines.iter().zip(answers).enumerate() {
        let given = answer(line, calls);
        if given == *expected {
            agree += 1;
        } else {
            println!("{name}, line {}: {line}", number + 1);
            println!("  answers  {given}");
            println!("  expected {expected}");
        }
    }
    println!("{name}: {agree} of {} agree", lines.len());
    agree
}

fn main() -> ExitCode {
    let words: Vec<String> = std::env::args().skip(1).collect();
    let [lines, answers] = &words[..] else {
        eprintln!("vectors IN OUT");
        return ExitCode::from(2);
    };
    let read = |path: &String| std::fs::read_to_string(path).map_err(|error| eprintln!("vectors: {path}: {error}"));
    let (Ok(lines), Ok(answers)) = (read(lines), read(answers)) else {
        return ExitCode::from(2);
    };
    let lines: Vec<&str> = lines.lines().collect();
    let answers: Vec<&str> = answers.lines().collect();
    if lines.len() != answers.len() {
        eprintln!("vectors: {} lines, {} answers", lines.len(), answers.len());
        return ExitCode::from(2);
    }
    let plain = agreeing("plain", &Plain, &lines, &answers);
    let product = agreeing("product", &Product, &lines, &answers);
    if plain == lines.len() && product == lines.len() { ExitCode::SUCCESS } else { ExitCode::FAILURE }
}
