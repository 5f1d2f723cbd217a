//! Runs the listing program on a table of inputs, and compares what it prints with what stands
//! beside them: `listings PATH-TO-LISTING TABLE`. The table's form is said at its head.

use std::process::ExitCode;

use reference::other::{self, shown};

/// An input, and what is to be printed for it.
struct Case {
    what: String,
    input: Vec<u8>,
    printed: String,
}

/// The bytes of a word or a byte in hexadecimal digits.
fn digits(token: &str) -> Option<Vec<u8>> {
    match token.len() {
        2 => Some(vec![u8::from_str_radix(token, 16).ok()?]),
        4 => Some(u16::from_str_radix(token, 16).ok()?.to_be_bytes().to_vec()),
        _ => None,
    }
}

/// The bytes of an input as the table has it.
fn input(text: &str) -> Option<Vec<u8>> {
    let mut bytes = Vec::new();
    let mut tokens = text.split_whitespace();
    while let Some(token) = tokens.next() {
        if token != "[" {
            bytes.extend(digits(token)?);
            continue;
        }
        let mut group = Vec::new();
        loop {
            match tokens.next()? {
                "]" => break,
                token => group.extend(digits(token)?),
            }
        }
        let (how, number) = (tokens.next()?, tokens.next()?.parse::<usize>().ok()?);
        let length = match how {
            "x" => number * group.len(),
            "to" => number,
            _ => return None,
        };
        bytes.extend(group.into_iter().cycle().take(length));
    }
    Some(bytes)
}

/// The lines that the table says are printed.
fn printed(text: &str) -> Option<String> {
    let mut lines = String::new();
    for part in text.split(',').filter(|part| !part.trim().is_empty()) {
        let tokens: Vec<&str> = part.split_whitespace().collect();
        let (first, last, answer) = match tokens[..] {
            [first, answer] => (first, first, answer),
            [first, "..", last, answer] => (first, last, answer),
            _ => return None,
        };
        for ordinal in first.parse::<usize>().ok()?..=last.parse().ok()? {
            lines += &format!("{ordinal} {answer}\n");
        }
    }
    Some(lines)
}

/// A row of the table.
fn case(row: &str) -> Option<Case> {
    let columns: Vec<&str> = row.split('|').collect();
    let [what, bytes, lines] = columns[..] else {
        return None;
    };
    Some(Case { what: what.trim().to_string(), input: input(bytes)?, printed: printed(lines)? })
}

/// Where the program prints something else.
fn difference(program: &str, case: &Case) -> Result<(), String> {
    let (printed, status) = other::run(program, &case.input).map_err(|e| e.to_string())?;
    if !status.success() {
        return Err(format!("{program} ended with {status}"));
    }
    if printed == case.printed.as_bytes() {
        return Ok(());
    }
    let (printed, expected) = (other::lines(&printed), other::lines(case.printed.as_bytes()));
    let differs = |&i: &usize| printed.get(i) != expected.get(i);
    let Some(i) = (0..printed.len().max(expected.len())).find(differs) else {
        return Err("the last line has no line feed".to_string());
    };
    let [printed, expected] = [printed, expected].map(|lines| shown(lines.get(i).copied()));
    Err(format!("line {}: {printed} printed and {expected} expected", i + 1))
}

fn main() -> ExitCode {
    let arguments: Vec<String> = std::env::args().skip(1).collect();
    let [program, table] = &arguments[..] else {
        eprintln!("usage: listings PATH-TO-LISTING TABLE");
        return ExitCode::from(2);
    };
    let Ok(text) = std::fs::read_to_string(table) else {
        eprintln!("{table} does not read");
        return ExitCode::from(2);
    };
    let (mut cases, mut differ) = (0, 0);
    for row in text.lines().filter(|row| !row.starts_with('#')) {
        cases += 1;
        let outcome = match case(row) {
            Some(case) => difference(program, &case).map_err(|e| format!("{}: {e}", case.what)),
            None => Err(format!("a row of another form: {row}")),
        };
        if let Err(difference) = outcome {
            println!("listing of {difference}");
            differ += 1;
        }
    }
    if cases == 0 || differ > 0 {
        println!(
            "{cases} inputs of the listing: {differ} are listed otherwise than the table says"
        );
        return ExitCode::FAILURE;
    }
    println!("{cases} inputs of the listing: all are listed as the table says");
    ExitCode::SUCCESS
}
