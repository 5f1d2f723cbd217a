//! Runs the other replay program, and the model, on whole scripts.

use std::collections::{BTreeMap, BTreeSet};
use std::io::{self, Read, Write};
use std::path::Path;
use std::process::{Command, ExitStatus, Stdio};
use std::sync::atomic::{AtomicUsize, Ordering};
use std::sync::Mutex;

use crate::board::Mode;
use crate::replay::Replay;

/// Processes of the other program at once.
const AT_ONCE: usize = 2;
/// Differences reported before giving up.
const REPORTED: usize = 10;

/// The arguments of a comparison: the other program's path, and then how many
/// to compare and the seed, where they are given.
pub fn arguments(many: usize, seed: u64) -> Option<(String, usize, u64)> {
    let mut arguments = std::env::args().skip(1);
    let program = arguments.next()?;
    let many = arguments.next().map_or(Some(many), |number| number.parse().ok())?;
    let seed = arguments.next().map_or(Some(seed), |number| number.parse().ok())?;
    arguments.next().is_none().then_some((program, many, seed))
}

/// How far a comparison came.
#[derive(Default)]
pub struct Compared {
    pub served: usize,
    /// The lines of those that agree.
    pub lines: usize,
    pub differing: usize,
}

impl Compared {
    /// Counts one more, by its lines or by its difference, which is reported.
    fn count(&mut self, result: Result<usize, String>) {
        self.served += 1;
        match result {
            Ok(lines) => self.lines += lines,
            Err(difference) => {
                self.differing += 1;
                if self.differing <= REPORTED {
                    println!("{difference}");
                }
            }
        }
    }
}

/// Compares number 0 and on, below `many`, until enough of them differ.
/// `compare` gives how many lines agree, or the report of a difference.
pub fn compare_all(
    many: usize,
    compare: impl Fn(usize) -> Result<usize, String> + Sync,
) -> Compared {
    let next = AtomicUsize::new(0);
    let compared = Mutex::new(Compared::default());
    let serve = || loop {
        let number = next.fetch_add(1, Ordering::Relaxed);
        if number >= many || compared.lock().expect("no thread panicked").differing >= REPORTED {
            break;
        }
        let result = compare(number);
        compared.lock().expect("no thread panicked").count(result);
    };
    std::thread::scope(|scope| {
        for _ in 0..AT_ONCE {
            scope.spawn(serve);
        }
    });
    compared.into_inner().expect("no thread panicked")
}

/// How often each answer was seen, by its name.
pub type Seen = BTreeMap<String, usize>;

/// Adds what was seen in one script.
pub fn add_seen(seen: &Mutex<Seen>, more: Seen) {
    let mut seen = seen.lock().expect("no thread panicked");
    for (name, count) in more {
        *seen.entry(name).or_default() += count;
    }
}

/// False, with a line that says which, if a listed name was never seen or one was
/// seen that is not listed.
pub fn check_seen(seen: &Seen, listed: Vec<String>) -> bool {
    let listed: BTreeSet<String> = listed.into_iter().collect();
    let missing: Vec<&str> =
        listed.iter().filter(|&name| !seen.contains_key(name)).map(String::as_str).collect();
    let unlisted: Vec<&str> =
        seen.keys().filter(|&name| !listed.contains(name)).map(String::as_str).collect();
    let mut right = true;
    for (what, names) in [("never seen", missing), ("seen and not listed", unlisted)] {
        if !names.is_empty() {
            println!("{what}: {}", names.join(", "));
            right = false;
        }
    }
    right
}

/// Saves a script that differs in the folder `differing` beside this program,
/// which is under target/reference, and says where.
pub fn save(name: &str, script: &[u8]) -> String {
    let program = match std::env::current_exe() {
        Ok(program) => program,
        Err(error) => return format!("not saved, this program is not found: {error}"),
    };
    let folder = program.with_file_name("differing");
    let file = folder.join(name);
    match write_in(&folder, &file, script) {
        Ok(()) => format!("saved as {}", file.display()),
        Err(error) => format!("not saved as {}: {error}", file.display()),
    }
}

fn write_in(folder: &Path, file: &Path, script: &[u8]) -> io::Result<()> {
    std::fs::create_dir_all(folder)?;
    std::fs::write(file, script)
}

/// What the other program prints on this script, and its exit status.
pub fn run(program: &str, script: &[u8]) -> io::Result<(Vec<u8>, ExitStatus)> {
    let mut child = Command::new(program).stdin(Stdio::piped()).stdout(Stdio::piped()).spawn()?;
    let mut input = child.stdin.take().expect("standard input is a pipe");
    let mut output = child.stdout.take().expect("standard output is a pipe");
    let mut printed = Vec::new();
    std::thread::scope(|scope| {
        scope.spawn(move || {
            // A program that ends early shows in its output and exit status.
            let _ = input.write_all(script);
        });
        output.read_to_end(&mut printed)
    })?;
    Ok((printed, child.wait()?))
}

/// What the other program prints on this script, if it ends well.
pub fn run_other(program: &str, script: &[u8]) -> Result<Vec<u8>, String> {
    let (printed, status) =
        run(program, script).map_err(|error| format!("cannot run {program}: {error}"))?;
    if !status.success() {
        return Err(format!("the other program ended with {status}"));
    }
    Ok(printed)
}

/// The first place where two lists of lines differ.
pub fn difference(what: &str, first: &[&[u8]], second: &[&[u8]]) -> Result<(), String> {
    for place in 0..first.len().max(second.len()) {
        if first.get(place) != second.get(place) {
            return Err(format!(
                "{what}, line {}: {} and {}",
                place + 1,
                shown(first.get(place).copied()),
                shown(second.get(place).copied())
            ));
        }
    }
    Ok(())
}

/// The lines of a text; a last one without a line feed counts.
pub fn lines(text: &[u8]) -> Vec<&[u8]> {
    let mut lines: Vec<&[u8]> = text.split(|&byte| byte == b'\n').collect();
    if lines.last().is_some_and(|line| line.is_empty()) {
        lines.pop();
    }
    lines
}

/// A line of the script that printed something: its number, from 0, the state of
/// the model's board before it, and what the board was doing after it.
pub struct Served {
    pub number: usize,
    pub mode: Mode,
    pub fresh: bool,
    pub mode_after: Mode,
}

/// What the model prints on this script, and for each printed line the script's
/// line.
pub fn model(script: &[u8]) -> (Vec<u8>, Vec<Served>) {
    let mut replay = Replay::new();
    let mut printed = Vec::new();
    let mut served = Vec::new();
    for (number, line) in lines(script).into_iter().enumerate() {
        let (mode, fresh) = (replay.board().mode(), replay.board().fresh());
        if replay.line(line, &mut printed) {
            let mode_after = replay.board().mode();
            served.push(Served { number, mode, fresh, mode_after });
        }
    }
    (printed, served)
}

/// A line for a report: readable characters, and not too many.
pub fn shown(line: Option<&[u8]>) -> String {
    let Some(line) = line else {
        return "no line".to_string();
    };
    let mut text = String::from("`");
    for &byte in line.iter().take(300) {
        text.extend(std::ascii::escape_default(byte).map(char::from));
    }
    text.push('`');
    if line.len() > 300 {
        text.push_str(&format!(" and {} characters more", line.len() - 300));
    }
    text
}
