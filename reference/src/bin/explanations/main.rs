//! Checks the explanations of another replay program by its own answers (02, c),
//! and compares them with the model's. In random sessions: the command itself gets
//! the number explained; with the fault that is named removed, that refusal is no
//! longer given there, and with another fault in its place it is; explanations
//! change nothing: `explanations PATH-TO-OTHER-REPLAY [SESSIONS [SEED]]`.

use std::process::ExitCode;
use std::sync::Mutex;

use reference::generate::{self, Random};
use reference::other::{self, difference, run_other, shown, Seen};

use probes::{Past, Probe};
use said::Said;

mod probes;
mod said;

const SESSIONS: usize = 500;
const SEED: u64 = 1;

/// For each refusal, what must be explained once the fault that is named is removed,
/// 0 for accepted.
const REMOVED: &[(u8, &[u8])] = &[
    (1, &[0, 2, 3, 4, 5, 6, 9, 10]),
    (2, &[0, 3, 4, 5, 6, 7, 8, 9, 10]),
    (3, &[0, 4, 5, 6, 7, 8, 9, 10]),
    (4, &[0, 5, 6, 7, 8, 9, 10]),
    (5, &[0, 5, 6, 7, 8, 9, 10]),
    (6, &[0, 7, 8, 9, 10]),
    (7, &[0, 9, 10]),
    (8, &[0, 8, 9]),
];

/// Every name that must be seen: of an explanation, of a command right after its
/// own, and of an explanation once the fault is removed.
fn listed() -> Vec<String> {
    let numbers = (0..=10).flat_map(|number| [format!("E {number}"), format!("C {number}")]);
    let removed = REMOVED.iter().flat_map(|&(from, all)| all.iter().map(move |&to| (from, to)));
    numbers.chain(removed.map(|(from, to)| removed_name(from, to))).collect()
}

fn removed_name(from: u8, to: u8) -> String {
    format!("E {from} then {to}")
}

/// A line of a session that explains a command.
fn explains(line: &[u8]) -> bool {
    line[0] == b'E'
}

fn text<'a>(lines: impl Iterator<Item = &'a Vec<u8>>) -> Vec<u8> {
    lines.flat_map(|line| line.iter().copied().chain([b'\n'])).collect()
}

/// The answers to a script of so many lines.
fn answers(printed: &[u8], lines: usize) -> Result<Vec<&[u8]>, String> {
    let answers = other::lines(printed);
    if answers.len() != lines {
        return Err(format!("{} lines printed and {lines} expected", answers.len()));
    }
    Ok(answers)
}

/// With the place in the report of an error.
fn at<T>(line: &[u8], result: Result<T, String>) -> Result<T, String> {
    result.map_err(|error| format!("{}: {error}", shown(Some(line))))
}

/// A command that comes right after its explanation gets the number explained, and
/// for 8 the place.
fn check_commands(session: &[Vec<u8>], answers: &[&[u8]], seen: &mut Seen) -> Result<(), String> {
    for (lines, answers) in session.windows(2).zip(answers.windows(2)) {
        let digits = |line: &[u8]| -> Vec<u8> {
            line[1..].iter().filter(|&&byte| byte != b' ').map(u8::to_ascii_uppercase).collect()
        };
        let same = digits(&lines[0]) == digits(&lines[1]);
        if !(explains(&lines[0]) && lines[1][0] == b'C' && same) {
            continue;
        }
        let said = at(&lines[0], Said::read(answers[0]))?;
        let given = String::from_utf8_lossy(answers[1]);
        let mut fields = given.split(' ');
        let number = fields.next() == Some(&said.number().to_string());
        let place = match &said {
            Said::Fault(fault) if fault.number == 8 => {
                fields.nth(1) == Some(&fault.place.to_string())
            }
            _ => true,
        };
        if !(number && place) {
            return at(&lines[1], Err(format!("{given} where {said} was explained")));
        }
        *seen.entry(format!("C {}", said.number())).or_default() += 1;
    }
    Ok(())
}

/// What is to be asked after each line of the session, by the answers to it.
fn probes_for(
    session: &[Vec<u8>],
    answers: &[&[u8]],
    random: &mut Random,
    seen: &mut Seen,
) -> Result<Vec<Vec<Probe>>, String> {
    let mut past = Past::default();
    let mut all = Vec::new();
    for (line, answer) in session.iter().zip(answers) {
        past.add(line, answer);
        if !explains(line) {
            all.push(vec![]);
            continue;
        }
        let said = at(line, Said::read(answer))?;
        *seen.entry(format!("E {}", said.number())).or_default() += 1;
        all.push(at(line, probes::probes(random, line, &said, &past))?);
    }
    Ok(all)
}

/// A script, and what the program printed on it.
struct Printed {
    script: Vec<u8>,
    printed: Vec<u8>,
}

/// Checks a program on one session; gives what it printed on the session, and on the
/// session with what was asked beside.
fn check(
    session: &[Vec<u8>],
    random: &mut Random,
    seen: &mut Seen,
    run: impl Fn(&[u8]) -> Result<Vec<u8>, String>,
) -> Result<[Printed; 2], String> {
    let run_lines = |script: Vec<u8>| run(&script).map(|printed| Printed { script, printed });
    let whole = run_lines(text(session.iter()))?;
    let whole_answers = answers(&whole.printed, session.len())?;
    check_commands(session, &whole_answers, seen)?;
    check_nothing_changes(session, &whole_answers, &run)?;
    let probes = probes_for(session, &whole_answers, random, seen)?;
    let asked = run_lines(text(session.iter().zip(&probes).flat_map(with_probes)))?;
    check_probes(session, &whole_answers, &probes, &asked.printed, seen)?;
    Ok([whole, asked])
}

/// A line of the session and those that are asked after it.
fn with_probes<'a>(
    (line, probes): (&'a Vec<u8>, &'a Vec<Probe>),
) -> impl Iterator<Item = &'a Vec<u8>> {
    std::iter::once(line).chain(probes.iter().map(|probe| &probe.line))
}

/// With others asked beside, the session has the same answers, and those have the
/// ones expected.
fn check_probes(
    session: &[Vec<u8>],
    whole: &[&[u8]],
    probes: &[Vec<Probe>],
    printed: &[u8],
    seen: &mut Seen,
) -> Result<(), String> {
    let lines = session.len() + probes.iter().map(Vec::len).sum::<usize>();
    let mut answers = &answers(printed, lines)?[..];
    let mut with = Vec::new();
    for probes in probes {
        let (own, rest) = answers.split_at(1);
        let (asked, rest) = rest.split_at(probes.len());
        answers = rest;
        with.extend(own);
        for (probe, answer) in probes.iter().zip(asked) {
            if let Some((from, to)) = at(&probe.line, probe.check(answer))? {
                *seen.entry(removed_name(from, to)).or_default() += 1;
            }
        }
    }
    difference("without and with others asked", whole, &with)
}

/// Without the explanations, all other lines have the same answers.
fn check_nothing_changes(
    session: &[Vec<u8>],
    whole: &[&[u8]],
    run: impl Fn(&[u8]) -> Result<Vec<u8>, String>,
) -> Result<(), String> {
    let others = session.iter().zip(whole).filter(|(line, _)| !explains(line));
    let (lines, with): (Vec<&Vec<u8>>, Vec<&[u8]>) = others.unzip();
    let printed = run(&text(lines.iter().copied()))?;
    let without = answers(&printed, lines.len())?;
    difference("with and without explanations", &with, &without)
}

/// Compares what was printed with the model; gives the number of lines.
fn compare(other: &Printed) -> Result<usize, String> {
    let ours = other::model(&other.script).0;
    let ours = other::lines(&ours);
    difference("model and other", &ours, &other::lines(&other.printed))?;
    Ok(ours.len())
}

/// Checks the other program on one session, and compares it with the model; gives
/// the number of lines compared.
fn serve(program: &str, seed: u64, number: usize, seen: &Mutex<Seen>) -> Result<usize, String> {
    let session = generate::explained(seed, number);
    let mut random = Random::new(seed ^ number as u64);
    let mut more = Seen::new();
    let result = check(&session, &mut random, &mut more, |script| run_other(program, script))
        .and_then(|printed| printed.iter().map(compare).sum());
    other::add_seen(seen, more);
    result.map_err(|difference| {
        let saved = other::save(&format!("explained-{seed}-{number}.txt"), &text(session.iter()));
        format!("session {number}, seed {seed}: {difference}\n  {saved}")
    })
}

fn main() -> ExitCode {
    let Some((program, sessions, seed)) = other::arguments(SESSIONS, SEED) else {
        eprintln!("usage: explanations PATH-TO-OTHER-REPLAY [SESSIONS [SEED]]");
        return ExitCode::from(2);
    };
    let seen = Mutex::new(Seen::new());
    let compared = other::compare_all(sessions, |number| serve(&program, seed, number, &seen));
    let seen = seen.into_inner().expect("no thread panicked");
    let counts: Vec<String> = seen.iter().map(|(name, count)| format!("{name}: {count}")).collect();
    println!("seen: {}", counts.join(", "));
    let right = other::check_seen(&seen, listed());
    let verdict = match (compared.differing, right) {
        (0, true) => "all explanations are right".to_string(),
        (0, false) => "right, but with others than those listed".to_string(),
        (differing, _) => format!("{differing} sessions have wrong explanations"),
    };
    println!("{} sessions, {} lines: {verdict}", compared.served, compared.lines);
    if compared.differing == 0 && right {
        ExitCode::SUCCESS
    } else {
        ExitCode::FAILURE
    }
}

#[cfg(test)]
mod tests {
    use super::*;

    /// Checks sessions of a program; gives the first thing found to be wrong.
    fn check_all(run: impl Fn(&[u8]) -> Vec<u8>) -> Result<Seen, String> {
        let mut seen = Seen::new();
        for number in 0..150 {
            let session = generate::explained(3, number);
            check(&session, &mut Random::new(number as u64), &mut seen, |text| Ok(run(text)))?;
        }
        Ok(seen)
    }

    fn model(script: &[u8]) -> Vec<u8> {
        other::model(script).0
    }

    #[test]
    fn model_is_right() {
        let seen = check_all(model).expect("the model's explanations are right");
        assert!((0..=10).all(|number| seen.contains_key(&format!("E {number}"))));
    }

    /// The model with every explanation changed.
    fn check_changed(change: impl Fn(&str) -> String) -> Result<Seen, String> {
        check_all(|script| {
            let printed = model(script);
            let mut changed = Vec::new();
            for (line, answer) in other::lines(script).into_iter().zip(other::lines(&printed)) {
                match std::str::from_utf8(answer) {
                    Ok(answer) if explains(line) => changed.extend(change(answer).bytes()),
                    _ => changed.extend(answer),
                }
                changed.push(b'\n');
            }
            changed
        })
    }

    #[test]
    fn wrong_explanations_are_found() {
        assert!(check_changed(str::to_string).is_ok());
        for (from, to) in [
            // Another number.
            ("0 accepted", "9 idle"),
            ("2 word 0", "3 word 0"),
            ("6 missing", "1 missing"),
            ("9 idle", "10 nothing written"),
            // Another count.
            ("1 missing 2", "1 missing 3"),
            ("6 missing 1", "6 missing 2"),
            // Another place, or what stands there.
            ("word 3 is", "word 4 is"),
            ("5 word 4 is", "5 word 3 is"),
            ("block word 2 is", "block word 3 is"),
            ("block word 432 is", "block word 435 is"),
            (" is 0041", " is 0040"),
            // More or less than is allowed.
            ("allowed 0040", "allowed 0040 0041"),
            ("0001 0002 0004 0008 0010 0020", "0001 0002 0004 0008 0010"),
            ("0001 0002 0004 0008 0010 0020", "0001 0002 0004 0008 0010 0020 0040"),
            ("allowed 0001 0002", "allowed 0001"),
            ("allowed 0000", "allowed 0001"),
            ("0000 to 03FF", "0000 to 0400"),
            ("0000 to 0FFF", "0001 to 0FFF"),
            ("0000 to 00FF", "0000 to 00FE"),
            ("0001 to FFFF", "0000 to FFFF"),
            ("0001 to FFFF", "0001 to 7FFF"),
            // Another state, or history.
            ("9 running", "9 idle"),
            ("running and rates", "running"),
            ("9 ping", "9 reprogramming"),
            ("9 rates", "9 ping"),
            ("used by a run", "used by a reset"),
            ("used by a reset", "used by a run"),
            ("used by a reset", "nothing written"),
            // Another form.
            (", allowed", " allowed"),
            ("0 accepted", "0"),
        ] {
            let found = check_changed(|line| line.replacen(from, to, 1));
            assert!(found.is_err(), "{to} instead of {from}");
        }
    }

    /// A program whose explanations count as clock steps.
    #[test]
    fn changes_are_found() {
        let found = check_all(|script| {
            let (mut changed, mut kept) = (Vec::new(), Vec::new());
            for line in other::lines(script) {
                changed.extend([line, b"\n"].concat());
                kept.push(true);
                if explains(line) {
                    changed.extend(b"K00000001\n");
                    kept.push(false);
                }
            }
            let printed = model(&changed);
            let answers = other::lines(&printed).into_iter().zip(kept);
            let answers = answers.filter(|(_, kept)| *kept);
            answers.flat_map(|(answer, _)| [answer, b"\n"].concat()).collect()
        });
        assert!(found.is_err_and(|report| report.contains("with and without explanations")));
    }
}
