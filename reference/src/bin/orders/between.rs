//! Rate passes with triggers, stops and clock steps between their items: served
//! as they are, without these, and without the pass. What is left gets the same
//! answers (02, i).

use reference::blocks::HEADER;
use reference::generate::{Interleaved, Part};
use reference::other::{self, difference, run_other};

/// Words of a dynamic block up to the temperatures: the header and the on-time.
const COUNTERS: usize = HEADER + 3;

/// A line that was served: its part, its letter and what was printed for it.
type Answered<'a> = (Part, u8, &'a [u8]);

/// The script of a pass, without the lines of one part where it is given.
fn script(pass: &Interleaved, left_out: Option<Part>) -> Vec<u8> {
    let mut text = Vec::new();
    let before = pass.before.iter();
    for line in before.chain(kept(pass, left_out).map(|(_, line)| line)) {
        text.extend_from_slice(line);
        text.push(b'\n');
    }
    text
}

/// The lines from the beginning of the pass on, without those left out.
fn kept(pass: &Interleaved, left_out: Option<Part>) -> impl Iterator<Item = &(Part, Vec<u8>)> {
    pass.lines.iter().filter(move |(part, _)| Some(*part) != left_out)
}

/// What was printed for these lines.
fn answered<'a>(
    printed: &'a [u8],
    pass: &Interleaved,
    left_out: Option<Part>,
) -> Result<Vec<Answered<'a>>, String> {
    let answers = other::lines(printed);
    let lines: Vec<_> = kept(pass, left_out).collect();
    let expected = pass.before.len() + lines.len();
    if answers.len() != expected {
        return Err(format!("{} lines printed and {expected} expected", answers.len()));
    }
    let answers = answers.into_iter().skip(pass.before.len());
    Ok(lines.into_iter().zip(answers).map(|((part, line), a)| (*part, line[0], a)).collect())
}

/// The words of an accepted block from this one on; a refusal as it is.
fn words_from(answer: &[u8], word: usize) -> &[u8] {
    answer.get(b"0 ".len() + 4 * word..).unwrap_or(answer)
}

/// What must be the same without the lines between: the answers to the lines of
/// the pass, a record without its header, and the rates.
fn of_pass<'a>(&(part, letter, answer): &Answered<'a>) -> Option<&'a [u8]> {
    match (part, letter) {
        (Part::Pass, b'M') => Some(words_from(answer, HEADER)),
        (Part::Pass, _) => Some(answer),
        (Part::Dynamic, _) => Some(words_from(answer, COUNTERS)),
        (Part::Between, _) => None,
    }
}

/// What must be the same without the pass: the answers to the lines between, and
/// the counters.
fn of_between<'a>(&(part, _, answer): &Answered<'a>) -> Option<&'a [u8]> {
    match part {
        Part::Between => Some(answer),
        Part::Dynamic => answer.get(..b"0 ".len() + 4 * COUNTERS),
        Part::Pass => None,
    }
}

/// What one program printed for the whole script, without the lines between, and
/// without the pass.
struct Printed {
    whole: Vec<u8>,
    pass: Vec<u8>,
    between: Vec<u8>,
}

/// Compares one program's answers to the three scripts.
fn compare(name: &str, pass: &Interleaved, printed: &Printed) -> Result<(), String> {
    let with_name = |text: String| format!("{name}: {text}");
    let whole = answered(&printed.whole, pass, None).map_err(with_name)?;
    let alone = answered(&printed.pass, pass, Some(Part::Between)).map_err(with_name)?;
    let others = answered(&printed.between, pass, Some(Part::Pass)).map_err(with_name)?;
    let with: Vec<&[u8]> = whole.iter().filter_map(of_pass).collect();
    let without: Vec<&[u8]> = alone.iter().filter_map(of_pass).collect();
    difference("the pass, with and without others between", &with, &without).map_err(with_name)?;
    let with: Vec<&[u8]> = whole.iter().filter_map(of_between).collect();
    let without: Vec<&[u8]> = others.iter().filter_map(of_between).collect();
    difference("triggers, stops and clock steps, with and without the pass", &with, &without)
        .map_err(with_name)
}

/// Serves one pass; gives the number of lines compared.
pub fn serve(program: &str, pass: &Interleaved) -> Result<usize, String> {
    let texts = [None, Some(Part::Between), Some(Part::Pass)].map(|part| script(pass, part));
    let [whole, alone, between] = texts.each_ref().map(|text| other::model(text).0);
    let ours = Printed { whole, pass: alone, between };
    let theirs = Printed {
        whole: run_other(program, &texts[0])?,
        pass: run_other(program, &texts[1])?,
        between: run_other(program, &texts[2])?,
    };
    compare("model", pass, &ours)?;
    compare("other", pass, &theirs)?;
    let mut lines = 0;
    for (what, ours, theirs) in [
        ("whole", &ours.whole, &theirs.whole),
        ("without others between", &ours.pass, &theirs.pass),
        ("without the pass", &ours.between, &theirs.between),
    ] {
        let ours = other::lines(ours);
        difference(&format!("{what}, model and other"), &ours, &other::lines(theirs))?;
        lines += ours.len();
    }
    Ok(lines)
}

/// The report of a pass that differs, which is saved whole.
pub fn report(pass: &Interleaved, number: usize, seed: u64, difference: &str) -> String {
    let saved = other::save(&format!("between-{seed}-{number}.txt"), &script(pass, None));
    format!("rate pass {number}, seed {seed}: {difference}\n  with others between: {saved}")
}

#[cfg(test)]
mod tests {
    use reference::board::PassKind;
    use reference::generate;
    use reference::other::Served;

    use super::*;

    fn printed(pass: &Interleaved) -> Printed {
        let print = |left_out| other::model(&script(pass, left_out)).0;
        Printed {
            whole: print(None),
            pass: print(Some(Part::Between)),
            between: print(Some(Part::Pass)),
        }
    }

    #[test]
    fn model_agrees() {
        for number in 0..100 {
            let pass = generate::between(3, number);
            assert_eq!(compare("model", &pass, &printed(&pass)), Ok(()), "pass {number}");
        }
    }

    /// The line of this part and letter that comes last in the whole script.
    fn last_line(pass: &Interleaved, part: Part, letter: u8) -> Option<usize> {
        let found = |(p, line): &(Part, Vec<u8>)| *p == part && line[0] == letter;
        pass.lines.iter().rposition(found).map(|place| pass.before.len() + place)
    }

    /// A digit changed in one answer of the whole script is found.
    #[test]
    fn differences_are_found() {
        let all = [(Part::Pass, b'N'), (Part::Between, b'G'), (Part::Between, b'K')];
        let has_all =
            |pass: &Interleaved| all.iter().all(|&(p, l)| last_line(pass, p, l).is_some());
        let pass = (0..).map(|number| generate::between(3, number)).find(has_all).expect("one");
        let [counter, rate] = [2 + 4 * HEADER, 2 + 4 * 497];
        let dynamic = [2, counter, rate].map(|digit| (Part::Dynamic, b'D', digit));
        for (part, letter, digit) in all.map(|(p, l)| (p, l, 0)).into_iter().chain(dynamic) {
            let mut printed = printed(&pass);
            let line = last_line(&pass, part, letter).expect("such a line");
            let before = &other::lines(&printed.whole)[..line];
            let start: usize = before.iter().map(|line| line.len() + 1).sum();
            let digit = &mut printed.whole[start + digit];
            *digit = if *digit == b'7' { b'8' } else { b'7' };
            assert!(compare("model", &pass, &printed).is_err(), "{part:?} {letter}");
        }
    }

    /// The counters belong to the lines between, the rest to the pass.
    #[test]
    fn parts_of_blocks() {
        let [header, time, rest] = ["1", "2", "3"].map(|digit| digit.repeat(44));
        let block = ["0 ", &header, &time[..12], &rest].concat();
        let record = ["0 ", &header, &rest].concat();
        let dynamic = (Part::Dynamic, b'D', block.as_bytes());
        assert_eq!(of_pass(&dynamic), Some(rest.as_bytes()));
        assert_eq!(of_between(&dynamic), Some(&block.as_bytes()[..58]));
        assert_eq!(of_pass(&(Part::Pass, b'M', record.as_bytes())), Some(rest.as_bytes()));
        assert_eq!(of_pass(&(Part::Pass, b'M', b"18")), Some(&b"18"[..]));
        assert_eq!(of_between(&(Part::Pass, b'M', b"18")), None);
        assert_eq!(of_pass(&(Part::Between, b'K', b"0")), None);
    }

    /// The series has triggers, stops and ends of counted runs in rate passes, and
    /// passes that end idle and in a run.
    #[test]
    fn series_has_all() {
        let mut seen = [false; 5];
        for number in 0..100 {
            let text = script(&generate::between(3, number), None);
            let lines = other::lines(&text);
            for Served { number, mode, mode_after, .. } in other::model(&text).1 {
                let fetching = mode.pass == Some(PassKind::Rates);
                let (ran, runs) = (mode.run.is_some(), mode_after.run.is_some());
                let letter = lines[number][0];
                seen[0] |= fetching && letter == b'G' && runs;
                seen[1] |= fetching && letter == b'G' && ran && !runs;
                seen[2] |= fetching && letter == b'C' && ran && !runs;
                let ended = fetching && mode_after.pass.is_none();
                seen[3] |= ended && runs;
                seen[4] |= ended && !runs;
            }
        }
        assert_eq!(seen, [true; 5]);
    }
}
