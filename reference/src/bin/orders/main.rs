//! Serves each random pass in a mixed order and crate by crate, in another
//! replay program and in the model, and compares (01, demand 3; 02, d and i);
//! then as many rate passes with triggers, stops and clock steps between, without
//! these, and without the pass (02, i):
//! `orders PATH-TO-OTHER-REPLAY [PASSES [SEED]]`.

use std::process::ExitCode;

use reference::generate::{self, bytes_line, Item, Pass};
use reference::other::{self, difference, run_other, Compared};

mod between;

const PASSES: usize = 500;
const SEED: u64 = 1;
/// Lines for each item: itself and the number of frames on its crate.
const PER_ITEM: usize = 2;

/// The script of a pass with its items in this order.
fn script(pass: &Pass, order: &[&Item]) -> Vec<u8> {
    let mut text = Vec::new();
    let mut push = |line: &[u8]| {
        text.extend_from_slice(line);
        text.push(b'\n');
    };
    pass.before.iter().for_each(|line| push(line));
    for item in order {
        push(&item.line());
        push(&bytes_line(b'N', &[item.crate_number]));
    }
    pass.after.iter().for_each(|line| push(line));
    text
}

/// The crate that an item belongs to; all crates above 3 together come last.
fn group(item: &Item) -> u8 {
    item.crate_number.min(4)
}

/// What one program printed in one order.
struct Printed<'a> {
    before: &'a [&'a [u8]],
    /// The lines of the items of each crate, in order.
    crates: [Vec<&'a [u8]>; 5],
    after: &'a [&'a [u8]],
}

fn divide<'a>(lines: &'a [&'a [u8]], pass: &Pass, order: &[&Item]) -> Result<Printed<'a>, String> {
    let before = pass.before.iter().filter(|line| !line.is_empty()).count();
    let expected = before + PER_ITEM * order.len() + pass.after.len();
    if lines.len() != expected {
        return Err(format!("{} lines printed and {expected} expected", lines.len()));
    }
    let (head, rest) = lines.split_at(before);
    let (items, after) = rest.split_at(PER_ITEM * order.len());
    let mut crates: [Vec<&[u8]>; 5] = Default::default();
    for (item, answers) in order.iter().zip(items.chunks_exact(PER_ITEM)) {
        crates[usize::from(group(item))].extend_from_slice(answers);
    }
    Ok(Printed { before: head, crates, after })
}

/// Compares one program's two orders.
fn compare_orders(
    name: &str,
    pass: &Pass,
    mixed: (&[u8], &[&Item]),
    sorted: (&[u8], &[&Item]),
) -> Result<(), String> {
    let with_name = |text: String| format!("{name}: {text}");
    let mixed_lines = other::lines(mixed.0);
    let sorted_lines = other::lines(sorted.0);
    let first = divide(&mixed_lines, pass, mixed.1).map_err(with_name)?;
    let second = divide(&sorted_lines, pass, sorted.1).map_err(with_name)?;
    difference("before the pass", first.before, second.before).map_err(with_name)?;
    for (number, (first, second)) in first.crates.iter().zip(&second.crates).enumerate() {
        let what =
            if number < 4 { format!("crate {number}") } else { "crates above 3".to_string() };
        difference(&what, first, second).map_err(with_name)?;
    }
    difference("after the pass", first.after, second.after).map_err(with_name)
}

/// Serves one pass; gives the number of lines compared.
fn serve(program: &str, pass: &Pass) -> Result<usize, String> {
    let mixed: Vec<&Item> = pass.items.iter().collect();
    let mut sorted = mixed.clone();
    sorted.sort_by_key(|item| group(item));

    let mixed_text = script(pass, &mixed);
    let sorted_text = script(pass, &sorted);
    let (our_mixed, _) = other::model(&mixed_text);
    let (our_sorted, _) = other::model(&sorted_text);
    let their_mixed = run_other(program, &mixed_text)?;
    let their_sorted = run_other(program, &sorted_text)?;

    compare_orders(
        "model, mixed and by crate",
        pass,
        (&our_mixed, &mixed),
        (&our_sorted, &sorted),
    )?;
    compare_orders(
        "other, mixed and by crate",
        pass,
        (&their_mixed, &mixed),
        (&their_sorted, &sorted),
    )?;
    difference("mixed, model and other", &other::lines(&our_mixed), &other::lines(&their_mixed))?;
    difference(
        "by crate, model and other",
        &other::lines(&our_sorted),
        &other::lines(&their_sorted),
    )?;
    Ok(other::lines(&our_mixed).len() + other::lines(&our_sorted).len())
}

/// The report of a pass that differs, whose mixed order is saved.
fn report(pass: &Pass, number: usize, seed: u64, difference: &str) -> String {
    let mixed: Vec<&Item> = pass.items.iter().collect();
    let saved = other::save(&format!("pass-{seed}-{number}.txt"), &script(pass, &mixed));
    format!("pass {number}, seed {seed}: {difference}\n  the mixed order: {saved}")
}

/// Says how many passes and lines agreed; false if one differs or there is none.
fn verdict(what: &str, compared: &Compared) -> bool {
    let Compared { served, lines, differing } = compared;
    if *differing > 0 || *served == 0 {
        println!("{served} {what}, {lines} lines: {differing} passes differ");
        return false;
    }
    println!("{served} {what}, {lines} lines: all agree");
    true
}

fn main() -> ExitCode {
    let Some((program, passes, seed)) = other::arguments(PASSES, SEED) else {
        eprintln!("usage: orders PATH-TO-OTHER-REPLAY [PASSES [SEED]]");
        return ExitCode::from(2);
    };
    let orders = other::compare_all(passes, |number| {
        let pass = generate::pass(seed, number);
        serve(&program, &pass).map_err(|difference| report(&pass, number, seed, &difference))
    });
    let orders = verdict("passes in two orders", &orders);
    let between = other::compare_all(passes, |number| {
        let pass = generate::between(seed, number);
        between::serve(&program, &pass)
            .map_err(|difference| between::report(&pass, number, seed, &difference))
    });
    let between = verdict("rate passes with and without others between", &between);
    if orders && between {
        ExitCode::SUCCESS
    } else {
        ExitCode::FAILURE
    }
}

#[cfg(test)]
mod tests {
    use reference::board::{Answer, Board};
    use reference::generate::{ItemKind, Random};
    use reference::replay::Replay;
    use reference::Refusal;

    use super::*;

    /// What an item got, an accepted fetch no answer, and what its bytes then held.
    type Got = (Result<Option<Answer>, Refusal>, Vec<u8>);

    /// The model's board as the pass begins.
    fn begun(pass: &Pass) -> Board {
        let mut replay = Replay::new();
        for line in &pass.before {
            replay.line(line, &mut Vec::new());
        }
        replay.board().clone()
    }

    /// Serves the items, each with the bytes it lends; gives what those of each
    /// crate got, and the board after them.
    fn serve_on(mut board: Board, items: &[(&Item, Vec<u8>)]) -> ([Vec<Got>; 5], Board) {
        let mut crates: [Vec<Got>; 5] = Default::default();
        for (item, lent) in items {
            let (number, mut lent) = (item.crate_number, lent.clone());
            let result = match &item.kind {
                ItemKind::Reply(bytes) => board.reply(number, bytes, &mut lent).map(Some),
                ItemKind::TimeUp => board.time_up(number, &mut lent).map(Some),
                ItemKind::FirstFrame => board.first_frame(number, &mut lent).map(|()| None),
            };
            crates[usize::from(group(item))].push((result, lent));
        }
        (crates, board)
    }

    /// A replay program always lends 28 bytes; the model is asked with other
    /// numbers of them too.
    #[test]
    fn lent_bytes_of_any_number() {
        let mut random = Random::new(4);
        let mut lent = |fewest: usize, numbers: usize| -> Vec<u8> {
            (0..fewest + random.below(numbers)).map(|_| random.byte()).collect()
        };
        for number in 0..100 {
            let pass = generate::pass(4, number);
            // Every item twice: too few bytes refuse it the first time, so that the
            // replies still suit the frames.
            let mut items = Vec::new();
            for item in &pass.items {
                items.push((item, lent(0, 28)));
                items.push((item, lent(28, 20)));
            }
            let mixed = serve_on(begun(&pass), &items);
            items.sort_by_key(|(item, _)| group(item));
            assert_eq!(mixed, serve_on(begun(&pass), &items), "pass {number}");
        }
    }
}
