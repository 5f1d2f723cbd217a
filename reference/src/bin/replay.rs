//! Reads a script from standard input and prints the board's answers.

use std::io::{self, BufRead, BufReader, BufWriter, Write};

use reference::replay::Replay;

fn main() -> io::Result<()> {
    let mut input = BufReader::with_capacity(1 << 16, io::stdin().lock());
    let mut output = BufWriter::with_capacity(1 << 16, io::stdout().lock());
    let mut replay = Replay::new();
    let mut line = Vec::new();
    let mut answer = Vec::new();
    loop {
        line.clear();
        if input.read_until(b'\n', &mut line)? == 0 {
            break;
        }
        if line.last() == Some(&b'\n') {
            line.pop();
        }
        answer.clear();
        replay.line(&line, &mut answer);
        output.write_all(&answer)?;
    }
    output.flush()
}
