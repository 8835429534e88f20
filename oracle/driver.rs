//! Answers a script on standard input as 01's script program does, with the Rust allocator inside.

extern crate script;

use std::io::{stdin, stdout, BufRead, Write};

fn main() -> std::io::Result<()> {
    let mut input = stdin().lock();
    let mut output = stdout().lock();
    let mut session = script::Session::new();
    let (mut line, mut answers) = (Vec::new(), Vec::new());
    loop {
        line.clear();
        let end = input.read_until(b'\n', &mut line)? == 0;
        if !end {
            session.step(line.strip_suffix(b"\n").unwrap_or(&line), &mut answers);
        }
        if end || answers.len() > 1 << 16 {
            output.write_all(&answers)?;
            answers.clear();
        }
        if end {
            return output.flush();
        }
    }
}
