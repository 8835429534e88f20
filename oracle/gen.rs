//! Prints scripts: gen [--seed S] [--scripts N] [--lines M] [--kind KIND], or every short run: gen --every L

extern crate generate;

use std::io::{stdout, BufWriter, Write};

const USAGE: &str = "gen [--seed S] [--scripts N] [--lines M] [--kind KIND] | gen --every L | gen --wrap";

fn main() {
    let (mut seed, mut scripts, mut lines, mut every, mut wrap) = (1, 15, 200, 0, false);
    let mut kind = None;
    let mut words = std::env::args().skip(1);
    let usage = || -> ! {
        eprintln!("{}", USAGE);
        std::process::exit(2)
    };
    while let Some(word) = words.next() {
        if word == "--wrap" {
            wrap = true;
            continue;
        }
        let value = words.next().unwrap_or_else(|| usage());
        let number = || value.parse::<u64>().unwrap_or_else(|_| usage());
        match word.as_str() {
            "--seed" => seed = number(),
            "--scripts" => scripts = number(),
            "--lines" => lines = number(),
            "--every" => every = number(),
            "--kind" => kind = Some(value),
            _ => usage(),
        }
    }
    let mut out = BufWriter::new(stdout().lock());
    let mut print = |script: generate::Script| out.write_all(&script.text).unwrap_or_else(|_| std::process::exit(1));
    if wrap {
        print(generate::wrap());
    } else if every > 0 {
        generate::every_run(every as usize, &mut print);
    } else {
        let (mut index, mut printed) = (0, 0);
        if let Some(kind) = &kind {
            if !generate::KINDS.contains(&kind.as_str()) {
                eprintln!("gen: kinds are {}", generate::KINDS.join(", "));
                std::process::exit(2);
            }
        }
        while printed < scripts {
            let here = generate::KINDS[(index % generate::KINDS.len() as u64) as usize];
            if kind.as_ref().map_or(true, |k| k == here) {
                print(generate::script(seed, index, lines as usize));
                printed += 1;
            }
            index += 1;
        }
    }
}
