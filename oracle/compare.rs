//! Gives the same scripts to the Rust and to a program, and compares the answers byte for byte.
//! The first difference is printed as a script with no line too many.

extern crate generate;
extern crate script;

mod minimize;

use generate::Script;
use minimize::Minimizer;
use script::Answer;
use std::fs::{self, File};
use std::path::PathBuf;
use std::process::{exit, Command};
use std::time::{Duration, Instant};

const USAGE: &str =
    "compare [--program PATH] [--scripts N] [--lines M] [--seed S] [--every L] [--wrap 0|1] [--minimize SECONDS]
  N scripts of about M lines; every run of L steps on small atlases; a generation that wraps";

/// Many scripts go into one input, since `n` begins anew. The first inputs are small, to be soon at a
/// difference that many scripts show; then each is twice as long, up to this.
const BATCH_LINES: usize = 32000;

fn main() {
    let (mut program, mut keep) = (String::new(), String::from("."));
    let (mut scripts, mut lines, mut seed, mut every, mut wrap, mut minimize) = (600, 200, 1, 5, 1, 60);
    let usage = || -> ! {
        eprintln!("{USAGE}");
        exit(2)
    };
    let mut words = std::env::args().skip(1);
    while let Some(word) = words.next() {
        let value = words.next().unwrap_or_else(|| usage());
        let number = || value.parse::<u64>().unwrap_or_else(|_| usage());
        match word.as_str() {
            "--program" => program = value,
            "--keep" => keep = value,
            "--scripts" => scripts = number(),
            "--lines" => lines = number(),
            "--seed" => seed = number(),
            "--every" => every = number(),
            "--wrap" => wrap = number(),
            "--minimize" => minimize = number(),
            _ => usage(),
        }
    }
    if fs::metadata(&program).map_or(true, |m| !m.is_file()) {
        eprintln!("compare: there is no script program at {program}: it does not exist yet, or is not built.");
        eprintln!("compare: name another with --program PATH.");
        exit(2);
    }

    let keep = PathBuf::from(keep);
    let folder = keep.join(format!("run-{}", std::process::id()));
    fs::create_dir_all(&folder).expect("a folder for the inputs and outputs");
    let mut comparer = Comparer {
        program: Program { path: fs::canonicalize(&program).expect("the program's path"), folder: folder.clone() },
        seed,
        seen: 0,
        batches: 0,
        batch: Vec::new(),
        batch_lines: 0,
        counts: Vec::new(),
        rust_time: Duration::ZERO,
        program_time: Duration::ZERO,
        minimize: Duration::from_secs(minimize),
        keep,
    };
    for index in 0..scripts {
        comparer.take(generate::script(seed, index, lines as usize));
    }
    if every > 0 {
        generate::every_run(every as usize, &mut |script| comparer.take(script));
    }
    comparer.flush();
    if wrap > 0 {
        comparer.take(generate::wrap());
        comparer.flush();
    }
    comparer.report();
    println!("no difference");
    let _ = fs::remove_dir_all(folder);
}

struct Program {
    path: PathBuf,
    folder: PathBuf,
}

struct Run {
    output: Vec<u8>,
    errors: Vec<u8>,
    /// Why it did not end well, if it did not.
    trouble: Option<String>,
}

impl Program {
    /// Through files: a program that writes before it has read all can't block.
    fn run(&self, input: &[u8]) -> Run {
        let [from, to, errors] = ["in", "out", "err"].map(|name| self.folder.join(name));
        fs::write(&from, input).expect("the input written");
        let open = |r: std::io::Result<File>| r.expect("a file in the folder of inputs and outputs");
        let mut child = Command::new(&self.path)
            .stdin(open(File::open(&from)))
            .stdout(open(File::create(&to)))
            .stderr(open(File::create(&errors)))
            .spawn()
            .unwrap_or_else(|e| {
                eprintln!("compare: {} can't be started: {e}", self.path.display());
                exit(2)
            });
        let lines = input.iter().filter(|&&b| b == b'\n').count() as u64;
        let limit = Duration::from_secs(20) + Duration::from_millis(5 * lines);
        let start = Instant::now();
        let mut pause = Duration::from_micros(200);
        let status = loop {
            if let Some(status) = child.try_wait().expect("the program's end") {
                break Some(status);
            }
            if start.elapsed() > limit {
                let _ = child.kill();
                let _ = child.wait();
                break None;
            }
            std::thread::sleep(pause);
            pause = (pause * 5 / 4).min(Duration::from_millis(20));
        };
        let trouble = match status {
            None => Some(format!("it was stopped after {} s", limit.as_secs())),
            Some(status) if !status.success() => Some(format!("it ended with {status}")),
            Some(_) => None,
        };
        let read = |path| fs::read(path).expect("the output read");
        Run { output: read(&to), errors: read(&errors), trouble }
    }

    fn differs(&self, input: &[u8]) -> bool {
        let run = self.run(input);
        run.trouble.is_some() || run.output != by_rust(input).0
    }
}

/// The Rust's answers, and where each line's end in them.
fn by_rust(input: &[u8]) -> (Vec<u8>, Vec<usize>, Vec<Answer>) {
    let (mut output, mut ends, mut answers) = (Vec::new(), Vec::new(), Vec::new());
    script::answer(input, &mut output, |answer, end| {
        ends.push(end);
        answers.push(answer);
    });
    (output, ends, answers)
}

/// The first line that is answered differently. With a program that stopped, output may be lost: then the
/// line is not to be relied on.
fn line_of_difference(output: &[u8], ends: &[usize], theirs: &[u8]) -> usize {
    let same = output.iter().zip(theirs).take_while(|(a, b)| a == b).count();
    ends.partition_point(|&end| end <= same).min(ends.len() - 1)
}

struct Counts {
    kind: &'static str,
    scripts: usize,
    lines: usize,
    answers: usize,
    grants: usize,
    refusals: [usize; 12],
}

struct Comparer {
    program: Program,
    seed: u64,
    /// Scripts compared before this batch.
    seen: usize,
    batches: u64,
    batch: Vec<Script>,
    batch_lines: usize,
    counts: Vec<Counts>,
    rust_time: Duration,
    program_time: Duration,
    minimize: Duration,
    keep: PathBuf,
}

impl Comparer {
    fn take(&mut self, script: Script) {
        if self.batch.is_empty() {
            self.batch.push(generate::start(self.seed, self.batches));
        }
        self.batch_lines += script::lines(&script.text).count();
        self.batch.push(script);
        if self.batch_lines >= BATCH_LINES.min(500 << self.batches.min(10)) {
            self.flush();
        }
    }

    fn flush(&mut self) {
        if self.batch.is_empty() {
            return;
        }
        self.batch.push(generate::end(self.seed, self.batches));
        let batch = std::mem::take(&mut self.batch);
        let input: Vec<u8> = batch.iter().flat_map(|script| script.text.iter().copied()).collect();

        let start = Instant::now();
        let (output, ends, answers) = by_rust(&input);
        self.rust_time += start.elapsed();
        let start = Instant::now();
        let run = self.program.run(&input);
        self.program_time += start.elapsed();

        if run.trouble.is_some() || run.output != output {
            self.difference(&batch, line_of_difference(&output, &ends, &run.output), run.trouble);
        }

        let (mut at, mut from) = (0, 0);
        for script in &batch {
            let lines = script::lines(&script.text).count();
            let to = if lines == 0 { from } else { ends[at + lines - 1] };
            let counts = self.counts_of(script.kind);
            counts.scripts += 1;
            counts.lines += lines;
            counts.answers += output[from..to].iter().filter(|&&b| b == b'\n').count();
            for answer in &answers[at..at + lines] {
                match answer {
                    Answer::Granted(..) => counts.grants += 1,
                    Answer::No(no) => counts.refusals[usize::from(*no)] += 1,
                    Answer::Ok => {}
                }
            }
            at += lines;
            from = to;
        }
        // The start and the end are the batch's own.
        self.seen += batch.len() - 2;
        self.batches += 1;
        self.batch_lines = 0;
    }

    fn counts_of(&mut self, kind: &'static str) -> &mut Counts {
        let at = self.counts.iter().position(|c| c.kind == kind).unwrap_or_else(|| {
            self.counts.push(Counts { kind, scripts: 0, lines: 0, answers: 0, grants: 0, refusals: [0; 12] });
            self.counts.len() - 1
        });
        &mut self.counts[at]
    }

    fn report(&self) {
        let mut total = Counts { kind: "all", scripts: 0, lines: 0, answers: 0, grants: 0, refusals: [0; 12] };
        for c in &self.counts {
            total.scripts += c.scripts;
            total.lines += c.lines;
            total.answers += c.answers;
            total.grants += c.grants;
            for (sum, n) in total.refusals.iter_mut().zip(&c.refusals) {
                *sum += n;
            }
        }
        println!("compared, by kind; \"answers\" are lines of output, \"no N\" refusals:");
        print!("{:<11}{:>8}{:>9}{:>9}{:>8}", "kind", "scripts", "lines", "answers", "grants");
        let numbers = [1, 2, 3, 4, 5, 6, 7, 8, 11];
        for no in numbers {
            print!("{:>7}", format!("no {no}"));
        }
        println!();
        for c in self.counts.iter().chain([&total]) {
            print!("{:<11}{:>8}{:>9}{:>9}{:>8}", c.kind, c.scripts, c.lines, c.answers, c.grants);
            for no in numbers {
                print!("{:>7}", c.refusals[no]);
            }
            println!();
        }
        println!(
            "in {} inputs; the Rust answered in {:.1} s, the program in {:.1} s",
            self.batches,
            self.rust_time.as_secs_f64(),
            self.program_time.as_secs_f64()
        );
    }

    fn difference(&self, batch: &[Script], line: usize, trouble: Option<String>) -> ! {
        let mut at = 0;
        let mut found = 0;
        for (i, script) in batch.iter().enumerate() {
            let lines = script::lines(&script.text).count();
            if at + lines > line {
                found = i;
                break;
            }
            at += lines;
        }
        // The batch starts with a script of its own, so script number 1 of the run has index 1 in the first.
        match &trouble {
            None => println!(
                "first difference: script {} of the run, kind \"{}\", line {} of it",
                self.seen + found,
                batch[found].kind,
                line - at + 1
            ),
            Some(trouble) => println!(
                "first difference: {trouble}, with scripts {} to {} of the run as input",
                self.seen + 1,
                self.seen + batch.len() - 2
            ),
        }

        let differs = |input: &[u8]| self.program.differs(input);
        let mut minimizer = Minimizer::new(&differs, self.minimize);
        // Alone, up to its line, if that differs too; else with all that came before.
        let alone = pieces(&batch[found].text)[..=line - at].concat();
        let first = if trouble.is_none() && minimizer.differs(&alone) {
            alone
        } else {
            let upto = if trouble.is_none() { found + 1 } else { batch.len() };
            minimizer.texts(batch[..upto].iter().map(|script| &script.text[..]).collect())
        };
        let mut script = minimizer.lines(&first);
        let mut run = self.program.run(&script);
        let (mut output, mut ends, _) = by_rust(&script);
        let mut line = line_of_difference(&output, &ends, &run.output);
        if run.trouble.is_none() {
            // What follows the difference shows nothing.
            script = pieces(&script)[..=line].concat();
            run = self.program.run(&script);
            (output, ends, _) = by_rust(&script);
            line = line_of_difference(&output, &ends, &run.output);
        }
        let least = pieces(&script);
        println!(
            "minimized from {} lines to {} in {} runs{}:",
            pieces(&first).len(),
            least.len(),
            minimizer.runs,
            if minimizer.time_left() { "" } else { " (time ran out)" }
        );
        println!();

        for (i, piece) in least.iter().enumerate() {
            if i < 40 || i + 10 > least.len() {
                print!("{}", shown(piece));
            } else if i == 40 {
                println!("...");
            }
        }
        // Where the program's answer to the line ends can't be known: as many lines as the Rust's are shown.
        let from = if run.trouble.is_some() || line == 0 { 0 } else { ends[line - 1] };
        let count = output[from..].iter().filter(|&&b| b == b'\n').count();
        for (who, output) in [("the Rust:   ", &output), ("the program:", &run.output)] {
            let answers = pieces(output.get(from..).unwrap_or(b""));
            if answers.is_empty() {
                println!("    {who} nothing");
            }
            for answer in answers.iter().take(count.min(20)) {
                print!("    {who} {}", shown(answer));
            }
        }
        if let Some(trouble) = &run.trouble {
            println!("    the program: {trouble}; to standard error it wrote:");
            for line in pieces(&run.errors).iter().take(5) {
                print!("        {}", shown(line));
            }
        }
        println!();
        for (name, bytes) in [("script", &script), ("rust", &output), ("program", &run.output)] {
            fs::write(self.keep.join(format!("difference.{name}")), bytes).expect("the difference written");
        }
        println!("kept in {}: difference.script, .rust, .program", self.keep.display());
        let _ = fs::remove_dir_all(&self.program.folder);
        exit(1)
    }
}

/// The lines with their newlines.
fn pieces(text: &[u8]) -> Vec<&[u8]> {
    text.split_inclusive(|&b| b == b'\n').collect()
}

/// Readable, whatever the bytes.
fn shown(bytes: &[u8]) -> String {
    let mut text = String::new();
    for &b in bytes {
        match b {
            b'\n' | b' '..=b'~' => text.push(b as char),
            _ => text.push_str(&format!("\\x{b:02x}")),
        }
    }
    if !text.ends_with('\n') {
        text.push('\n');
    }
    text
}
