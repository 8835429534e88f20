//! Makes a script smaller while it still shows a difference.

use script::{Answer, Line, Session};
use std::collections::HashMap;
use std::time::{Duration, Instant};

pub struct Minimizer<'a> {
    differs: &'a dyn Fn(&[u8]) -> bool,
    start: Instant,
    limit: Duration,
    pub runs: usize,
}

/// A line; or a release or look-up of what an earlier line was granted, so that it follows
/// the id when lines before it go.
#[derive(Clone)]
enum Step {
    Plain(Vec<u8>),
    Named { letter: char, granted_at: usize },
}

impl<'a> Minimizer<'a> {
    pub fn new(differs: &'a dyn Fn(&[u8]) -> bool, limit: Duration) -> Minimizer<'a> {
        Minimizer { differs, start: Instant::now(), limit, runs: 0 }
    }

    pub fn time_left(&self) -> bool {
        self.start.elapsed() < self.limit
    }

    pub fn differs(&mut self, input: &[u8]) -> bool {
        self.runs += 1;
        (self.differs)(input)
    }

    /// Fewer of some texts.
    pub fn texts(&mut self, texts: Vec<&[u8]>) -> Vec<u8> {
        let whole = |kept: &[usize]| kept.iter().flat_map(|&i| texts[i].iter().copied()).collect::<Vec<u8>>();
        let kept = self.drop((0..texts.len()).collect(), |kept, m| m.differs(&whole(kept)));
        whole(&kept)
    }

    /// Fewer lines; then, once they are few, smaller numbers in them.
    pub fn lines(&mut self, text: &[u8]) -> Vec<u8> {
        let mut steps = steps(text);
        let mut kept: Vec<usize> = (0..steps.len()).collect();
        for _ in 0..3 {
            kept = self.drop(kept, |kept, m| m.differs(&resolve(&steps, kept)));
            let mut smaller = false;
            for &i in kept.iter().take(20) {
                smaller |= self.shrink(&mut steps, &kept, i);
            }
            if !smaller {
                return resolve(&steps, &kept);
            }
        }
        kept = self.drop(kept, |kept, m| m.differs(&resolve(&steps, kept)));
        resolve(&steps, &kept)
    }

    /// Drops indices, in ever shorter runs of them.
    fn drop(&mut self, mut kept: Vec<usize>, differs: impl Fn(&[usize], &mut Self) -> bool) -> Vec<usize> {
        let mut size = kept.len().div_ceil(2);
        while size > 0 {
            let (mut at, mut dropped) = (0, false);
            while at < kept.len() {
                if !self.time_left() {
                    return kept;
                }
                let mut fewer = kept.clone();
                fewer.drain(at..(at + size).min(kept.len()));
                if !fewer.is_empty() && differs(&fewer, self) {
                    kept = fewer;
                    dropped = true;
                } else {
                    at += size;
                }
            }
            // Single ones until none can go.
            if size > 1 || !dropped {
                size /= 2;
            }
        }
        kept
    }

    fn shrink(&mut self, steps: &mut [Step], kept: &[usize], i: usize) -> bool {
        let mut done = false;
        for place in 0..6 {
            // Each that works is at least a good part smaller, but for the last few.
            for _ in 0..12 {
                let Step::Plain(line) = &steps[i] else { return done };
                let (letter, numbers) = match script::read(line.strip_suffix(b"\n").unwrap_or(line)) {
                    Some(Line::New(n)) => ('n', n.to_vec()),
                    Some(Line::Allocate(x, y)) => ('a', vec![x, y]),
                    _ => return done,
                };
                let tries = numbers.get(place).map_or(vec![], |&number| less_than(number));
                let before = steps[i].clone();
                let found = tries.into_iter().any(|less| {
                    let mut numbers = numbers.clone();
                    numbers[place] = less;
                    let words: Vec<String> = numbers.iter().map(|n| n.to_string()).collect();
                    steps[i] = Step::Plain(format!("{letter} {}\n", words.join(" ")).into_bytes());
                    self.time_left() && self.differs(&resolve(steps, kept))
                });
                if !found {
                    steps[i] = before;
                    break;
                }
                done = true;
            }
        }
        done
    }
}

/// Smaller numbers to try, the smallest first; most keep the remainder by 8.
fn less_than(number: i32) -> Vec<i32> {
    let mut tries = vec![
        0,
        1,
        number / 2,
        number - number / 16 * 8,
        number - number / 32 * 8,
        number.saturating_sub(8),
        number.saturating_sub(1),
    ];
    tries.retain(|&less| 0 <= less && less < number);
    tries.dedup();
    tries
}

fn steps(text: &[u8]) -> Vec<Step> {
    let mut session = Session::new();
    let mut granted = HashMap::new();
    let mut steps = Vec::new();
    for (i, line) in text.split_inclusive(|&b| b == b'\n').enumerate() {
        let body = line.strip_suffix(b"\n").unwrap_or(line);
        let read = script::read(body);
        let answer = session.step(body, &mut Vec::new());
        if let Answer::Granted(row, generation) = answer {
            granted.insert((i32::from(row), i32::from(generation)), i);
        }
        let named = match read {
            Some(Line::Release(row, generation)) if line != body => Some(('r', row, generation)),
            Some(Line::Look(row, generation)) if line != body => Some(('g', row, generation)),
            _ => None,
        };
        steps.push(match named {
            Some((letter, row, generation)) if answer == Answer::Ok => {
                Step::Named { letter, granted_at: granted[&(row, generation)] }
            }
            _ => Step::Plain(line.to_vec()),
        });
    }
    steps
}

/// The steps kept as a script, with the ids that the Rust gives in it.
fn resolve(steps: &[Step], kept: &[usize]) -> Vec<u8> {
    let mut session = Session::new();
    let mut granted = HashMap::new();
    let mut text = Vec::new();
    for &i in kept {
        let line = match &steps[i] {
            Step::Plain(line) => line.clone(),
            Step::Named { letter, granted_at } => match granted.get(granted_at) {
                Some((row, generation)) => format!("{letter} {row} {generation}\n").into_bytes(),
                None => continue,
            },
        };
        let body = line.strip_suffix(b"\n").unwrap_or(&line);
        if let Answer::Granted(row, generation) = session.step(body, &mut Vec::new()) {
            granted.insert(i, (row, generation));
        }
        text.extend_from_slice(&line);
    }
    text
}
