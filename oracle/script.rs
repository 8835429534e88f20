//! Document 01's script language, answered by the Rust allocator.
//!
//! Places, ids, totals and listings come from the Rust. What the Rust has no answer for is decided
//! here from 01: unreadable lines (11), create's limits (1, 2, 7), the time before a good `n` (3),
//! a request's sides (4, 5), dead ids (8) and full tables (7). Sums here are made in 64 bits.

extern crate etagere;

use etagere::{size2, AllocId, AllocatorOptions, AtlasAllocator, Rectangle};

pub const SHELF_ROWS: i64 = 512;
pub const ITEM_ROWS: i64 = 2048;

pub enum Line {
    New([i32; 6]),
    Allocate(i32, i32),
    Release(i32, i32),
    Look(i32, i32),
    Space,
    List,
    Clear,
}

/// What a line was answered with, as far as a generator wants to know.
#[derive(Copy, Clone, PartialEq)]
pub enum Answer {
    Ok,
    Granted(u16, u16),
    No(u8),
}

/// Reads a line, without its newline; None where it isn't readable.
pub fn read(line: &[u8]) -> Option<Line> {
    if line.is_empty() || line.len() > 80 {
        return None;
    }
    let mut words = line.split(|&b| b == b' ');
    let letter = words.next()?;
    let mut n = [0; 6];
    let mut count = 0;
    for word in words {
        *n.get_mut(count)? = number(word)?;
        count += 1;
    }
    match (letter, count) {
        (b"n", 6) => Some(Line::New(n)),
        (b"a", 2) => Some(Line::Allocate(n[0], n[1])),
        (b"r", 2) => Some(Line::Release(n[0], n[1])),
        (b"g", 2) => Some(Line::Look(n[0], n[1])),
        (b"s", 0) => Some(Line::Space),
        (b"l", 0) => Some(Line::List),
        (b"c", 0) => Some(Line::Clear),
        _ => None,
    }
}

fn number(word: &[u8]) -> Option<i32> {
    let (minus, digits) = match word {
        [b'-', rest @ ..] => (true, rest),
        _ => (false, word),
    };
    // Ten digits hold every 32-bit number; "-0" is 0.
    if digits.is_empty() || digits.len() > 10 || (digits[0] == b'0' && digits.len() > 1) {
        return None;
    }
    let mut value = 0i64;
    for &d in digits {
        if !d.is_ascii_digit() {
            return None;
        }
        value = value * 10 + i64::from(d - b'0');
    }
    if minus {
        value = -value;
    }
    if value < i64::from(i32::MIN) || value > i64::from(i32::MAX) {
        return None;
    }
    Some(value as i32)
}

/// The numbers of an `n` line that passed create's checks, and the three that 01 draws from them.
#[derive(Clone)]
pub struct Limits {
    given: [i32; 6],
    pub vertical: bool,
    /// Size along and deep.
    pub w: i64,
    pub h: i64,
    pub shelf_width: i64,
    pub columns: i64,
}

/// Create's checks in 01's order: 1, 2, 7.
pub fn limits(given: &[i32; 6]) -> Result<Limits, u8> {
    let [x, y, align_x, align_y, vertical, columns] = given.map(i64::from);
    let (w, h, align) = if vertical == 1 { (y, x, align_y) } else { (x, y, align_x) };
    if w < 1 || w > 65535 || h < 1 || h > 65527 || w * h > 2147483647 {
        return Err(1);
    }
    let alignments = 1..=65535;
    if !alignments.contains(&align_x) || !alignments.contains(&align_y) || columns < 1 || vertical < 0 || vertical > 1 {
        return Err(2);
    }
    let share = w / columns;
    let shelf_width = share - share % align;
    if shelf_width == 0 {
        return Err(2);
    }
    let columns = w / shelf_width;
    if columns > SHELF_ROWS || columns > ITEM_ROWS {
        return Err(7);
    }
    Ok(Limits { given: *given, vertical: vertical == 1, w, h, shelf_width, columns })
}

/// A stretch of a shelf, free or granted, in along and deep.
pub struct Stretch {
    pub at: i64,
    pub width: i64,
    pub depth: i64,
    pub free: bool,
}

#[derive(Clone)]
struct Atlas {
    rust: AtlasAllocator,
    limits: Limits,
    /// The generation of each row that is live.
    live: Vec<Option<u16>>,
    /// At least so many rows are on no chain. A grant lowers them by the most it can take, so
    /// that the rows need counting only when these run out.
    spare: Spare,
}

#[derive(Copy, Clone)]
struct Spare {
    shelves: i64,
    items: i64,
    /// No longer a bound alone: nothing was granted or released since the count.
    exact: bool,
}

impl Spare {
    /// A grant may need more.
    fn short(&self) -> bool {
        self.shelves < 1 || self.items < 2
    }
}

impl Atlas {
    fn new(limits: Limits) -> Atlas {
        let [x, y, align_x, align_y, _, columns] = limits.given;
        let options = AllocatorOptions {
            alignment: size2(align_x, align_y),
            vertical_shelves: limits.vertical,
            num_columns: columns,
        };
        let mut atlas = Atlas {
            rust: AtlasAllocator::with_options(size2(x, y), &options),
            limits,
            live: Vec::new(),
            spare: Spare { shelves: 0, items: 0, exact: false },
        };
        atlas.start();
        atlas
    }

    /// What a fresh atlas and a cleared one have in common.
    fn start(&mut self) {
        self.live.clear();
        let columns = self.limits.columns;
        self.spare = Spare { shelves: SHELF_ROWS - columns, items: ITEM_ROWS - columns, exact: true };
    }

    /// Checks 4 and 5.
    fn refused(&self, x: i32, y: i32) -> Option<u8> {
        let sides = 1..=65535;
        if !sides.contains(&x) || !sides.contains(&y) {
            return Some(4);
        }
        let up = |side: i32, step: i32| {
            let (side, step) = (i64::from(side), i64::from(step));
            (side + step - 1) / step * step
        };
        let (x, y) = (up(x, self.limits.given[2]), up(y, self.limits.given[3]));
        let (along, deep) = if self.limits.vertical { (y, x) } else { (x, y) };
        if along > self.limits.shelf_width || deep > self.limits.h {
            return Some(5);
        }
        None
    }

    fn allocate(&mut self, x: i32, y: i32) -> Result<(AllocId, Rectangle), u8> {
        let refused = self.refused(x, y);
        if refused.is_none() && self.spare.short() {
            self.count();
        }
        let before = if self.spare.short() { Some((self.rust.clone(), self.spare)) } else { None };
        // The Rust is asked in any case: where 4 or 5 is answered, it must refuse too.
        let grant = match (self.rust.allocate(size2(x, y)), refused) {
            (Some(grant), None) => grant,
            (None, None) => return Err(6),
            (None, Some(no)) => return Err(no),
            (Some(_), Some(no)) => panic!("a {} {}: {} by 01, but the Rust grants it", x, y, no),
        };
        self.spare = Spare { shelves: self.spare.shelves - 1, items: self.spare.items - 2, exact: false };
        if let Some(before) = before {
            // More rows were needed than are freed or unused exactly if the chains now hold more
            // rows than a table has. Then 01 refuses, so the step is taken back.
            self.count();
            if self.spare.shelves < 0 || self.spare.items < 0 {
                (self.rust, self.spare) = before;
                return Err(7);
            }
        }
        let (row, generation) = parts(grant.id);
        if self.live.len() <= usize::from(row) {
            self.live.resize(usize::from(row) + 1, None);
        }
        self.live[usize::from(row)] = Some(generation);
        Ok((grant.id, grant.rectangle))
    }

    fn count(&mut self) {
        if self.spare.exact {
            return;
        }
        let stretches = self.stretches();
        let width = self.limits.shelf_width;
        // A shelf starts at a multiple of the shelf width, and none of its later items does.
        let shelves = stretches.iter().filter(|s| s.at % width == 0).count();
        self.spare =
            Spare { shelves: SHELF_ROWS - shelves as i64, items: ITEM_ROWS - stretches.len() as i64, exact: true };
    }

    /// The rows on the Rust's chains, in their order. Its tables are private, but its dump walks them.
    fn stretches(&self) -> Vec<Stretch> {
        let mut svg = Vec::new();
        self.rust.dump_into_svg(None, &mut svg).expect("a dump into memory");
        // The first rectangle is the atlas itself.
        lines(&svg)
            .skip(1)
            .map(|line| {
                let mut quoted = line.split(|&b| b == b'"').skip(1).step_by(2);
                let mut side =
                    || quoted.next().and_then(number).map_or_else(|| panic!("no number in the dump"), i64::from);
                let (x, y, width, height) = (side(), side(), side(), side());
                let free = quoted.next() == Some(b"rgb(50,50,50)");
                if self.limits.vertical {
                    Stretch { at: y, width: height, depth: width, free }
                } else {
                    Stretch { at: x, width, depth: height, free }
                }
            })
            .collect()
    }

    /// The Rust's id for a live one; it stops on a dead one.
    fn live(&self, row: i32, generation: i32) -> Option<AllocId> {
        if row < 0 || row > 65535 || generation < 0 || generation > 65535 {
            return None;
        }
        match self.live.get(row as usize) {
            Some(&Some(held)) if i32::from(held) == generation => {
                Some(AllocId::deserialize(row as u32 | (generation as u32) << 16))
            }
            _ => None,
        }
    }

    fn release(&mut self, id: AllocId) {
        self.rust.deallocate(id);
        self.live[usize::from(parts(id).0)] = None;
        self.spare.exact = false;
    }

    fn clear(&mut self) {
        self.rust.clear();
        self.start();
    }
}

fn parts(id: AllocId) -> (u16, u16) {
    let id = id.serialize();
    (id as u16, (id >> 16) as u16)
}

#[derive(Clone)]
pub struct Session {
    atlas: Option<Atlas>,
}

impl Session {
    pub fn new() -> Session {
        Session { atlas: None }
    }

    /// Answers a line, given without its newline.
    pub fn step(&mut self, line: &[u8], out: &mut Vec<u8>) -> Answer {
        match self.try_step(line, out) {
            Ok(answer) => answer,
            Err(no) => {
                say(out, "no", &[i64::from(no)]);
                Answer::No(no)
            }
        }
    }

    fn try_step(&mut self, line: &[u8], out: &mut Vec<u8>) -> Result<Answer, u8> {
        let line = read(line).ok_or(11)?;
        if let Line::New(n) = line {
            // A refused create leaves no atlas.
            self.atlas = None;
            let limits = limits(&n)?;
            let columns = limits.columns;
            self.atlas = Some(Atlas::new(limits));
            say(out, "ok", &[columns]);
            return Ok(Answer::Ok);
        }
        let atlas = self.atlas.as_mut().ok_or(3)?;
        match line {
            Line::New(_) => unreachable!(),
            Line::Allocate(x, y) => {
                let (id, rectangle) = atlas.allocate(x, y)?;
                say_item(out, "ok", id, rectangle);
                let (row, generation) = parts(id);
                return Ok(Answer::Granted(row, generation));
            }
            Line::Release(row, generation) => {
                let id = atlas.live(row, generation).ok_or(8)?;
                atlas.release(id);
                say(out, "ok", &[]);
            }
            Line::Look(row, generation) => {
                let id = atlas.live(row, generation).ok_or(8)?;
                say_item(out, "ok", id, atlas.rust.get(id));
            }
            Line::Space => {
                let (occupied, free) = (atlas.rust.allocated_space(), atlas.rust.free_space());
                say(out, "space", &[i64::from(occupied), i64::from(free)]);
            }
            Line::List => {
                let mut count = 0;
                for item in &atlas.rust {
                    let (row, generation) = parts(item.id);
                    assert_eq!(atlas.live[usize::from(row)], Some(generation), "listed, but not held to be live");
                    say_item(out, "", item.id, item.rectangle);
                    count += 1;
                }
                assert_eq!(count, atlas.live.iter().flatten().count() as i64, "held to be live, but not listed");
                say(out, "end", &[count]);
            }
            Line::Clear => {
                atlas.clear();
                say(out, "ok", &[]);
            }
        }
        Ok(Answer::Ok)
    }

    /// Percent of the atlas that is occupied; 0 without an atlas.
    pub fn percent(&self) -> i64 {
        match &self.atlas {
            Some(a) => i64::from(a.rust.allocated_space()) * 100 / (a.limits.w * a.limits.h),
            None => 0,
        }
    }

    pub fn limits(&self) -> Option<&Limits> {
        self.atlas.as_ref().map(|a| &a.limits)
    }

    pub fn stretches(&self) -> Vec<Stretch> {
        self.atlas.as_ref().map_or(Vec::new(), |a| a.stretches())
    }
}

/// Answers a whole input. After each line `each` is told the answer and the length of the output so far.
pub fn answer(input: &[u8], out: &mut Vec<u8>, mut each: impl FnMut(Answer, usize)) {
    let mut session = Session::new();
    for line in lines(input) {
        let answer = session.step(line, out);
        each(answer, out.len());
    }
}

/// The lines of an input, without their newlines. What follows the last newline is a line if it has a byte.
pub fn lines(input: &[u8]) -> impl Iterator<Item = &[u8]> {
    let body = input.strip_suffix(b"\n").unwrap_or(input);
    let none = if input.is_empty() { 1 } else { 0 };
    body.split(|&b| b == b'\n').skip(none)
}

fn say_item(out: &mut Vec<u8>, word: &str, id: AllocId, r: Rectangle) {
    let (row, generation) = parts(id);
    say(
        out,
        word,
        &[
            i64::from(row),
            i64::from(generation),
            i64::from(r.min.x),
            i64::from(r.min.y),
            i64::from(r.max.x),
            i64::from(r.max.y),
        ],
    );
}

/// A word and numbers, one space between, and a newline. The answers have no negative numbers.
fn say(out: &mut Vec<u8>, word: &str, numbers: &[i64]) {
    let start = out.len();
    out.extend_from_slice(word.as_bytes());
    for &n in numbers {
        assert!(n >= 0);
        if out.len() > start {
            out.push(b' ');
        }
        let first = out.len();
        let mut rest = n;
        loop {
            out.push(b'0' + (rest % 10) as u8);
            rest /= 10;
            if rest == 0 {
                break;
            }
        }
        out[first..].reverse();
    }
    out.push(b'\n');
}
