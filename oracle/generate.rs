//! Scripts from a seed. Each begins with a readable `n`, which begins anew whatever stood before, so
//! scripts can follow one another in one input. The Rust runs alongside: a script releases ids that
//! are live, and aims requests at the free stretches there are.

extern crate script;

use script::{Answer, Line, Session};

/// splitmix64: small, and the same everywhere.
pub struct Rng(u64);

impl Rng {
    pub fn new(seed: u64, index: u64) -> Rng {
        let mut rng = Rng(seed ^ index.wrapping_mul(0xd1342543de82ef95));
        rng.next();
        rng
    }

    fn next(&mut self) -> u64 {
        self.0 = self.0.wrapping_add(0x9e3779b97f4a7c15);
        let mut z = self.0;
        z = (z ^ (z >> 30)).wrapping_mul(0xbf58476d1ce4e5b9);
        z = (z ^ (z >> 27)).wrapping_mul(0x94d049bb133111eb);
        z ^ (z >> 31)
    }

    /// From `from` to `to`, both included; `from` if there is nothing between.
    fn range(&mut self, from: i32, to: i32) -> i32 {
        if to <= from {
            return from;
        }
        from + (self.next() % (to as i64 - from as i64 + 1) as u64) as i32
    }

    fn chance(&mut self, percent: i32) -> bool {
        self.range(0, 99) < percent
    }

    fn pick<T: Copy>(&mut self, from: &[T]) -> T {
        from[(self.next() % from.len() as u64) as usize]
    }

    fn some(&mut self, count: i32, from: i32, to: i32) -> Vec<i32> {
        (0..count).map(|_| self.range(from, to)).collect()
    }
}

pub struct Script {
    pub kind: &'static str,
    pub text: Vec<u8>,
}

/// The kinds come in turn, so that a few scripts already hold one of each.
pub const KINDS: [&str; 15] = [
    "bands",
    "remainders",
    "alignments",
    "columns",
    "vertical",
    "churn",
    "search",
    "clear",
    "reuse",
    "tiny",
    "large",
    "creates",
    "noise",
    "full",
    "mixed",
];

/// Script number `index` of a seed, of about `lines` lines ("full" has more where its tables need them).
pub fn script(seed: u64, index: u64, lines: usize) -> Script {
    let kind = KINDS[(index % KINDS.len() as u64) as usize];
    let turn = index / KINDS.len() as u64;
    let mut maker = Maker::new(Rng::new(seed, index));
    let goal = lines / 2 + maker.rng.range(0, lines as i32) as usize;
    match kind {
        "creates" => maker.creates(goal),
        // The long form, with full item rows, is for every eighth.
        "full" if turn % 8 == 1 => maker.full_items(goal),
        // The shelf rows are used up soon; a driver that has to count rows is slow from there.
        "full" => {
            let plan = plan(kind, &mut maker.rng, goal as i32);
            maker.run(&plan, goal.min(120));
        }
        _ => {
            let plan = plan(kind, &mut maker.rng, goal as i32);
            maker.run(&plan, goal);
        }
    }
    Script { kind, text: maker.text }
}

/// What a run draws from. Sizes are along and deep; the atlas may be vertical.
struct Plan {
    n: [i32; 6],
    along: Vec<i32>,
    deep: Vec<i32>,
    /// Percent of the requests that are aimed at a free stretch, and that fill one.
    aimed: i32,
    filling: i32,
    /// Percent of the atlas to fill before releases get as frequent as requests.
    fill: i32,
    /// Lines of a thousand that clear, and that have something wrong.
    clear: i32,
    wrong: i32,
}

/// Lines that are not readable, or just so, with bars between.
const ODD: &str = "| |  |-|0|1|a|a |a 1|a 1 |a 1 2 | a 1 2|a  1 2|a 1  2|a\t1 2|a 1\t2|a 1 2\r|\r|\t|A 1 2|a +1 2|a 1 +2|\
    a 01 2|a 1 02|a -01 2|a 00 1|a -00 1|a -0 5|a 5 -0|a - 2|a 1 -|a --1 2|a -1 2|a 1 2 3|a 1,2|a 1 2.0|a 0x1 2|a 1e1 2|\
    a1 2|aa 1 2|a 2147483647 1|a 2147483648 1|a 1 -2147483648|a 1 -2147483649|a 4294967296 1|a 4294967297 9|\
    a 9999999999 1|a 10000000000 1|a 18446744073709551617 9|a 340282366920938463463374607431768211457 9|\
    r|r 0|r 0 1 2|r -0 1|r 0 -0|g -0 1|g 0|g 0 1 |s |s 0|S|ss|l |l 1|L|c |c 0|C|clear|n|n 10|n 10 10 1 1 0|\
    n 10 10 1 1 0 1 1|n 10 10 1 1 0 1 |n 010 10 1 1 0 1|n 10 10 1 1 0 2147483648|d 1 2|\0";

/// The numbers of an `n` line from sizes and alignments along and deep.
fn turned(size: (i32, i32), align: (i32, i32), vertical: bool, columns: i32) -> [i32; 6] {
    if vertical {
        [size.1, size.0, align.1, align.0, 1, columns]
    } else {
        [size.0, size.1, align.0, align.1, 0, columns]
    }
}

/// Of an `n` line that is accepted; else the plan is drawn again, and any number does.
fn shelf_width(n: &[i32; 6]) -> i32 {
    script::limits(n).map_or(1, |l| l.shelf_width as i32)
}

/// Round the band ends, the steps of both neighbouring bands, and a few between.
const DEPTHS: [i32; 56] = [
    1, 7, 8, 9, 15, 16, 17, 23, 24, 25, 30, 31, 32, 33, 34, 39, 40, 41, 47, 48, 49, 63, 64, 65, 111, 112, 113, 126,
    127, 128, 129, 130, 143, 144, 145, 159, 160, 161, 255, 256, 257, 479, 480, 481, 510, 511, 512, 513, 514, 543, 544,
    545, 575, 576, 577, 640,
];

/// Mostly not powers of two.
const ALIGNMENTS: [i32; 18] = [1, 2, 3, 4, 5, 6, 7, 8, 9, 10, 11, 12, 13, 16, 24, 25, 33, 100];

fn plan(kind: &str, rng: &mut Rng, lines: i32) -> Plan {
    loop {
        let plan = draw(kind, rng, lines);
        if script::limits(&plan.n).is_ok() {
            return plan;
        }
    }
}

fn draw(kind: &str, rng: &mut Rng, lines: i32) -> Plan {
    let vertical = kind == "vertical" || rng.chance(20);
    let kind = match kind {
        "vertical" => rng.pick(&["bands", "remainders", "alignments", "columns", "search", "tiny", "churn"]),
        "mixed" => rng.pick(&["bands", "remainders", "alignments", "columns", "search", "tiny", "churn", "reuse"]),
        _ => kind,
    };
    let mut plan =
        Plan { n: [0; 6], along: vec![], deep: vec![], aimed: 30, filling: 0, fill: 80, clear: 2, wrong: 20 };
    match kind {
        "bands" => {
            let (w, h) = (rng.range(100, 1200), rng.pick(&[577, 600, 640, 700, 1000, 1024, 1100, 1500, 2048, 4096]));
            let align = (rng.pick(&[1, 1, 4, 8]), rng.pick(&[1, 1, 1, 2, 3, 8]));
            plan.n = turned((w, h), align, vertical, rng.range(1, 3));
            plan.along = rng.some(6, 1, shelf_width(&plan.n) / 2);
            plan.deep = DEPTHS.to_vec();
            plan.aimed = 15;
        }
        "remainders" => {
            // A rounded depth can leave 8 or 9 only in an atlas of such a depth.
            let (w, h) = (rng.range(18, 300), 8 * rng.range(2, 20) + rng.pick(&[0, 0, 1, 1, 7]));
            let align = (rng.pick(&[1, 1, 1, 2, 3, 9]), rng.pick(&[1, 1, 8]));
            plan.n = turned((w, h), align, vertical, rng.pick(&[1, 1, 2, 3]));
            plan.along = rng.some(6, 1, shelf_width(&plan.n));
            plan.deep = rng.some(6, 1, h);
            plan.aimed = 75;
        }
        "alignments" => {
            let (w, h) = (rng.range(150, 1500), rng.range(150, 1500));
            let align = (rng.pick(&ALIGNMENTS), rng.pick(&ALIGNMENTS));
            plan.n = turned((w, h), align, vertical, rng.range(1, 3));
            plan.along = rng.some(8, 1, shelf_width(&plan.n) / 2);
            plan.deep = rng.some(8, 1, h / 3);
        }
        "columns" => {
            let columns = rng.pick(&[1, 2, 3, 4, 5, 7, 12, 13, 16, 31, 64, 100, 200, 400]);
            let share = rng.range(9, 100);
            let (w, h) = (columns * share + rng.range(0, columns - 1), rng.range(8, 300));
            let align = (rng.pick(&[1, 1, 2, 3, 8]), rng.pick(&[1, 1, 5, 8]));
            plan.n = turned((w, h), align, vertical, columns);
            plan.along = rng.some(5, 1, share);
            plan.deep = rng.some(5, 1, h);
        }
        "churn" => {
            // So small that a third of the lines fill it, of pieces that pack well.
            let step = rng.pick(&[8, 12, 16, 20]);
            let (across, down) = (rng.range(4, 12), rng.range(2, 2 + lines / 24));
            let depth = rng.pick(&[8, 16, 24, 32, 48]);
            plan.n = turned((step * across * 2, depth * down), (rng.pick(&[1, 1, 4]), 1), vertical, rng.range(1, 2));
            plan.along = vec![step, step, step * 2, step * 2, step * 3, step - 1, step + 1];
            plan.deep = vec![depth, depth, depth, depth - 1, depth / 2, depth * 2];
            plan.fill = 90;
            plan.aimed = 10;
            plan.filling = 40;
        }
        "search" => {
            let (s, h) = (rng.range(40, 240), rng.range(100, 900));
            let columns = rng.pick(&[1, 1, 1, 2, 3]);
            plan.n = turned((s * columns, h), (1, 1), vertical, columns);
            plan.along = rng.some(6, s / 6, s * 2 / 3);
            plan.deep = rng.some(5, 1, h / 3);
            plan.deep.extend([8, 9, 16, 24, 25, 40, 60]);
            plan.aimed = 25;
            plan.fill = 95;
        }
        "clear" => {
            let (w, h) = (rng.range(20, 400), rng.range(20, 400));
            plan.n = turned((w, h), (rng.pick(&[1, 3, 8]), rng.pick(&[1, 8])), vertical, rng.range(1, 4));
            plan.along = rng.some(5, 1, shelf_width(&plan.n));
            plan.deep = rng.some(5, 1, h / 2);
            plan.clear = 60;
        }
        "reuse" => {
            // Few pieces, and the same rows again and again.
            let (w, h) = (rng.range(30, 90), rng.range(16, 120));
            plan.n = turned((w, h), (1, 1), vertical, rng.range(1, 2));
            plan.along = rng.some(3, 5, 30.min(shelf_width(&plan.n)));
            plan.deep = rng.some(3, 5, 40.min(h));
            plan.fill = 60;
        }
        "tiny" | "noise" => {
            // An odd D whose half matters needs one of the three depths named.
            let h = if rng.chance(15) { rng.pick(&[2, 5, 14]) } else { rng.range(1, 60) };
            let w = rng.range(1, 60);
            let align = (rng.pick(&[1, 1, 1, 2, 3, 5]), rng.pick(&[1, 1, 1, 2, 3, 5]));
            plan.n = turned((w, h), align, vertical, rng.range(1, 4));
            plan.along = rng.some(4, 1, shelf_width(&plan.n));
            plan.deep = rng.some(4, 1, h);
            plan.aimed = 50;
            if kind == "noise" {
                plan.wrong = 500;
            }
        }
        "large" => {
            let w = rng.pick(&[65535, 65534, 65528, 65472, 46340, 32768, 32767, 300, 9, 1]);
            let h = rng.pick(&[65527, 65526, 65519, 65518, 65472, 46340, 32768, 32767, 300, 17, 1]);
            let h = h.min((2147483647i64 / w as i64) as i32);
            plan.n = turned(
                (w, h),
                (rng.pick(&[1, 1, 1, 7, 256]), rng.pick(&[1, 1, 1, 7, 256])),
                vertical,
                rng.pick(&[1, 1, 2, 7]),
            );
            let s = shelf_width(&plan.n);
            plan.along = rng.some(6, 1, s);
            plan.along.extend([s, s - 1, s - 8, s - 9, s / 2, 1].map(|x| x.max(1)));
            plan.deep = rng.some(6, 1, h);
            plan.deep.extend([h, h - 1, h - 8, h - 9, h - 63, h - 64, h / 2, h * 2 / 3, 1].map(|x| x.max(1)));
        }
        "full" => {
            // Nearly as many columns as there are shelf rows: a few shelf splits use up the rest.
            let columns = rng.range(480, 512);
            let share = rng.range(20, 100);
            let h = rng.range(20, 120);
            plan.n = turned((columns * share, h), (1, 1), vertical, columns);
            plan.along = rng.some(5, share / 3, share);
            plan.deep = vec![1, 8, 9, 16, h / 2, h - 8, h];
        }
        _ => unreachable!("a kind without a plan"),
    }
    if rng.chance(50) {
        plan.wrong = plan.wrong.min(500) / 4;
    }
    plan
}

struct Maker {
    rng: Rng,
    session: Session,
    text: Vec<u8>,
    lines: usize,
    live: Vec<(u16, u16)>,
    gone: Vec<(u16, u16)>,
}

impl Maker {
    fn new(rng: Rng) -> Maker {
        Maker { rng, session: Session::new(), text: Vec::new(), lines: 0, live: Vec::new(), gone: Vec::new() }
    }

    fn say(&mut self, line: impl AsRef<[u8]>) -> Answer {
        let line = line.as_ref();
        self.text.extend_from_slice(line);
        self.text.push(b'\n');
        self.lines += 1;
        let answer = self.session.step(line, &mut Vec::new());
        match (script::read(line), answer) {
            (Some(Line::New(_)), _) | (Some(Line::Clear), Answer::Ok) => self.gone.append(&mut self.live),
            (_, Answer::Granted(row, generation)) => self.live.push((row, generation)),
            (Some(Line::Release(row, _)), Answer::Ok) => {
                if let Some(at) = self.live.iter().position(|id| i32::from(id.0) == row) {
                    self.gone.push(self.live.remove(at));
                }
            }
            _ => {}
        }
        answer
    }

    fn create(&mut self, n: &[i32; 6]) -> Answer {
        let [x, y, align_x, align_y, vertical, columns] = n;
        self.say(format!("n {x} {y} {align_x} {align_y} {vertical} {columns}"))
    }

    fn ask(&mut self, along: i32, deep: i32) -> Answer {
        let vertical = self.session.limits().map_or(false, |l| l.vertical);
        let (x, y) = if vertical { (deep, along) } else { (along, deep) };
        self.say(format!("a {x} {y}"))
    }

    fn release(&mut self, at: usize) {
        let (row, generation) = self.live[at];
        self.say(format!("r {row} {generation}"));
    }

    fn run(&mut self, plan: &Plan, goal: usize) {
        self.create(&plan.n);
        self.work(plan, goal);
        self.close(plan);
    }

    fn work(&mut self, plan: &Plan, goal: usize) {
        let mut refused = 0;
        while self.lines < goal {
            let roll = self.rng.range(0, 999);
            if roll < plan.clear {
                self.say("c");
                continue;
            }
            if roll < plan.clear + plan.wrong {
                self.wrong(plan);
                continue;
            }
            match self.rng.range(0, 99) {
                0 => {
                    self.say("s");
                }
                1 => {
                    self.say("l");
                }
                2 | 3 if !self.live.is_empty() => {
                    let (row, generation) = self.rng.pick(&self.live);
                    self.say(format!("g {row} {generation}"));
                }
                4 => {
                    // A whole run of releases, so that shelves become empty and merge.
                    let count = self.rng.range(2, if plan.filling > 0 { 5 } else { 30 });
                    let newest = self.rng.chance(50);
                    for _ in 0..count.min(self.live.len() as i32) {
                        self.release(if newest { self.live.len() - 1 } else { 0 });
                    }
                }
                _ => {
                    let full = self.session.percent() >= i64::from(plan.fill) || refused > 2;
                    if self.live.is_empty() || self.rng.chance(if full { 45 } else { plan.fill }) {
                        let (along, deep) = self.size(plan);
                        match self.ask(along, deep) {
                            Answer::Granted(..) => refused = 0,
                            _ => refused += 1,
                        }
                    } else {
                        let last = self.live.len() - 1;
                        let at = match self.rng.range(0, 3) {
                            0 => last,
                            1 => 0,
                            _ => self.rng.range(0, last as i32) as usize,
                        };
                        self.release(at);
                        refused = (refused - 1).max(0);
                    }
                }
            }
        }
    }

    fn size(&mut self, plan: &Plan) -> (i32, i32) {
        let (mut along, mut deep) = (self.rng.pick(&plan.along), self.rng.pick(&plan.deep));
        let filling = self.rng.chance(plan.filling);
        if !filling && !self.rng.chance(plan.aimed) {
            return (along, deep);
        }
        let mut free = self.session.stretches();
        free.retain(|s| s.free);
        if free.is_empty() {
            return (along, deep);
        }
        let aim = &free[self.rng.range(0, free.len() as i32 - 1) as usize];
        let (width, depth) = (aim.width as i32, aim.depth as i32);
        if filling {
            return (width.min(along), depth.min(plan.deep[0]));
        }
        if self.rng.chance(75) {
            along = (width - self.rng.pick(&[0, 0, 1, 7, 8, 9, 10, 16, 17, 18])).max(1);
        }
        if self.rng.chance(75) {
            // Round the shelf split, and round the depth from which the shelf is a bad fit.
            deep = match self.rng.range(0, 9) {
                0 | 1 => depth,
                2 => depth - 7,
                3 => depth - 8,
                4 => depth - 9,
                5 => depth * 2 / 3,
                6 => depth * 2 / 3 + 1,
                7 => depth * 2 / 3 - 1,
                8 => depth / 2,
                _ => depth / 3,
            }
            .max(1);
        }
        (along, deep)
    }

    /// Shows what is left, then empties the atlas and grants again: that shows the order of the freed rows.
    fn close(&mut self, plan: &Plan) {
        self.say("s");
        self.say("l");
        if self.live.len() > 300 || self.rng.chance(40) {
            return;
        }
        let order = self.rng.range(0, 2);
        while !self.live.is_empty() {
            let last = self.live.len() - 1;
            let at = match order {
                0 => 0,
                1 => last,
                _ => self.rng.range(0, last as i32) as usize,
            };
            self.release(at);
        }
        for _ in 0..self.rng.range(2, 6) {
            let (along, deep) = self.size(plan);
            self.ask(along, deep);
        }
        self.say("s");
        self.say("l");
    }

    /// A line that is refused, or nearly.
    fn wrong(&mut self, plan: &Plan) {
        match self.rng.range(0, 5) {
            0 => {
                let letter = self.rng.pick(&["r", "g"]);
                let (row, generation) = self.odd_id();
                self.say(format!("{letter} {row} {generation}"));
            }
            1 => {
                let (s, h) = self.session.limits().map_or((1, 1), |l| (l.shelf_width as i32, l.h as i32));
                let odd =
                    [0, -1, 1, s, s + 1, h, h + 1, 65535, 65536, 65537, 131072, i32::MAX, i32::MIN, i32::MAX - 65535];
                let (mut along, mut deep) = self.size(plan);
                match self.rng.range(0, 2) {
                    0 => along = self.rng.pick(&odd),
                    1 => deep = self.rng.pick(&odd),
                    _ => (along, deep) = (self.rng.pick(&odd), self.rng.pick(&odd)),
                }
                self.ask(along, deep);
            }
            2 => {
                // Refused or not, it ends this atlas; a few lines later the plan's own begins.
                if self.rng.chance(30) {
                    let n = self.odd_n();
                    self.create(&n);
                    for _ in 0..self.rng.range(0, 3) {
                        self.any(plan);
                    }
                    self.create(&plan.n);
                }
            }
            _ => {
                let line = self.odd_line();
                self.say(&line);
                if let Some(Line::New(_)) = script::read(&line) {
                    self.create(&plan.n);
                }
            }
        }
    }

    fn any(&mut self, plan: &Plan) {
        match self.rng.range(0, 6) {
            0 => {
                self.say("s");
            }
            1 => {
                self.say("l");
            }
            2 => {
                self.say("c");
            }
            3 => {
                let letter = self.rng.pick(&["r", "g"]);
                let (row, generation) = self.odd_id();
                self.say(format!("{letter} {row} {generation}"));
            }
            4 => {
                let line = self.odd_line();
                // An `n` here would undo the one whose answer is being tried.
                if !line.starts_with(b"n") {
                    self.say(line);
                }
            }
            _ => {
                let (along, deep) = self.size(plan);
                self.ask(along, deep);
            }
        }
    }

    fn odd_id(&mut self) -> (i32, i32) {
        let known = if !self.live.is_empty() && self.rng.chance(60) {
            self.rng.pick(&self.live)
        } else if !self.gone.is_empty() && self.rng.chance(80) {
            self.rng.pick(&self.gone)
        } else {
            (self.rng.range(0, 12) as u16, self.rng.range(0, 3) as u16)
        };
        let (row, generation) = (i32::from(known.0), i32::from(known.1));
        match self.rng.range(0, 9) {
            0 => (row, generation + 1),
            1 => (row, generation - 1),
            2 => (row + 1, generation),
            3 => (row, 0),
            4 => (row + 65536, generation),
            5 => (row, generation + 65536),
            6 => (self.rng.pick(&[-1, 65535, 65536, 2047, 2048, i32::MAX, i32::MIN]), generation),
            7 => (row, self.rng.pick(&[-1, 65535, 65536, i32::MAX, i32::MIN])),
            _ => (row, generation),
        }
    }

    fn odd_n(&mut self) -> [i32; 6] {
        let sides = [
            i32::MIN,
            -65536,
            -1,
            0,
            1,
            2,
            8,
            9,
            100,
            511,
            512,
            513,
            1000,
            32767,
            32768,
            32769,
            46340,
            46341,
            65472,
            65519,
            65526,
            65527,
            65528,
            65534,
            65535,
            65536,
            65537,
            131072,
            i32::MAX,
        ];
        let usual = [1, 2, 9, 16, 40, 41, 100, 512, 1000];
        let aligns = [i32::MIN, -1, 0, 1, 2, 3, 8, 9, 16, 100, 101, 32768, 65534, 65535, 65536, i32::MAX];
        let usual_aligns = [1, 1, 1, 2, 3, 8];
        let columns = [i32::MIN, -1, 0, 1, 2, 3, 7, 100, 101, 511, 512, 513, 514, 1000, 65535, 65536, i32::MAX];
        let mut n = [0; 6];
        for (i, place) in n.iter_mut().enumerate() {
            // One or two odd numbers among usual ones, so that each check is reached.
            let odd = self.rng.chance(25);
            *place = match (i, odd) {
                (0 | 1, true) => self.rng.pick(&sides),
                (0 | 1, false) => self.rng.pick(&usual),
                (2 | 3, true) => self.rng.pick(&aligns),
                (2 | 3, false) => self.rng.pick(&usual_aligns),
                (4, true) => self.rng.pick(&[-1, 0, 1, 2, 3, i32::MIN, i32::MAX, 256, 65536, 65537]),
                (4, false) => self.rng.pick(&[0, 1]),
                (_, true) => self.rng.pick(&columns),
                (_, false) => self.rng.pick(&[1, 1, 2, 3]),
            };
        }
        if self.rng.chance(10) {
            // Just inside and just outside of the area limit; the pair has the largest area there is.
            let w = self.rng.range(32774, 65535);
            let h = (2147483647 / w as i64) as i32 + self.rng.range(0, 1);
            let (w, h) = self.rng.pick(&[(w, h), (h, w), (49981, 42966)]);
            (n[0], n[1]) = (w, h);
        }
        if self.rng.chance(15) {
            // Round the number of columns that the tables take.
            let (share, columns) = (self.rng.range(1, 20), self.rng.range(510, 514));
            n = turned((share * columns, self.rng.range(1, 60)), (1, 1), self.rng.chance(30), columns);
        }
        n
    }

    /// Mostly not readable.
    fn odd_line(&mut self) -> Vec<u8> {
        match self.rng.range(0, 9) {
            0 => {
                // Round the longest line, and far past any buffer.
                let length = self.rng.pick(&[79, 80, 81, 82, 160, 255, 256, 257, 1000, 5000, 70000]) as usize;
                let start: &[u8] = self.rng.pick(&[b"a 1 2", b"s", b"a ", b"n 100 100 1 1 0 1", b""]);
                let mut line = start.to_vec();
                line.resize(length, self.rng.pick(b" 01x\xff"));
                line
            }
            1..=3 => {
                // A good line with one byte added, lost or changed.
                let good: &[u8] = self.rng.pick(&[
                    b"a 12 10",
                    b"r 0 1",
                    b"g 2 1",
                    b"n 40 50 1 8 0 2",
                    b"s",
                    b"l",
                    b"c",
                    b"a -7 2147483647",
                ]);
                let mut line = good.to_vec();
                let byte = self.rng.pick(b"  -0019\r\tas+.\0\x80\xff/:");
                let at = self.rng.range(0, line.len() as i32) as usize;
                match self.rng.range(0, 2) {
                    0 => line.insert(at, byte),
                    1 if at < line.len() => {
                        line.remove(at);
                    }
                    _ if at < line.len() => line[at] = byte,
                    _ => line.push(byte),
                }
                line
            }
            _ => self.rng.pick(&ODD.split('|').collect::<Vec<_>>()).as_bytes().to_vec(),
        }
    }

    /// One create after another, good and refused, with a few lines after each.
    fn creates(&mut self, goal: usize) {
        let plan = plan("tiny", &mut self.rng, goal as i32);
        while self.lines < goal {
            let n = self.odd_n();
            self.create(&n);
            for _ in 0..self.rng.range(0, 4) {
                self.any(&plan);
            }
        }
    }

    /// Uses up the item rows, then goes on near that.
    fn full_items(&mut self, goal: usize) {
        let vertical = self.rng.chance(20);
        let mut plan = plan("tiny", &mut self.rng, goal as i32);
        // Without shelf splits: one long shelf, or many columns.
        if self.rng.chance(50) {
            plan.n = turned((65535, 16), (1, 1), vertical, 1);
        } else {
            plan.n = turned((480 * 127, 16), (1, 1), vertical, 480);
        }
        plan.along = vec![9, 10, 18, 20];
        plan.deep = vec![1, 9, 16];
        plan.aimed = 5;
        plan.wrong = 10;
        self.create(&plan.n);
        let mut full = false;
        while !full && self.lines < 2500 {
            // Not aimed: that would give the long shelf away at once.
            let (along, deep) = (self.rng.pick(&plan.along), self.rng.pick(&plan.deep));
            full = self.ask(along, deep) == Answer::No(7);
        }
        let end = self.lines + goal.min(120);
        self.work(&plan, end);
        self.say("s");
        self.say("l");
    }
}

/// Lines before the first good `n`. Only of use at the start of an input.
pub fn start(seed: u64, index: u64) -> Script {
    let mut maker = Maker::new(Rng::new(!seed, index));
    let plan = plan("tiny", &mut maker.rng, 10);
    for line in ["s", "l", "c", "a 0 0", "a 5 5", "r 70000 1", "g 0 1", "r 0 1", "n 0 1 1 1 0 1", "g -1 -1", "x"] {
        if maker.rng.chance(50) {
            maker.say(line);
        }
    }
    for _ in 0..maker.rng.range(0, 5) {
        maker.any(&plan);
    }
    Script { kind: "start", text: maker.text }
}

/// A last line without a newline. Only of use at the end of an input.
pub fn end(seed: u64, index: u64) -> Script {
    let mut maker = Maker::new(Rng::new(!seed, !index));
    maker.say("n 40 40 1 1 0 1");
    maker.say("a 10 10");
    let line = match maker.rng.range(0, 2) {
        0 => maker.odd_line(),
        _ => maker
            .rng
            .pick(&[&b"s"[..], b"l", b"a 5 5", b"r 0 1", b"g 0 1", b"c", b"n 9 9 1 1 0 1", b"x", b" "])
            .to_vec(),
    };
    maker.text.extend(line);
    Script { kind: "end", text: maker.text }
}

/// A row used again until its generation has wrapped from 65535 to 0.
pub fn wrap() -> Script {
    let mut maker = Maker::new(Rng::new(0, 0));
    maker.say("n 100 8 1 1 0 1");
    for turn in 1..=65545 {
        maker.say("a 20 8");
        // Row 1 is granted at the ends only; in between its row is taken and freed unseen.
        if turn < 4 || turn > 65530 {
            if let Answer::Granted(row, generation) = maker.say("a 20 8") {
                maker.say("l");
                maker.say(format!("r {row} {generation}"));
                maker.say(format!("g {row} {generation}"));
            }
        }
        maker.say("r 0 1");
    }
    Script { kind: "wrap", text: maker.text }
}

/// Every run of `length` steps on small atlases: a step asks for one of a few sizes, releases one of the
/// live items, or clears. The sizes leave remainders of 8 and 9, fill shelves, and make good and bad fits.
pub fn every_run(length: usize, each: &mut dyn FnMut(Script)) {
    const SMALL: [(&str, &[&str]); 8] = [
        ("n 20 24 1 1 0 1", &["a 11 8", "a 12 16", "a 9 15"]),
        ("n 27 41 1 1 0 1", &["a 9 32", "a 18 8", "a 8 9"]),
        ("n 40 25 1 1 0 2", &["a 11 16", "a 20 8", "a 8 8"]),
        ("n 28 14 1 1 0 2", &["a 5 14", "a 5 9", "a 3 1"]),
        ("n 40 40 1 1 1 2", &["a 8 11", "a 24 9", "a 32 20"]),
        ("n 31 44 3 5 0 1", &["a 10 7", "a 19 18", "a 9 36"]),
        ("n 12 80 1 1 0 1", &["a 4 24", "a 3 8", "a 12 40"]),
        ("n 30 72 1 1 0 3", &["a 10 16", "a 1 48", "a 10 8"]),
    ];
    for (n, asks) in SMALL {
        let mut text = n.as_bytes().to_vec();
        text.push(b'\n');
        let mut session = Session::new();
        session.step(n.as_bytes(), &mut Vec::new());
        runs(length, asks, &session, &[], &text, each);
    }
}

fn runs(left: usize, asks: &[&str], session: &Session, live: &[(u16, u16)], text: &[u8], each: &mut dyn FnMut(Script)) {
    if left == 0 {
        let mut text = text.to_vec();
        text.extend_from_slice(b"s\nl\n");
        each(Script { kind: "every run", text });
        return;
    }
    let mut steps: Vec<String> = asks.iter().map(|ask| ask.to_string()).collect();
    steps.extend(live.iter().map(|(row, generation)| format!("r {row} {generation}")));
    steps.push("c".to_string());
    for (i, step) in steps.iter().enumerate() {
        let mut session = session.clone();
        let mut live = live.to_vec();
        match session.step(step.as_bytes(), &mut Vec::new()) {
            Answer::Granted(row, generation) => live.push((row, generation)),
            Answer::Ok if step == "c" => live.clear(),
            Answer::Ok => {
                live.remove(i - asks.len());
            }
            Answer::No(_) => {}
        }
        let mut text = text.to_vec();
        text.extend_from_slice(step.as_bytes());
        text.push(b'\n');
        runs(left - 1, asks, &session, &live, &text, each);
    }
}
