// One driver, three allocators: the same requests go to the library, linked as a host links it, to the Rust, and to the Rust with its `checks`. The run stops where
// answers, ids, rectangles, lists or occupied areas differ. Each call goes through a function of its own, and `part` stands between the parts of a run, so that
// bench/whole.sh can count instructions by function and part.
mod random;
use plytimber::{size2, AllocId, Allocation, AllocatorOptions, AtlasIn, Error, Header, Live, Reply, Request, Verdict, ITEM_NUMBERS, MOST_ROWS, SHELF_NUMBERS};
use random::Random;

const TURNS: usize = 6000;

/// The Rust, and the Rust with `checks`: two crates of one source.
macro_rules! rust_side {
    ($side:ident, $etagere:ident) => {
        mod $side {
            use super::Live;
            use $etagere::{size2, AllocId, Allocation, AllocatorOptions, AtlasAllocator, Rectangle};

            #[inline(never)]
            fn allocate(a: &mut AtlasAllocator, w: i32, h: i32) -> Option<Allocation> {
                a.allocate(size2(w, h))
            }

            #[inline(never)]
            fn release(a: &mut AtlasAllocator, id: AllocId) {
                a.deallocate(id)
            }

            #[inline(never)]
            fn look_up(a: &AtlasAllocator, id: AllocId) -> Rectangle {
                a.get(id)
            }

            pub struct Side(pub AtlasAllocator);

            pub fn told(id: u32, r: Rectangle) -> Live {
                let [x0, y0, x1, y1] = [r.min.x, r.min.y, r.max.x, r.max.y].map(|n| n as u16);
                Live { row: id as u16, generation: (id >> 16) as u16, x0, y0, x1, y1 }
            }

            impl Side {
                pub fn new(side: i32, align: (i32, i32), columns: i32) -> Side {
                    let options = AllocatorOptions { alignment: size2(align.0, align.1), vertical_shelves: false, num_columns: columns };
                    Side(AtlasAllocator::with_options(size2(side, side), &options))
                }

                pub fn allocate(&mut self, w: i32, h: i32) -> Option<Live> {
                    allocate(&mut self.0, w, h).map(|a| told(a.id.serialize(), a.rectangle))
                }

                pub fn release(&mut self, id: u32) {
                    release(&mut self.0, AllocId::deserialize(id))
                }

                pub fn look_up(&self, id: u32) -> Live {
                    told(id, look_up(&self.0, AllocId::deserialize(id)))
                }

                pub fn occupied(&self) -> u32 {
                    self.0.allocated_space() as u32
                }
            }
        }
    };
}
rust_side!(plain, etagere_plain);
rust_side!(checks, etagere_checks);

type Listed = (etagere_plain::AllocId, etagere_plain::Rectangle);

/// Of the plain Rust alone: it checks nothing here, and the compiler would make one function of the two.
#[inline(never)]
fn list(a: &etagere_plain::AtlasAllocator, out: &mut [Listed]) -> usize {
    let mut count = 0;
    for (to, live) in out.iter_mut().zip(a.iter()) {
        *to = (live.id, live.rectangle);
        count += 1;
    }
    count
}

/// What was counted up to here is one part of the run, and what follows is another.
#[inline(never)]
fn part() {
    std::hint::black_box(());
}

type Answer = Result<Option<Allocation>, Error>;

struct Sides {
    ours: AtlasIn<'static>,
    plain: plain::Side,
    checks: checks::Side,
    live: Vec<AllocId>,
    /// Requests in one batch of the library's; 0: each by its single call.
    batch: usize,
    waiting: Vec<(Request, Answer)>,
    replies: Vec<Reply>,
    ours_listed: Vec<Live>,
    listed: Vec<Listed>,
    /// Allocate, release, look-up, list, refused.
    calls: [u64; 5],
}

impl Sides {
    fn new(side: i32, align: (i32, i32), columns: i32) -> Sides {
        let header = Box::leak(Box::new(Header::default()));
        let (shelves, items) = (vec![0; SHELF_NUMBERS * MOST_ROWS].leak(), vec![0; ITEM_NUMBERS * MOST_ROWS].leak());
        let options = AllocatorOptions { alignment: size2(align.0, align.1), vertical_shelves: false, num_columns: columns };
        let nowhere = etagere_plain::Rectangle { min: etagere_plain::point2(0, 0), max: etagere_plain::point2(0, 0) };
        Sides {
            ours: AtlasIn::create(header, shelves, items, size2(side, side), &options).expect("created"),
            plain: plain::Side::new(side, align, columns),
            checks: checks::Side::new(side, align, columns),
            live: Vec::new(),
            batch: 0,
            waiting: Vec::new(),
            replies: vec![Reply::default(); MOST_ROWS],
            ours_listed: vec![Live::default(); MOST_ROWS],
            listed: vec![(etagere_plain::AllocId::deserialize(0), nowhere); MOST_ROWS],
            calls: [0; 5],
        }
    }

    fn header(&self) -> Header {
        *self.ours.parts().0
    }

    fn same_area(&self) {
        assert_eq!(self.header().occupied, self.plain.occupied(), "occupied");
        assert_eq!(self.checks.occupied(), self.plain.occupied(), "the Rust's two builds");
    }

    fn allocate(&mut self, w: i32, h: i32) {
        self.calls[0] += 1;
        let theirs = self.plain.allocate(w, h);
        assert_eq!(self.checks.allocate(w, h), theirs, "the Rust's two builds");
        let theirs = theirs.map(Allocation::from);
        match theirs {
            Some(a) => self.live.push(a.id),
            None => self.calls[4] += 1,
        }
        let expected = theirs.map(Some).ok_or(Error::NoPlace);
        if self.batch > 0 {
            return self.queue(Request::allocate(size2(w, h)), expected);
        }
        assert_eq!(self.ours.allocate(size2(w, h)).map(Some), expected, "allocate");
        self.same_area();
    }

    fn release(&mut self, at: usize) {
        self.calls[1] += 1;
        let id = self.live.swap_remove(at);
        self.plain.release(id.serialize());
        self.checks.release(id.serialize());
        if self.batch > 0 {
            return self.queue(Request::deallocate(id), Ok(None));
        }
        assert_eq!(self.ours.deallocate(id), Ok(()), "release");
        self.same_area();
    }

    fn queue(&mut self, request: Request, expected: Answer) {
        self.waiting.push((request, expected));
        if self.waiting.len() == self.batch {
            self.flush();
        }
    }

    fn flush(&mut self) {
        let requests: Vec<Request> = self.waiting.iter().map(|w| w.0).collect();
        assert_eq!(self.ours.batch(&requests, &mut self.replies), Ok(requests.len()), "batch");
        for ((_, expected), reply) in self.waiting.drain(..).zip(&self.replies) {
            assert_eq!(reply.told(), expected, "in a batch");
        }
        self.same_area();
    }

    fn look_up(&mut self, at: usize) {
        self.calls[2] += 1;
        let id = self.live[at];
        let theirs = self.plain.look_up(id.serialize());
        assert_eq!(self.checks.look_up(id.serialize()), theirs, "the Rust's two builds");
        assert_eq!(self.ours.get(id), Ok(Allocation::from(theirs).rectangle), "look-up");
    }

    fn list(&mut self) {
        self.calls[3] += 1;
        let count = list(&self.plain.0, &mut self.listed);
        assert_eq!(self.ours.list(&mut self.ours_listed), Ok(count), "as many");
        let theirs: Vec<Live> = self.listed[..count].iter().map(|&(id, r)| plain::told(id.serialize(), r)).collect();
        assert_eq!(self.ours_listed[..count], theirs[..], "listed");
    }
}

/// Sides of requests, from and to, and how many items are to be live.
struct Load {
    sides: (i32, i32),
    live: usize,
}

impl Load {
    fn grant(&self, s: &mut Sides, random: &mut Random) {
        let mut side = || self.sides.0 + random.below((self.sides.1 - self.sides.0 + 1) as u64) as i32;
        let (w, h) = (side(), side());
        s.allocate(w, h);
    }

    fn release(&self, s: &mut Sides, random: &mut Random) {
        let at = random.below(s.live.len() as u64) as usize;
        s.release(at);
    }

    /// Below so many live items a request, from there on a request or a release at even odds.
    fn turn(&self, s: &mut Sides, random: &mut Random) {
        if s.live.len() < self.live || random.below(2) == 0 {
            self.grant(s, random);
        } else {
            self.release(s, random);
        }
    }

    /// The turns of bench/steps.rs. In a batch nothing is looked up or listed, but the random numbers are drawn all the same.
    fn turns(&self, s: &mut Sides, random: &mut Random) {
        for turn in 0..TURNS {
            self.turn(s, random);
            if !s.live.is_empty() {
                let at = random.below(s.live.len() as u64) as usize;
                if s.batch == 0 {
                    s.look_up(at);
                }
            }
            if turn % 200 == 199 && s.batch == 0 {
                s.list();
            }
        }
    }

    /// More items are granted than are to be live, then as many released at random, so that there are free items between live ones.
    fn fill(&self, s: &mut Sides, random: &mut Random, granted: usize) {
        while s.live.len() < granted {
            self.grant(s, random);
            look(s);
        }
        while s.live.len() > self.live {
            self.release(s, random);
            look(s);
        }
    }
}

/// A look-up after each request and a list after every 200, with no random number drawn.
fn look(s: &mut Sides) {
    let turn = (s.calls[0] + s.calls[1]) as usize;
    if s.batch == 0 {
        s.look_up(turn % s.live.len());
        if turn % 200 == 0 {
            s.list();
        }
    }
}

// Arguments: the load; for `batch` the requests in one, or 0 for single calls; for `grow` how many items are to be live, and how many are granted before. Other
// requests of the same kind by SEED.
fn main() {
    let args: Vec<String> = std::env::args().skip(1).collect();
    let number = |at: usize| args[at].parse::<usize>().expect("a number");
    let seed = std::env::var("SEED").ok().filter(|s| !s.is_empty());
    let mut random = Random(seed.map_or(0x9e3779b97f4a7c15, |n| n.parse().expect("a seed")));
    let churn = Load { sides: (8, 120), live: 300 };
    let labels = Load { sides: (8, 40), live: 2000 };
    let load = args[0].as_str();
    let mut s = match load {
        "present" | "grow" => Sides::new(16384, (1, 1), 1),
        "churn" | "batch" => Sides::new(2048, (4, 8), 2),
        "uneven" => Sides::new(2048, (6, 10), 2),
        "labels" | "half" => Sides::new(2048, (1, 1), 1),
        other => panic!("{other}: no such load"),
    };
    // What comes before the calls that are counted: quickly, in batches.
    s.batch = 1000;
    match load {
        "batch" => {
            while s.live.len() < churn.live {
                churn.grant(&mut s, &mut random)
            }
        }
        "grow" => Load { sides: (8, 40), live: number(1) }.fill(&mut s, &mut random, number(2)),
        "half" => {
            labels.turns(&mut s, &mut random);
            s.live.sort_by_key(|id| id.row());
        }
        _ => {}
    }
    s.flush();
    (s.batch, s.calls) = (0, [0; 5]);
    part();
    match load {
        "present" => Load { sides: (8, 40), live: 300 }.fill(&mut s, &mut random, 350),
        "churn" | "uneven" => churn.turns(&mut s, &mut random),
        "labels" => labels.turns(&mut s, &mut random),
        // `release` puts the last in place of the one that goes: from the end on, none of those that are still to go is moved.
        "half" => (0..s.live.len()).rev().skip(1).step_by(2).for_each(|at| {
            s.release(at);
            look(&mut s);
        }),
        "batch" => {
            s.batch = number(1);
            (0..TURNS).for_each(|_| churn.turn(&mut s, &mut random));
            assert!(s.waiting.is_empty(), "whole batches");
            s.batch = 0;
        }
        _ => {}
    }
    let ([allocate, release, look_up, list, refused], live) = (s.calls, s.live.len());
    // One more is granted and released: the check at the end of that release is then on the atlas that the library audits.
    part();
    s.allocate(8, 8);
    part();
    s.release(live);
    assert_eq!(s.ours.audit(), Verdict::Passes, "the audit");
    let header = s.header();
    println!("{allocate} {release} {look_up} {list} {refused} {live} {} {}", header.used_shelves, header.used_items);
}
