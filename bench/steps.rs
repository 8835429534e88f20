// One driver, two allocators: the same requests go to the Rust and to Plytimber's calls without the audit, and every answer is compared. Each call goes
// through a function of its own, so that bench/steps.sh can count its instructions.
mod random;
use etagere::{point2, size2, AllocId, Allocation, AllocatorOptions, AtlasAllocator, Rectangle};
use random::Random;

const NONE: u16 = 65535;
const SHELF_ROWS: usize = 4_000;
const ITEM_ROWS: usize = 20_000;

#[repr(C)]
#[derive(Clone, Copy)]
struct Header {
    width: u16,
    height: u16,
    align_width: u16,
    align_height: u16,
    vertical: u16,
    shelf_width: u16,
    used_shelves: u16,
    used_items: u16,
    free_items: u16,
    free_shelves: u16,
    occupied: u32,
}

#[repr(C)]
struct HostGrant {
    answer: u32,
    row: u32,
    generation: u32,
    x0: u32,
    y0: u32,
    x1: u32,
    y1: u32,
}

#[repr(C)]
struct HostCount {
    answer: u32,
    count: u32,
}

extern "C" {
    fn bench_allocate(header: *mut Header, shelves: *mut u16, s: usize, items: *mut u16, i: usize, w: i32, height: i32) -> HostGrant;
    fn bench_release(header: *mut Header, shelves: *mut u16, s: usize, items: *mut u16, i: usize, row: u16, generation: u16) -> u32;
    fn bench_look_up(header: Header, shelves: *const u16, s: usize, items: *const u16, i: usize, row: u16, generation: u16) -> HostGrant;
    fn bench_list(header: Header, shelves: *const u16, s: usize, items: *const u16, i: usize, out: *mut u16, o: usize) -> HostCount;
}

#[inline(never)]
fn rust_allocate(a: &mut AtlasAllocator, w: i32, h: i32) -> Option<Allocation> {
    a.allocate(size2(w, h))
}

#[inline(never)]
fn rust_release(a: &mut AtlasAllocator, id: AllocId) {
    a.deallocate(id)
}

#[inline(never)]
fn rust_look_up(a: &AtlasAllocator, id: AllocId) -> Rectangle {
    a.get(id)
}

#[inline(never)]
fn rust_list(a: &AtlasAllocator, out: &mut [(AllocId, Rectangle)]) -> usize {
    let mut count = 0;
    for (to, live) in out.iter_mut().zip(a.iter()) {
        *to = (live.id, live.rectangle);
        count += 1;
    }
    count
}

fn corners(r: Rectangle) -> [i32; 4] {
    [r.min.x, r.min.y, r.max.x, r.max.y]
}

fn row_of(id: AllocId) -> (u16, u16) {
    let id = id.serialize();
    (id as u16, (id >> 16) as u16)
}

struct Both {
    rust: AtlasAllocator,
    header: Header,
    shelves: Vec<u16>,
    items: Vec<u16>,
    live: Vec<AllocId>,
    listed: Vec<(AllocId, Rectangle)>,
    out: Vec<u16>,
    calls: [u64; 4],
}

impl Both {
    fn new(side: u16, align: (u16, u16), columns: u16) -> Both {
        let options = AllocatorOptions { alignment: size2(align.0 as i32, align.1 as i32), vertical_shelves: false, num_columns: columns as i32 };
        let rust = AtlasAllocator::with_options(size2(side as i32, side as i32), &options);
        let width = side / columns - side / columns % align.0;
        let header = Header {
            width: side,
            height: side,
            align_width: align.0,
            align_height: align.1,
            vertical: 0,
            shelf_width: width,
            used_shelves: columns,
            used_items: columns,
            free_items: NONE,
            free_shelves: NONE,
            occupied: 0,
        };
        let mut shelves = vec![0; 8 * SHELF_ROWS];
        let mut items = vec![0; 9 * ITEM_ROWS];
        for k in 0..columns {
            let prev = if k == 0 { NONE } else { k - 1 };
            let next = if k + 1 == columns { NONE } else { k + 1 };
            let (s, i) = (8 * k as usize, 9 * k as usize);
            shelves[s..s + 8].copy_from_slice(&[k * width, 0, side, prev, next, k, k, 1]);
            items[i..i + 9].copy_from_slice(&[k * width, width, NONE, NONE, NONE, NONE, k, 0, 1]);
        }
        let nowhere = Rectangle { min: point2(0, 0), max: point2(0, 0) };
        let listed = vec![(AllocId::deserialize(0), nowhere); ITEM_ROWS];
        Both { rust, header, shelves, items, live: Vec::new(), listed, out: vec![0; 6 * ITEM_ROWS], calls: [0; 4] }
    }

    fn allocate(&mut self, w: i32, h: i32) {
        self.calls[0] += 1;
        let theirs = rust_allocate(&mut self.rust, w, h);
        let ours = unsafe { bench_allocate(&mut self.header, self.shelves.as_mut_ptr(), self.shelves.len(), self.items.as_mut_ptr(), self.items.len(), w, h) };
        match theirs {
            Some(a) => {
                assert_eq!((ours.answer, ours.row, ours.generation), (0, row_of(a.id).0 as u32, row_of(a.id).1 as u32), "one id");
                assert_eq!([ours.x0, ours.y0, ours.x1, ours.y1].map(|n| n as i32), corners(a.rectangle), "one rectangle");
                self.live.push(a.id);
            }
            None => assert_eq!(ours.answer, 6, "refused"),
        }
        assert_eq!(self.header.occupied as i32, self.rust.allocated_space(), "occupied");
    }

    fn release(&mut self, at: usize) {
        self.calls[1] += 1;
        let id = self.live.swap_remove(at);
        let (row, generation) = row_of(id);
        rust_release(&mut self.rust, id);
        let answer = unsafe { bench_release(&mut self.header, self.shelves.as_mut_ptr(), self.shelves.len(), self.items.as_mut_ptr(), self.items.len(), row, generation) };
        assert_eq!((answer, self.header.occupied as i32), (0, self.rust.allocated_space()), "released");
    }

    fn look_up(&mut self, at: usize) {
        self.calls[2] += 1;
        let id = self.live[at];
        let (row, generation) = row_of(id);
        let theirs = rust_look_up(&self.rust, id);
        let ours = unsafe { bench_look_up(self.header, self.shelves.as_ptr(), self.shelves.len(), self.items.as_ptr(), self.items.len(), row, generation) };
        assert_eq!(ours.answer, 0, "found");
        assert_eq!([ours.x0, ours.y0, ours.x1, ours.y1].map(|n| n as i32), corners(theirs), "looked up");
    }

    fn list(&mut self) {
        self.calls[3] += 1;
        let count = rust_list(&self.rust, &mut self.listed);
        let ours = unsafe { bench_list(self.header, self.shelves.as_ptr(), self.shelves.len(), self.items.as_ptr(), self.items.len(), self.out.as_mut_ptr(), self.out.len()) };
        assert_eq!((ours.answer, ours.count as usize), (0, count), "as many");
        let told: Vec<[i32; 6]> = self.out[..6 * count].chunks(6).map(|r| [0, 1, 2, 3, 4, 5].map(|k| r[k] as i32)).collect();
        let asked: Vec<[i32; 6]> = self.listed[..count]
            .iter()
            .map(|&(id, r)| {
                let c = corners(r);
                [row_of(id).0 as i32, row_of(id).1 as i32, c[0], c[1], c[2], c[3]]
            })
            .collect();
        assert_eq!(told, asked, "listed");
    }
}

fn main() {
    let load = std::env::args().nth(1).expect("churn or labels");
    let (mut both, sides, live) = match load.as_str() {
        "churn" => (Both::new(2048, (4, 8), 2), (8, 120), 300),
        "labels" => (Both::new(2048, (1, 1), 1), (8, 40), 2000),
        _ => panic!("churn or labels"),
    };
    let seed = std::env::args().nth(2).map_or(0x9e3779b97f4a7c15, |n| n.parse().expect("a seed"));
    let mut random = Random(seed);
    let mut side = |random: &mut Random| sides.0 + random.below((sides.1 - sides.0 + 1) as u64) as i32;
    for turn in 0..6000 {
        if both.live.len() < live || random.below(2) == 0 {
            let (w, h) = (side(&mut random), side(&mut random));
            both.allocate(w, h);
        } else {
            let at = random.below(both.live.len() as u64) as usize;
            both.release(at);
        }
        if !both.live.is_empty() {
            let at = random.below(both.live.len() as u64) as usize;
            both.look_up(at);
        }
        if turn % 200 == 199 {
            both.list();
        }
    }
    let [allocate, release, look_up, list] = both.calls;
    println!("{allocate} {release} {look_up} {list} {}", both.live.len());
}
