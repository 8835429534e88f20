// An atlas of so many empty columns, with freed rows up to so many used shelf and item rows, is saved and loaded into other tables; all must agree. Each call
// has a name of its own, so that bench/images.sh can count its instructions. Prints the number of blocks.
const NONE: u16 = 65535;

#[repr(C)]
#[derive(Clone, Copy)]
struct Header {
    numbers: [u16; 10],
    occupied: u32,
}

extern "C" {
    fn bench_save(header: Header, shelves: *const u16, s: usize, items: *const u16, i: usize, out: *mut u8, o: usize) -> u32;
    fn bench_load(image: *const u8, n: usize, shelves: *mut u16, s: usize, items: *mut u16, i: usize) -> u32;
    fn bench_audit(header: Header, shelves: *const u16, s: usize, items: *const u16, i: usize) -> u32;
}

fn save(h: Header, shelves: &[u16], items: &[u16], out: &mut [u8]) -> usize {
    // The tables pass, which is what `bench_save` asks.
    unsafe { bench_save(h, shelves.as_ptr(), shelves.len(), items.as_ptr(), items.len(), out.as_mut_ptr(), out.len()) as usize }
}

fn main() {
    let rows: Vec<u16> = std::env::args().skip(1).map(|a| a.parse().expect("a number")).collect();
    let [columns, used_shelves, used_items] = rows[..] else { panic!("columns, shelf rows, item rows") };
    let (mut shelves, mut items) = (Vec::new(), Vec::new());
    for c in 0..columns {
        let next = if c + 1 < columns { c + 1 } else { NONE };
        shelves.extend([c * 20, 0, 100, if c > 0 { c - 1 } else { NONE }, next, c, c, 1]);
        items.extend([c * 20, 20, NONE, NONE, NONE, NONE, c, 0, 1]);
    }
    // The freed rows, each of which names the next.
    let after = |r, used| if r + 1 < used { r + 1 } else { NONE };
    for r in columns..used_shelves {
        shelves.extend([0, 0, 0, 0, after(r, used_shelves), 0, 0, 0]);
    }
    for r in columns..used_items {
        items.extend([0, 0, 0, after(r, used_items), 0, 0, 0, 0, 1]);
    }
    let first_freed = |used| if columns < used { columns } else { NONE };
    let limits = [columns * 20, 100, 1, 1, 0, 20];
    let used = [used_shelves, used_items, first_freed(used_items), first_freed(used_shelves)];
    let h = Header { numbers: [limits.as_slice(), &used].concat().try_into().unwrap(), occupied: 0 };
    let blocks = 1 + used_shelves.div_ceil(31) as usize + used_items.div_ceil(28) as usize;
    let mut image = vec![0u8; 512 * blocks];
    assert_eq!(save(h, &shelves, &items, &mut image), image.len());
    let (mut shelves2, mut items2) = (vec![7u16; shelves.len()], vec![7u16; items.len()]);
    let answer = unsafe { bench_load(image.as_ptr(), image.len(), shelves2.as_mut_ptr(), shelves2.len(), items2.as_mut_ptr(), items2.len()) };
    assert_eq!((answer, &shelves2, &items2), (0, &shelves, &items));
    let audit = unsafe { bench_audit(h, shelves2.as_ptr(), shelves2.len(), items2.as_ptr(), items2.len()) };
    assert_eq!(audit, 0);
    println!("{blocks}");
}
