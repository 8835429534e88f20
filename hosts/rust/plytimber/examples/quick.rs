//! etagere's example; only the line that brings the crate in is another. hosts/rust/run runs it.
#![allow(unused_must_use)] // etagere's deallocate returns nothing, so its example looks at nothing
use plytimber::*;

fn main() {
    let mut atlas = AtlasAllocator::new(size2(1000, 1000));

    let a = atlas.allocate(size2(100, 100)).unwrap();
    let b = atlas.allocate(size2(900, 200)).unwrap();
    println!("Allocated {:?} and {:?}", a.rectangle, b.rectangle);

    atlas.deallocate(a.id);

    let c = atlas.allocate(size2(300, 200)).unwrap();

    atlas.deallocate(c.id);
    atlas.deallocate(b.id);
}
