//! The crate over the built library: etagere's names, each error where document 01 gives it, and refusals that change nothing.
use plytimber::*;

fn rectangle(x0: i32, y0: i32, x1: i32, y1: i32) -> Rectangle {
    Rectangle::new(Point::new(x0, y0), point2(x1, y1))
}

fn options(align_w: i32, align_h: i32, vertical_shelves: bool, num_columns: i32) -> AllocatorOptions {
    AllocatorOptions { alignment: size2(align_w, align_h), vertical_shelves, num_columns }
}

#[test]
fn whole_case_of_01() {
    let mut atlas = AtlasAllocator::with_options(size2(2048, 2048), &options(4, 8, false, 2));
    assert!(atlas.is_empty());
    let a = atlas.allocate(size2(20, 30)).unwrap();
    let b = atlas.allocate(size2(30, 40)).unwrap();
    let c = atlas.allocate(size2(20, 30)).unwrap();
    assert_eq!([a.id, b.id, c.id], [AllocId::new(0, 1), AllocId::new(2, 1), AllocId::new(3, 1)]);
    assert_eq!([a.rectangle, b.rectangle, c.rectangle], [rectangle(0, 0, 20, 32), rectangle(0, 32, 32, 80), rectangle(20, 0, 40, 32)]);
    assert_eq!(atlas.get(b.id), Ok(b.rectangle));
    assert_eq!(atlas.deallocate(a.id), Ok(()));
    assert_eq!((atlas.allocated_space(), atlas.free_space()), (2176, 4192128));
    assert_eq!(atlas.iter().collect::<Vec<_>>(), [b, c]);
    assert_eq!((&atlas).into_iter().len(), 2);
    assert_eq!(atlas.size(), size2(2048, 2048));
    assert!(!atlas.is_empty());
    atlas.clear();
    assert!(atlas.is_empty());
    assert_eq!(atlas.get(b.id), Err(Error::NoSuchItem));
}

#[test]
fn ids_again() {
    let mut atlas = AtlasAllocator::with_options(size2(2048, 2048), &options(4, 8, false, 2));
    let ids: Vec<AllocId> = [(20, 30), (30, 40), (20, 30)].iter().map(|&(w, h)| atlas.allocate(size2(w, h)).unwrap().id).collect();
    ids.iter().for_each(|&id| atlas.deallocate(id).unwrap());
    let again = [0, 1].map(|_| atlas.allocate(size2(20, 30)).unwrap().id);
    assert_eq!(again, [AllocId::new(0, 1), AllocId::new(3, 2)]);
    assert_eq!(AllocId::deserialize(again[1].serialize()), again[1]);
}

#[test]
fn vertical_shelves_keep_the_size_given() {
    let mut atlas = AtlasAllocator::with_options(size2(300, 700), &options(1, 1, true, 2));
    assert_eq!(atlas.size(), size2(300, 700));
    let a = atlas.allocate(size2(40, 100)).unwrap();
    assert_eq!(a.rectangle, rectangle(0, 0, 48, 100));
    assert_eq!((a.rectangle.width(), a.rectangle.height(), a.rectangle.size(), a.rectangle.area()), (48, 100, size2(48, 100), 4800));
    assert_eq!(atlas.parts().0.shelf_width, 350);
    assert!(!a.rectangle.is_empty() && rectangle(1, 1, 1, 2).is_empty() && rectangle(1, 1, 2, 1).is_empty());
    assert!(!size2(1, 1).is_empty() && Size::new(0, 1).is_empty() && Size::new(1, -1).is_empty());
}

#[test]
fn each_error_of_01() {
    let create = |w, h, o: AllocatorOptions, rows| AtlasAllocator::with_rows(size2(w, h), &o, rows, rows).map(|_| ());
    assert_eq!(create(0, 1, DEFAULT_OPTIONS, 1), Err(Error::BadSize));
    assert_eq!(create(65535, 32768, DEFAULT_OPTIONS, 1), Ok(()));
    assert_eq!(create(65535, 32769, DEFAULT_OPTIONS, 1), Err(Error::BadSize));
    assert_eq!(create(1, 65527, DEFAULT_OPTIONS, 1), Ok(()));
    assert_eq!(create(1, 65528, DEFAULT_OPTIONS, 1), Err(Error::BadSize));
    assert_eq!(create(100, 100, options(0, 1, false, 1), 1), Err(Error::BadOptions));
    assert_eq!(create(100, 100, options(1, 1, false, 0), 1), Err(Error::BadOptions));
    assert_eq!(create(100, 100, options(8, 1, false, 7), 12), Ok(()));
    assert_eq!(create(100, 100, options(8, 1, false, 7), 11), Err(Error::TooFewRows));

    let mut atlas = AtlasAllocator::try_new(size2(100, 40)).unwrap();
    for bad in [0, -1, i32::MIN, 65536, i32::MAX] {
        assert_eq!(atlas.allocate(size2(bad, 1)), Err(Error::BadSide));
        assert_eq!(atlas.allocate(size2(1, bad)), Err(Error::BadSide));
    }
    assert_eq!(atlas.allocate(size2(101, 1)), Err(Error::TooLarge));
    assert_eq!(atlas.allocate(size2(1, 41)), Err(Error::TooLarge));
    let all = atlas.allocate(size2(100, 40)).unwrap();
    assert_eq!(atlas.allocate(size2(1, 1)), Err(Error::NoPlace));
    for dead in [AllocId::new(0, 2), AllocId::new(1, 1), AllocId::new(65535, 1), AllocId::deserialize(u32::MAX)] {
        assert_eq!(atlas.deallocate(dead), Err(Error::NoSuchItem));
        assert_eq!(atlas.get(dead), Err(Error::NoSuchItem));
    }
    assert_eq!(atlas.lent().list(&mut []), Err(Error::ListTooShort));
    assert_eq!(atlas.iter().collect::<Vec<_>>(), [all]);

    let mut full = AtlasAllocator::with_rows(size2(100, 16), &DEFAULT_OPTIONS, 1, 1).unwrap();
    assert_eq!(full.allocate(size2(10, 16)), Err(Error::TooFewRows));
    assert_eq!(full.allocate(size2(100, 16)).map(|a| a.rectangle), Ok(rectangle(0, 0, 100, 16)));
}

#[test]
fn errors_have_names_and_numbers() {
    for (k, error) in Error::ALL.into_iter().enumerate() {
        assert_eq!(error.number(), k as u32 + 1);
        assert_eq!(Error::from_number(error.number()), Some(error));
        assert_eq!(Error::ALL.iter().filter(|e| e.to_string() == error.to_string()).count(), 1, "a text of its own");
        let _: &dyn std::error::Error = &error;
    }
    assert_eq!((Error::from_number(0), Error::from_number(12)), (None, None));
}

#[test]
#[should_panic(expected = "width, height or area")]
fn new_panics_as_etagere_does() {
    AtlasAllocator::new(size2(0, 10));
}

/// An atlas in the middle of larger arrays, with a few numbers on either side and past its rows.
struct Held {
    header: Header,
    shelves: [u16; 100],
    items: [u16; 200],
}

impl Held {
    fn new() -> Held {
        Held { header: Header::default(), shelves: [7; 100], items: [7; 200] }
    }

    fn over(&mut self) -> AtlasIn<'_> {
        AtlasIn::over(&mut self.header, &mut self.shelves[3..90], &mut self.items[5..190])
    }

    fn numbers(&self) -> Vec<u16> {
        [&self.shelves[..], &self.items[..]].concat()
    }
}

#[test]
fn lent_tables_and_nothing_else() {
    let mut held = Held::new();
    let made = AtlasIn::create(&mut held.header, &mut held.shelves[3..90], &mut held.items[5..190], size2(64, 64), &options(1, 1, false, 2));
    let mut atlas = made.unwrap();
    let mut granted = Vec::new();
    let refused = loop {
        match atlas.allocate(size2(5, 6)) {
            Ok(a) => granted.push(a),
            Err(e) => break e,
        }
    };
    assert_eq!(refused, Error::TooFewRows);
    let mut listed = [Live::default(); 30];
    assert_eq!(atlas.list(&mut listed[..granted.len()]), Ok(granted.len()));
    assert_eq!(atlas.list(&mut listed[..granted.len() - 1]), Err(Error::ListTooShort));
    for (k, a) in granted.iter().enumerate() {
        assert!(granted[..k].iter().all(|b| !b.rectangle.intersects(&a.rectangle)));
    }
    assert_eq!(atlas.allocated_space().unwrap(), granted.iter().map(|a| a.rectangle.area()).sum::<i32>());
    for a in granted {
        atlas.deallocate(a.id).unwrap();
    }
    assert_eq!((atlas.is_empty(), atlas.free_space(), atlas.size(), atlas.audit()), (Ok(true), Ok(64 * 64), Ok(size2(64, 64)), Verdict::Passes));
    assert!(held.shelves[..3].iter().chain(&held.shelves[90..]).chain(&held.items[..5]).chain(&held.items[190..]).all(|&n| n == 7));
    assert!(AtlasIn::open(&mut held.header, &mut held.shelves[3..90], &mut held.items[5..190]).is_ok());
}

#[test]
fn refusals_change_nothing() {
    let mut held = Held::new();
    let before = (held.header, held.numbers());
    let refused = AtlasIn::create(&mut held.header, &mut held.shelves[3..90], &mut held.items[5..190], size2(64, 64), &options(1, 1, false, 65));
    assert_eq!(refused.unwrap_err(), Error::BadOptions);
    assert_eq!((held.header, held.numbers()), before);

    // No atlas: every call is refused by the audit, clear too.
    let mut atlas = held.over();
    assert_eq!(atlas.allocate(size2(0, 0)), Err(Error::AuditFails));
    assert_eq!(atlas.deallocate(AllocId::new(0, 1)), Err(Error::AuditFails));
    assert_eq!(atlas.get(AllocId::new(0, 1)), Err(Error::AuditFails));
    assert_eq!(atlas.list(&mut []), Err(Error::AuditFails));
    assert_eq!((atlas.size(), atlas.is_empty()), (Err(Error::AuditFails), Err(Error::AuditFails)));
    assert_eq!((atlas.allocated_space(), atlas.free_space()), (Err(Error::AuditFails), Err(Error::AuditFails)));
    assert_eq!((atlas.clear(), atlas.audit()), (Err(Error::AuditFails), Verdict::Limits));
    assert_eq!((held.header, held.numbers()), before);
}

#[test]
fn damage_is_told_and_can_be_cleared() {
    let damaged = |at: usize, of_items: bool| {
        let mut held = Held::new();
        AtlasIn::create(&mut held.header, &mut held.shelves[3..90], &mut held.items[5..190], size2(64, 64), &DEFAULT_OPTIONS).unwrap();
        held.over().allocate(size2(20, 20)).unwrap();
        *(if of_items { &mut held.items[5 + at] } else { &mut held.shelves[3 + at] }) ^= 1;
        held
    };
    for (mut held, verdict) in [(damaged(2, false), Verdict::Shelves), (damaged(1, true), Verdict::Items), (damaged(6, false), Verdict::Lists)] {
        let before = (held.header, held.numbers());
        assert_eq!(held.over().audit(), verdict);
        assert_eq!(held.over().allocate(size2(1, 1)), Err(Error::AuditFails));
        assert_eq!((held.header, held.numbers()), before);
        assert_eq!(held.over().clear(), Ok(()));
        assert_eq!((held.over().audit(), held.over().is_empty()), (Verdict::Passes, Ok(true)));
    }
}

#[test]
fn tables_of_no_row() {
    let mut header = Header::default();
    assert_eq!(AtlasIn::create(&mut header, &mut [], &mut [], size2(1, 1), &DEFAULT_OPTIONS).unwrap_err(), Error::TooFewRows);
    assert_eq!(AtlasIn::open(&mut header, &mut [], &mut []).unwrap_err(), Error::AuditFails);
}

/// The most rows that items can need: each alone on a shelf between two free stretches, and an empty shelf above and below each such shelf.
fn most_rows(items: usize, shelf_rows: usize, item_rows: usize) -> Result<(), Error> {
    let (width, depth, shelves) = (3600, 16, 2 * items + 1);
    let mut atlas = AtlasAllocator::with_rows(size2(width, depth * shelves as i32), &DEFAULT_OPTIONS, shelf_rows, item_rows)?;
    let mut whole = Vec::new();
    for _ in 0..shelves {
        whole.push(atlas.allocate(size2(width, depth))?.id);
    }
    for k in 0..items {
        // Wider than what is free on the shelves before, so that both go to this one.
        let side = size2(1200 + k as i32, depth);
        atlas.deallocate(whole[2 * k + 1])?;
        let left = atlas.allocate(side)?;
        let kept = atlas.allocate(side)?;
        assert_eq!(kept.rectangle.min, point2(side.width, (2 * k as i32 + 1) * depth));
        atlas.deallocate(left.id)?;
    }
    for id in whole.into_iter().step_by(2) {
        atlas.deallocate(id)?;
    }
    assert_eq!(atlas.iter().len(), items);
    Ok(())
}

#[test]
fn rows_said_to_be_enough_are_and_no_fewer() {
    for n in [1, 2, 9, 300] {
        assert_eq!(most_rows(n, 2 * n + 1, 4 * n + 1), Ok(()));
        assert_eq!(most_rows(n, 2 * n, 4 * n + 1), Err(Error::TooFewRows));
        assert_eq!(most_rows(n, 2 * n + 1, 4 * n), Err(Error::TooFewRows));
    }
}

/// An atlas in use, with freed rows: every kind of block is in its image.
fn in_use(vertical: bool, shelf_rows: usize, item_rows: usize) -> AtlasAllocator {
    let mut atlas = AtlasAllocator::with_rows(size2(900, 800), &options(4, 2, vertical, 3), shelf_rows, item_rows).unwrap();
    let ids: Vec<AllocId> = (0..90).map(|k| atlas.allocate(size2(10 + k * 7 % 50, 8 + k * 13 % 60)).unwrap().id).collect();
    ids.into_iter().step_by(3).for_each(|id| atlas.deallocate(id).unwrap());
    atlas
}

#[test]
fn saved_and_loaded() {
    for vertical in [false, true] {
        let atlas = in_use(vertical, 200, 400);
        let image = atlas.save();
        let header = *atlas.parts().0;
        let (shelf_rows, item_rows) = (header.used_shelves as usize, header.used_items as usize);
        assert!(item_rows > 28, "more than one block of items");
        assert_eq!(image.len(), image_bytes(shelf_rows, item_rows));
        // In tables of all rows, of another length, and of just the rows that are used.
        let loaded =
            [AtlasAllocator::load(&image), AtlasAllocator::load_with_rows(&image, 150, 300), AtlasAllocator::load_with_rows(&image, shelf_rows, item_rows)];
        for again in loaded.map(Result::unwrap) {
            assert_eq!((again.parts().0, again.save()), (atlas.parts().0, image.clone()));
            assert_eq!(again.iter().collect::<Vec<_>>(), atlas.iter().collect::<Vec<_>>());
        }
        // It goes on as the first does.
        let (mut first, mut second) = (atlas.clone(), AtlasAllocator::load_with_rows(&image, 200, 400).unwrap());
        for k in 0..100 {
            assert_eq!(first.allocate(size2(5 + k, 9)), second.allocate(size2(5 + k, 9)));
        }
        assert_eq!(first.save(), second.save());
        assert_eq!(AtlasAllocator::load_with_rows(&image, shelf_rows - 1, item_rows).unwrap_err(), Error::TooFewRows);
        assert_eq!(AtlasAllocator::load_with_rows(&image, shelf_rows, item_rows - 1).unwrap_err(), Error::TooFewRows);
    }
}

#[test]
fn an_image_that_is_not_exactly_so() {
    let image = in_use(false, 200, 400).save();
    let refused = |image: &[u8]| {
        let mut held = Held::new();
        let before = (held.header, held.numbers());
        let error = AtlasIn::load(image, &mut held.header, &mut held.shelves[3..90], &mut held.items[5..190]).unwrap_err();
        assert_eq!((held.header, held.numbers()), before);
        error
    };
    for at in 0..image.len() {
        let mut changed = image.clone();
        changed[at] ^= 1 << (at % 8);
        assert_eq!(refused(&changed), Error::BadImage, "byte {at}");
    }
    for length in [0, 1, 511, 512, image.len() - 512, image.len() - 1] {
        assert_eq!(refused(&image[..length]), Error::BadImage, "{length} bytes");
    }
    assert_eq!(refused(&[&image[..], &[0]].concat()), Error::BadImage);
    assert_eq!(refused(&image), Error::TooFewRows);
}

#[test]
fn an_image_of_no_atlas_leaves_its_rows() {
    let mut held = Held::new();
    AtlasIn::create(&mut held.header, &mut held.shelves[3..90], &mut held.items[5..190], size2(64, 64), &DEFAULT_OPTIONS).unwrap();
    let mut image = [0; image_bytes(1, 1) + 3];
    assert_eq!(held.over().save_to(&mut image[..image_bytes(1, 1) - 1]), Err(Error::ListTooShort));
    assert_eq!(image, [0; image_bytes(1, 1) + 3]);
    image[image_bytes(1, 1)..].fill(9);
    assert_eq!(held.over().save_to(&mut image), Ok(image_bytes(1, 1)));
    assert_eq!(image[image_bytes(1, 1)..], [9; 3]);
    // The first shelf's depth, 64, becomes 63, and the check goes with it.
    for at in [512 + 6 + 4, 512 + 510] {
        let number = u16::from_le_bytes([image[at], image[at + 1]]) - 1;
        image[at..at + 2].copy_from_slice(&number.to_le_bytes());
    }
    let mut other = Held::new();
    let error = AtlasIn::load(&image[..image_bytes(1, 1)], &mut other.header, &mut other.shelves[3..90], &mut other.items[5..190]).unwrap_err();
    assert_eq!((error, other.header), (Error::AuditFails, Header::default()));
    let mut expected = Held::new();
    expected.shelves[3..11].copy_from_slice(&held.shelves[3..11]);
    expected.shelves[3 + 2] = 63;
    expected.items[5..14].copy_from_slice(&held.items[5..14]);
    assert_eq!(other.numbers(), expected.numbers());
}

#[test]
fn a_batch_is_its_single_calls() {
    let start = in_use(true, 60, 130);
    let live: Vec<Allocation> = start.iter().collect();
    let mut requests = Vec::new();
    for (k, a) in live.iter().enumerate() {
        let side = [24, 0, -3, 65536 + 24, 70][k % 5];
        requests.push(Request::allocate(size2(side, 10 + k as i32)));
        requests.push(Request::get(a.id));
        requests.push(Request::deallocate(a.id));
        requests.push(Request::get(a.id));
        requests.push(Request::deallocate(AllocId::new(k as u16, 9)));
    }
    let (mut single, mut whole, mut lent) = (start.clone(), start.clone(), start.clone());
    let mut expected = Vec::new();
    for (k, a) in live.iter().enumerate() {
        expected.push(single.allocate(size2([24, 0, -3, 65536 + 24, 70][k % 5], 10 + k as i32)).map(Some));
        expected.push(single.get(a.id).map(|rectangle| Some(Allocation { id: a.id, rectangle })));
        expected.push(single.deallocate(a.id).map(|()| None));
        expected.push(single.get(a.id).map(|rectangle| Some(Allocation { id: a.id, rectangle })));
        expected.push(single.deallocate(AllocId::new(k as u16, 9)).map(|()| None));
    }
    assert_eq!(whole.batch(&requests), expected);
    assert_eq!(whole.parts(), single.parts());
    assert!([Error::BadSide, Error::NoSuchItem].iter().all(|e| expected.contains(&Err(*e))));

    let mut replies = vec![Reply::default(); requests.len() + 2];
    let short = requests.len() - 1;
    assert_eq!(lent.lent().batch(&requests, &mut replies[..short]), Err(Error::ListTooShort));
    assert_eq!((lent.parts(), replies.iter().all(|r| *r == Reply::default())), (start.parts(), true));
    assert_eq!(lent.lent().batch(&requests, &mut replies), Ok(requests.len()));
    assert_eq!(lent.parts(), single.parts());
    assert_eq!(replies[..requests.len()].iter().map(|r| r.told()).collect::<Vec<_>>(), expected);
    assert_eq!(replies[requests.len()..], [Reply::default(); 2]);

    let mut held = Held::new();
    assert_eq!(held.over().batch(&requests, &mut replies), Err(Error::AuditFails));
    assert_eq!((held.header, whole.batch(&[])), (Header::default(), vec![]));
}

#[test]
fn a_batch_longer_than_a_list_can_be() {
    let mut atlas = AtlasAllocator::with_rows(size2(100, 40), &DEFAULT_OPTIONS, 4, 8).unwrap();
    let id = atlas.allocate(size2(100, 40)).unwrap().id;
    let mut requests = vec![Request::allocate(size2(1, 1)); MOST_ROWS + 2];
    requests[MOST_ROWS] = Request::deallocate(id);
    let told = atlas.batch(&requests);
    assert!(told[..MOST_ROWS].iter().all(|t| *t == Err(Error::NoPlace)));
    assert_eq!(told[MOST_ROWS], Ok(None));
    assert!(matches!(told[MOST_ROWS + 1], Ok(Some(_))));
    assert_eq!(atlas.lent().batch(&requests, &mut vec![Reply::default(); MOST_ROWS]), Ok(MOST_ROWS));
}
