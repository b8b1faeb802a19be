//! Single questions: those that no script reaches, what beyond a length stays as it was, and the cabinets.

use peer::*;

use crate::bench::*;

#[test]
fn question_1_at_make_and_later() {
    let mut bench = Bench::new(3, 2, 8);
    assert_eq!(refused(bench.make(2, 3)), 1);
    assert_eq!(refused(bench.make(3, 0)), 1);
    assert_eq!(refused(bench.make(3, 3)), 1);
    // A refused make leaves the site as it was.
    bench.change(0, given(1, 1)).unwrap();
    bench.books.push(Entry::default());
    assert_eq!(bench.call(300), Err(Fault::Controller { refusal: Refusal::NotMade, controller: 300 }));
    assert_eq!(bench.lose(9), Err(Fault::Message { refusal: Refusal::NotMade, message: 9 }));
    bench.books.pop();
    bench.pool.push(Message::default());
    assert_eq!(refused(bench.lookup(0, 0, 0)), 1);
    bench.pool.pop();
    bench.lookup(0, 0, 0).unwrap();
}

#[test]
fn question_4_at_forged_messages() {
    let entry = Entry { view: PlainView::default(), change: given(1, 1) };
    let forged = |sender, addressee, count, controller, body| Message {
        sender,
        addressee,
        view: PlainView { count, controller },
        body,
    };
    let plain = |count, controller| PlainView { count, controller };
    let bad = [
        forged(3, 1, 0, 0, Body::Invitation),
        forged(0, 3, 0, 0, Body::Invitation),
        forged(0, 65_535, 0, 0, Body::Form),
        forged(0, 1, 16_384, 0, Body::Form),
        forged(0, 1, 0, 3, Body::Form),
        forged(0, 1, 0, 0, Body::Normal { current: plain(16_384, 0), length: 0, primary: false }),
        forged(0, 1, 0, 0, Body::Normal { current: plain(0, 3), length: 0, primary: false }),
        forged(0, 1, 0, 0, Body::Normal { current: plain(0, 0), length: 5, primary: false }),
        forged(0, 1, 0, 0, Body::Crash { current: plain(0, 7) }),
        forged(0, 1, 0, 0, Body::Entry { place: 5, entry }),
        forged(0, 1, 0, 0, Body::Entry { place: 1, entry: Entry { view: plain(0, 3), ..entry } }),
        forged(0, 1, 0, 0, Body::Entry { place: 1, entry: Entry { view: plain(16_384, 0), ..entry } }),
        forged(0, 0, 0, 0, Body::Acknowledgement { length: 5 }),
    ];
    for message in bad {
        let mut bench = Bench::new(3, 4, 8);
        bench.change(0, given(1, 1)).unwrap();
        bench.pass(0, 1, 1).unwrap();
        bench.pool[0] = message;
        bench.crash(1).unwrap();
        assert_eq!(refused(bench.deliver(0)), 4, "{message:?}");
        bench.lose(0).unwrap();
    }
    // A place of 0 passes 4 and fails at 10, and so does a length beyond the primary's own.
    let mut bench = Bench::new(3, 4, 8);
    bench.change(0, given(1, 1)).unwrap();
    bench.pass(0, 1, 1).unwrap();
    bench.pool[0] = forged(0, 1, 0, 0, Body::Entry { place: 0, entry });
    assert_eq!(refused(bench.deliver(0)), 10);
    bench.pool[0] = forged(2, 0, 0, 0, Body::Acknowledgement { length: 2 });
    assert_eq!(refused(bench.deliver(0)), 10);
    // An entry that reaches the primary itself makes its own acknowledged length grow too.
    bench.pool[0] = forged(1, 0, 0, 0, Body::Entry { place: 2, entry });
    bench.deliver(0).unwrap();
    assert!(matches!(bench.site.controllers()[0].status, Status::Active(Some(lengths)) if lengths[0] == Some(2)));
}

#[test]
fn question_9_where_the_chosen_primary_crashed() {
    let mut bench = Bench::new(3, 4, 16);
    bench.call(1).unwrap();
    bench.invite(1, 0).unwrap();
    bench.deliver(0).unwrap();
    bench.deliver(1).unwrap();
    assert_eq!(bench.form(1).unwrap().chosen, number(0));
    bench.crash(0).unwrap();
    bench.recover(0).unwrap();
    assert_eq!(refused(bench.deliver(2)), 9);
}

#[test]
fn question_13_after_all_counts() {
    let mut bench = Bench::with(3, 1, 8, Tray::new([16_383; CELLS]));
    for _ in 0..16_383 {
        bench.call(2).unwrap();
    }
    assert_eq!(bench.site.controllers()[2].promised, view(16_383, 2));
    // The cell is worn too, but 13 is asked first.
    assert_eq!(refused(bench.call(2)), 13);
}

#[test]
fn question_15_names_cell_and_controller() {
    let mut bench = Bench::with(3, 1, 8, Tray::new([5, 0, 5, 5, 5, 5, 5]));
    let fault = Fault::Worn { worn: Worn { cell: 1 }, controller: 1 };
    assert_eq!(bench.call(1), Err(fault));
    bench.call(0).unwrap();
    bench.invite(0, 1).unwrap();
    assert_eq!(bench.deliver(0), Err(fault));
}

#[test]
fn question_16_at_used_cells() {
    let mut bench = Bench::new(3, 1, 8);
    bench.call(2).unwrap();
    assert_eq!(bench.make(3, 1), Err(Fault::Controller { refusal: Refusal::CellsUsed, controller: 0 }));
    // Cells from n on are not asked about.
    let mut tray = Tray::new([1; CELLS]);
    tray.put(3, CellRecord::new(View::ZERO, view(1, 3)).unwrap()).unwrap();
    Bench::with(3, 1, 8, tray);
}

#[test]
fn question_17_at_what_is_made_from_numbers() {
    assert!(Place::new(0).is_err() && Place::new(1).is_ok() && Place::new(65_535).is_ok());
    assert!(ViewCount::new(16_383).is_ok() && ViewCount::new(16_384).is_err());
    assert!(ControllerNumber::new(6).is_ok() && ControllerNumber::new(7).is_err());
    assert_eq!(Stamp::new(0, 7, 1), Err(Refusal::BadForm));
    assert_eq!(Slip::take_up(0, 0, 0), Err(Refusal::BadForm));
    assert_eq!(CellRecord::new(view(1, 1), view(1, 0)), Err(Refusal::BadForm));
    assert!(CellRecord::new(view(1, 1), view(1, 1)).is_ok());
}

#[test]
fn an_outdated_invitation_is_refused_and_a_full_pool_is_asked_first() {
    let mut bench = Bench::with(3, 1, 8, Tray::new([9, 0, 9, 9, 9, 9, 9]));
    bench.call(0).unwrap();
    bench.invite(0, 1).unwrap();
    for _ in 0..7 {
        bench.invite(0, 2).unwrap();
    }
    assert_eq!(refused(bench.invite(0, 2)), 14);
    assert_eq!(refused(bench.deliver(0)), 14);
    bench.lose(7).unwrap();
    assert_eq!(refused(bench.deliver(0)), 15);
    bench.deliver(1).unwrap();
    assert_eq!(refused(bench.deliver(1)), 8);
}

#[test]
fn memory_beyond_lengths_and_counts_stays() {
    let mut bench = Bench::new(3, 3, 8);
    bench.change(0, given(1, 1)).unwrap();
    bench.change(0, given(2, 2)).unwrap();
    bench.pass(0, 1, 1).unwrap();
    bench.pass(0, 1, 2).unwrap();
    let (books, pool) = (bench.books.clone(), bench.pool.clone());
    bench.crash(0).unwrap();
    assert_eq!(bench.books, books);
    bench.lose(0).unwrap();
    assert_eq!(bench.pool[0], pool[1]);
    assert_eq!(bench.pool[1], pool[1]);
    assert_eq!(bench.site.count(), 1);
}

#[test]
fn a_lost_change() {
    let mut bench = Bench::new(3, 3, 16);
    let slip = bench.change(0, given(1, 1)).unwrap();
    bench.call(1).unwrap();
    bench.invite(1, 2).unwrap();
    bench.deliver_last().unwrap();
    bench.deliver_last().unwrap();
    bench.form(1).unwrap();
    bench.deliver_last().unwrap();
    assert_eq!(bench.settle(0, slip), Ok("waiting"));
    assert_eq!(bench.settle(1, slip), Ok("waiting"));
    bench.join(2, 1).unwrap();
    assert_eq!(bench.settle(1, slip), Ok("waiting"));
    bench.deliver_last().unwrap();
    assert_eq!(bench.settle(1, slip), Ok("lost"));
    // The controller of a slip is not asked about; a later view is.
    assert_eq!(bench.settle(1, (0, 6, 9)), Ok("lost"));
    assert_eq!(bench.settle(1, (1, 1, 1)), Ok("waiting"));
    assert_eq!(refused(bench.settle(1, (1, 2, 1))), 8);
}

#[test]
fn tray_and_strip_show_the_same() {
    let mut bytes = vec![0; 7 * 8 * 3];
    let mut strip = Strip::new(&mut bytes);
    let mut tray = Tray::new([3; CELLS]);
    for (cell, count) in [(0, 1), (6, 1), (6, 2), (0, 4), (6, 3), (6, 4), (7, 1), (65_535, 1), (0, 5), (0, 6)] {
        let record = CellRecord::new(view(count - 1, 0), view(count, 6)).unwrap();
        assert_eq!(strip.put(cell, record), tray.put(cell, record));
        for cell in [0, 1, 5, 6, 7, 300] {
            assert_eq!(strip.held(cell), tray.held(cell));
            assert_eq!(strip.worn(cell), tray.worn(cell));
            assert_eq!(strip.left(cell), tray.left(cell));
        }
    }
    assert_eq!(Strip::check(&bytes), Ok(()));
    // Made again of the same bytes, it holds the same.
    let strip = Strip::new(&mut bytes);
    assert_eq!((strip.held(0), strip.left(0)), (tray.held(0), tray.left(0)));
}

#[test]
fn the_form_of_a_strip() {
    let checked = |bytes: &[u8]| Strip::check(bytes).is_ok();
    for size in [0, 8, 55, 57, 63, 57_343, 57_345, 57_400] {
        assert!(!checked(&vec![0; size]), "{size}");
    }
    for size in [56, 112, 560, 57_344] {
        assert!(checked(&vec![0; size]), "{size}");
    }
    let good = [1, 0, 5, 1, 0, 128, 0, 0];
    let with = |place: usize, slot: [u8; 8]| {
        let mut bytes = [0; 112];
        bytes[0..8].copy_from_slice(&good);
        bytes[place..place + 8].copy_from_slice(&slot);
        bytes
    };
    assert!(checked(&with(8, good)));
    // Bytes of an empty slot are free but for the first.
    assert!(checked(&with(8, [0, 9, 9, 9, 9, 9, 9, 9])));
    // A filled slot after an empty one, in the second part.
    assert!(!checked(&with(24, good)));
    assert!(checked(&with(16, good)));
    for slot in [
        [2, 0, 5, 1, 0, 128, 0, 0],
        [1, 0, 5, 1, 0, 128, 0, 1],
        [1, 0, 5, 7, 0, 128, 0, 0],
        [1, 0, 5, 1, 0, 128, 7, 0],
        [1, 0, 5, 1, 64, 0, 0, 0],
        [1, 0, 5, 1, 0, 5, 0, 0],
    ] {
        let mut bytes = with(8, slot);
        assert!(!checked(&bytes), "{slot:?}");
        let before = bytes;
        let mut strip = Strip::new(&mut bytes);
        assert_eq!(strip.held(0), CellRecord::ZERO);
        assert_eq!(strip.put(3, CellRecord::ZERO), Err(Worn { cell: 3 }));
        assert_eq!(bytes, before);
    }
}
