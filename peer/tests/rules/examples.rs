//! The worked examples of the rules, section 16.

use peer::*;

use crate::bench::*;

#[test]
fn majorities() {
    assert_eq!([3, 4, 7].map(majority), [2, 3, 4]);
}

#[test]
fn views() {
    assert!(view(1, 2) < view(2, 0));
    assert!(view(1, 2) < view(1, 3));
}

#[test]
fn a_slot() {
    let mut bytes = [0; 56];
    let record = CellRecord::new(view(5, 1), view(128, 0)).unwrap();
    let mut strip = Strip::new(&mut bytes);
    strip.put(0, record).unwrap();
    assert_eq!(strip.held(0), record);
    assert_eq!(bytes[..8], [0x01, 0x00, 0x05, 0x01, 0x00, 0x80, 0x00, 0x00]);
    assert!(bytes[8..].iter().all(|byte| *byte == 0));
}

#[test]
fn forming() {
    let normal =
        |count, controller, length, primary| Some(Answer::Normal { view: view(count, controller), length, primary });
    let crash = |count, controller| Some(Answer::Crash { view: view(count, controller) });
    let formed = |zero, one, two| choose(3, &[zero, one, two, None, None, None, None]);
    let choice = |rule, chosen| Some(Choice { rule, chosen: number(chosen) });
    assert_eq!(formed(None, normal(0, 0, 0, false), crash(0, 0)), None);
    assert_eq!(formed(normal(0, 0, 0, true), None, crash(0, 0)), choice(3, 0));
    assert_eq!(formed(None, normal(1, 1, 0, true), crash(0, 0)), choice(2, 1));
    assert_eq!(formed(None, normal(0, 0, 3, false), normal(0, 0, 5, false)), choice(1, 2));
    assert_eq!(formed(None, normal(0, 0, 5, false), normal(0, 0, 5, false)), choice(1, 1));
}

#[test]
fn forming_beyond_the_table() {
    let normal =
        |count, controller, length, primary| Some(Answer::Normal { view: view(count, controller), length, primary });
    let crash = |count, controller| Some(Answer::Crash { view: view(count, controller) });
    let formed = |zero, one, two| choose(3, &[zero, one, two, None, None, None, None]);
    let choice = |rule, chosen| Some(Choice { rule, chosen: number(chosen) });
    // One answer is no majority, and crash answers alone allow nothing.
    assert_eq!(formed(normal(9, 0, 9, true), None, None), None);
    assert_eq!(formed(crash(0, 0), crash(0, 0), crash(0, 0)), None);
    // Rule 1 does not mind a later crash answer.
    assert_eq!(formed(normal(1, 0, 1, false), normal(1, 0, 2, false), crash(7, 2)), choice(1, 1));
    // A later view counts more than a greater length.
    assert_eq!(formed(normal(1, 0, 9, false), normal(2, 0, 1, false), None), choice(1, 1));
    // Rule 3 asks for the primary of the latest view, not of another.
    assert_eq!(choose(5, &[normal(1, 0, 3, true), normal(2, 0, 1, false), crash(2, 0), None, None, None, None]), None);
    assert_eq!(
        choose(5, &[normal(2, 0, 3, true), normal(2, 0, 4, false), crash(2, 0), None, None, None, None]),
        choice(3, 1)
    );
}

#[test]
fn a_full_book() {
    let mut bench = Bench::new(3, 2, 8);
    assert_eq!(bench.change(0, given(1, 1)), Ok((0, 0, 1)));
    assert_eq!(bench.change(0, given(1, 1)), Ok((0, 0, 2)));
    assert_eq!(refused(bench.change(0, given(1, 1))), 11);
}

#[test]
fn card_questions() {
    let entry = |change| Entry { view: PlainView::default(), change };
    let mut book = vec![entry(given(7, 9))];
    let ask = |book: &[Entry<CardChange>], card, door| lookup(book, question(card, door));
    assert_eq!(ask(&book, 7, 3), Light::Green);
    assert_eq!(ask(&book, 7, 1), Light::Red);
    assert_eq!(ask(&book, 8, 3), Light::Red);
    book.push(entry(withdrawn(7, 8)));
    assert_eq!(ask(&book, 7, 3), Light::Red);
    assert_eq!(ask(&book, 7, 0), Light::Green);
    assert_eq!(ask(&book, 7, 16), Light::Red);
}

#[test]
fn hours_questions() {
    let book =
        |opening, shutting| [Entry { view: PlainView::default(), change: HoursChange { door: 2, opening, shutting } }];
    let day = book(480, 1_080);
    let minutes = [479, 480, 1_079, 1_080].map(|minute| lookup(&day, question(2, minute)));
    assert_eq!(minutes, [Light::Red, Light::Green, Light::Green, Light::Red]);
    assert_eq!(lookup(&day, question(3, 0)), Light::Green);
    assert_eq!(lookup(&book(600, 600), question(2, 600)), Light::Red);
}

#[test]
fn a_change_through_a_view_change() {
    let mut bench = Bench::new(3, 4, 16);
    let x = given(7, 9);
    let slip = bench.change(0, x).unwrap();
    assert_eq!(slip, (0, 0, 1));
    assert_eq!(bench.settle(0, slip), Ok("waiting"));
    bench.pass(0, 1, 1).unwrap();
    assert_eq!(bench.deliver_last(), Ok(MessageKind::Entry));
    assert_eq!(bench.deliver_last(), Ok(MessageKind::Acknowledgement));
    assert_eq!(bench.settle(0, slip), Ok("confirmed"));
    bench.crash(0).unwrap();
    bench.call(1).unwrap();
    let Status::Manager(answers) = bench.site.controllers()[1].status else { panic!("no manager") };
    assert_eq!(answers[1], Some(Answer::Normal { view: View::ZERO, length: 1, primary: false }));
    assert_eq!(bench.site.controllers()[1].promised, view(1, 1));
    bench.invite(1, 2).unwrap();
    assert_eq!(bench.deliver_last(), Ok(MessageKind::Invitation));
    assert_eq!(bench.deliver_last(), Ok(MessageKind::Normal));
    assert_eq!(bench.form(1), Ok(Choice { rule: 1, chosen: number(1) }));
    assert_eq!(bench.deliver_last(), Ok(MessageKind::Form));
    assert_eq!(bench.book(1), [Entry { view: PlainView::default(), change: x }]);
    assert_eq!(bench.settle(1, slip), Ok("waiting"));
    bench.join(2, 1).unwrap();
    assert_eq!(bench.book(2), bench.book(1));
    assert_eq!(bench.deliver_last(), Ok(MessageKind::Acknowledgement));
    assert_eq!(bench.settle(1, slip), Ok("confirmed"));
}
