//! What docs/GUARANTEE.md says, and nobody proves, of when a view can be formed; tried on random runs.

use std::collections::HashSet;

use peer::desk::{Desk, Ending, Outcome};
use peer::generate::Maker;
use peer::random::Random;
use peer::script::{CabinetSetup, KindName, Setup, Step};
use peer::*;

use crate::bench::number;

/// A site of cards, with memory and writes enough for all that is tried here.
struct Building {
    desk: Desk<'static, CardChange>,
    n: u16,
}

impl Building {
    fn new(n: u16) -> Building {
        let setup = Setup { kind: KindName::Cards, n, cap: 200, pool: 400, cabinet: CabinetSetup::Tray(65_535) };
        let (desk, made) = Desk::open(&setup, &mut []);
        made.unwrap();
        Building { desk, n }
    }

    fn record(&self, c: u16) -> Controller {
        self.desk.site.controllers()[usize::from(c)]
    }

    fn cell(&self, c: u16) -> CellRecord {
        self.desk.cabinet.held(c)
    }

    fn members(&self) -> impl Iterator<Item = u16> + use<> {
        0..self.n
    }

    /// Those whose bits are set.
    fn some(&self, bits: u32) -> Vec<u16> {
        self.members().filter(|c| bits >> c & 1 == 1).collect()
    }

    /// What c would answer to an invitation to a later view; who is down recovers before.
    fn answer(&self, c: u16) -> Answer {
        let Controller { complete, current, length, primary, .. } = self.record(c);
        match complete {
            true => Answer::Normal { view: current, length, primary: primary == number(c) },
            false => Answer::Crash { view: self.cell(c).current() },
        }
    }

    /// Whether a majority has promised a view later than this.
    fn has_left(&self, view: View) -> bool {
        let left = self.members().filter(|c| self.cell(*c).promised() > view).count();
        left >= usize::from(majority(self.n))
    }

    /// The step has to be taken.
    fn take(&mut self, step: Step) -> Outcome {
        let outcome = self.desk.step(&step);
        assert!(!matches!(outcome, Outcome::Refused(_)), "{step:?} {outcome:?}");
        outcome
    }

    /// The message that was sent last is delivered and lost; what it brought about comes after it in the pool.
    fn bring_last(&mut self) {
        let j = self.desk.site.count() - 1;
        self.take(Step::Deliver { j });
        self.take(Step::Lose { j });
    }

    /// Who is down among these recovers, and the one with the latest promise calls a view. Only these answer; the others
    /// of them join who is chosen.
    fn form(&mut self, among: &[u16]) -> u16 {
        while self.desk.site.count() > 0 {
            self.take(Step::Lose { j: 0 });
        }
        for &i in among.iter().filter(|c| !self.record(**c).is_up()).collect::<Vec<_>>() {
            self.take(Step::Recover { i });
        }
        let i = among.iter().copied().max_by_key(|c| self.cell(*c).promised()).unwrap();
        self.take(Step::Call { i });
        for &b in among.iter().filter(|b| **b != i) {
            self.take(Step::Invite { i, b });
            self.bring_last();
            self.bring_last();
        }
        let Outcome::Formed(Choice { chosen, .. }) = self.take(Step::Form { i }) else { unreachable!() };
        let p = chosen.get();
        self.bring_last();
        for &i in among.iter().filter(|i| **i != p) {
            self.take(Step::Join { i, p });
            self.bring_last();
        }
        p
    }

    /// A change at the primary i is passed to all of these, and confirmed.
    fn confirm(&mut self, i: u16, among: &[u16]) {
        let Outcome::Slip(Stamp { view, place }) = self.take(Step::Change { i, x: [0; 3] }) else { unreachable!() };
        for &b in among.iter().filter(|b| **b != i) {
            self.take(Step::Pass { i, b, k: place.get() });
            self.bring_last();
            self.bring_last();
        }
        let (count, controller, place) = (view.count.get(), view.controller.get(), place.get());
        assert_eq!(self.take(Step::Settle { i, count, controller, place }), Outcome::Settled(Ending::Confirmed));
    }
}

/// Where a majority would answer so that a rule holds, these alone can form a view, open it, join it and go on.
#[test]
fn a_view_is_formed_where_answers_that_allow_it_can_be_had() {
    let mut rules = [0; 4];
    let mut none = 0;
    for seed in 0..1_000 {
        let mut random = Random::new(seed);
        let mut building = Building::new(random.from_to(3, 7));
        let steps = random.from_to(20, 400);
        let mut maker = Maker::new(KindName::Cards, Random::new(seed + 100_000));
        for _ in 0..steps {
            let step = maker.choose(&building.desk);
            let outcome = building.desk.step(&step);
            maker.note(&step, &outcome);
        }
        if building.members().any(|c| building.cell(c).promised().count.next().is_none()) {
            continue;
        }
        let mut allowed = Vec::new();
        for bits in 0..1 << building.n {
            let among = building.some(bits);
            let mut answers = [None; CELLS];
            for &c in &among {
                answers[usize::from(c)] = Some(building.answer(c));
            }
            allowed.extend(choose(building.n, &answers).map(|choice| (among, choice)));
        }
        if allowed.is_empty() {
            none += 1;
            continue;
        }
        let (among, Choice { rule, chosen }) = &allowed[random.below(allowed.len())];
        rules[usize::from(*rule)] += 1;
        let primary = building.form(among);
        assert_eq!(primary, chosen.get());
        building.confirm(primary, among);
    }
    assert!(rules[1..].iter().all(|times| *times > 50) && none > 50, "{rules:?}, {none}");
}

/// All are active in one view. Its primary and others lose their power, so that less than a majority keeps its book:
/// no view is formed any more.
#[test]
fn none_is_formed_where_the_primary_and_a_majority_lost_their_books() {
    for seed in 0..300 {
        let mut random = Random::new(seed);
        let n = random.from_to(3, 7);
        let mut building = Building::new(n);
        let all: Vec<u16> = building.members().collect();
        let mut primary = 0;
        for _ in 0..random.below(3) {
            primary = building.form(&all);
        }
        building.confirm(primary, &all);
        let mut books = usize::from(n);
        for i in [primary].into_iter().chain(all.into_iter().filter(|c| *c != primary)) {
            if books >= usize::from(majority(n)) || random.chance(200) {
                building.take(Step::Crash { i });
                books -= 1;
            }
        }
        let mut maker = Maker::new(KindName::Cards, random);
        for _ in 0..400 {
            let step = maker.choose(&building.desk);
            let outcome = building.desk.step(&step);
            assert!(!matches!(outcome, Outcome::Formed(_)), "seed {seed}");
            maker.note(&step, &outcome);
        }
    }
}

/// Once a majority has promised later views, a primary still takes changes, and confirms none of these in its view.
#[test]
fn a_primary_whom_nobody_told_confirms_no_new_change() {
    let (mut taken, mut later) = (0, 0);
    for seed in 0..600 {
        let mut random = Random::new(seed);
        let mut building = Building::new(random.from_to(3, 7));
        let mut maker = Maker::new(KindName::Cards, random);
        let mut late = HashSet::new();
        for _ in 0..400 {
            let step = maker.choose(&building.desk);
            let outcome = building.desk.step(&step);
            maker.note(&step, &outcome);
            match (step, outcome) {
                (_, Outcome::Slip(stamp)) if building.has_left(stamp.view) => {
                    late.insert(stamp);
                }
                (Step::Settle { i, count, controller, place }, Outcome::Settled(Ending::Confirmed)) => {
                    let stamp = Stamp::new(count, controller, place).unwrap();
                    if late.contains(&stamp) {
                        assert!(building.record(i).current > stamp.view, "seed {seed}");
                        later += 1;
                    }
                }
                _ => {}
            }
        }
        taken += late.len();
    }
    assert!(taken > 100 && later > 0, "{taken} taken, {later} confirmed in a later view");
}
