//! A bench for tests: a site of cards with its memory, and one short method for each step.

use peer::*;

pub struct Bench<C = Tray> {
    pub site: Site,
    pub books: Vec<Entry<CardChange>>,
    pub pool: Vec<Message<CardChange>>,
    pub cabinet: C,
}

pub fn given(card: u16, doors: u16) -> CardChange {
    CardChange { card, doors, given: true }
}

pub fn withdrawn(card: u16, doors: u16) -> CardChange {
    CardChange { card, doors, given: false }
}

pub fn view(count: u16, controller: u16) -> View {
    View::new(count, controller).unwrap()
}

pub fn number(c: u16) -> ControllerNumber {
    ControllerNumber::new(c).unwrap()
}

pub fn question(first: u16, second: u16) -> Question {
    Question { first, second }
}

/// The number of the question that refused.
pub fn refused<T>(result: Result<T, Fault>) -> u16 {
    result.err().expect("a refusal").refusal().number()
}

impl Bench {
    pub fn new(n: u16, cap: u16, room: usize) -> Bench {
        Bench::with(n, cap, room, Tray::new([65_535; CELLS]))
    }
}

impl<C: Cabinet> Bench<C> {
    pub fn with(n: u16, cap: u16, room: usize, cabinet: C) -> Bench<C> {
        let entries = usize::from(n) * usize::from(cap);
        let (books, pool) = (vec![Entry::default(); entries], vec![Message::default(); room]);
        let mut bench = Bench { site: Site::new(), books, pool, cabinet };
        bench.make(n, cap).unwrap();
        bench
    }

    pub fn parts(&mut self) -> (&mut Site, Lent<'_, CardChange, C>) {
        let Bench { site, books, pool, cabinet } = self;
        (site, Lent { books, pool, cabinet })
    }

    pub fn make(&mut self, n: u16, cap: u16) -> Result<(), Fault> {
        let (site, lent) = self.parts();
        site.make(n, cap, &lent)
    }

    pub fn change(&mut self, i: u16, x: CardChange) -> Result<(u16, u16, u16), Fault> {
        let (site, mut lent) = self.parts();
        site.change(i, x, &mut lent).map(Slip::set_aside)
    }

    pub fn pass(&mut self, i: u16, b: u16, k: u16) -> Result<(), Fault> {
        let (site, mut lent) = self.parts();
        site.pass(i, b, k, &mut lent)
    }

    pub fn call(&mut self, i: u16) -> Result<(), Fault> {
        let (site, mut lent) = self.parts();
        site.call(i, &mut lent)
    }

    pub fn invite(&mut self, i: u16, b: u16) -> Result<(), Fault> {
        let (site, mut lent) = self.parts();
        site.invite(i, b, &mut lent)
    }

    pub fn form(&mut self, i: u16) -> Result<Choice, Fault> {
        let (site, mut lent) = self.parts();
        site.form(i, &mut lent)
    }

    pub fn deliver(&mut self, j: u16) -> Result<MessageKind, Fault> {
        let (site, mut lent) = self.parts();
        site.deliver(j, &mut lent)
    }

    /// Delivers the message that was sent last.
    pub fn deliver_last(&mut self) -> Result<MessageKind, Fault> {
        self.deliver(self.site.count() - 1)
    }

    pub fn join(&mut self, i: u16, p: u16) -> Result<(), Fault> {
        let (site, mut lent) = self.parts();
        site.join(i, p, &mut lent)
    }

    pub fn settle(&mut self, i: u16, (count, controller, place): (u16, u16, u16)) -> Result<&'static str, Fault> {
        let (site, lent) = self.parts();
        let slip = Slip::take_up(count, controller, place).unwrap();
        match site.settle(i, slip, &lent) {
            Ok(Settled::Confirmed) => Ok("confirmed"),
            Ok(Settled::Lost) => Ok("lost"),
            Ok(Settled::Waiting(slip)) => {
                assert_eq!(slip.set_aside(), (count, controller, place));
                Ok("waiting")
            }
            Err((slip, fault)) => {
                assert_eq!(slip.set_aside(), (count, controller, place));
                Err(fault)
            }
        }
    }

    pub fn lookup(&mut self, i: u16, a: u16, b: u16) -> Result<Light, Fault> {
        let (site, lent) = self.parts();
        site.lookup(i, question(a, b), &lent)
    }

    pub fn crash(&mut self, i: u16) -> Result<(), Fault> {
        let (site, lent) = self.parts();
        site.crash(i, &lent)
    }

    pub fn recover(&mut self, i: u16) -> Result<(), Fault> {
        let (site, lent) = self.parts();
        site.recover(i, &lent)
    }

    pub fn lose(&mut self, j: u16) -> Result<(), Fault> {
        let (site, mut lent) = self.parts();
        site.lose(j, &mut lent)
    }

    pub fn book(&self, c: u16) -> Vec<Entry<CardChange>> {
        self.site.book(number(c), &self.books).to_vec()
    }
}
