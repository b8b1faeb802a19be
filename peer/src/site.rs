//! The site: make and the twelve steps, each of which asks its questions in order and then acts at once.

use crate::cabinet::{Cabinet, Worn};
use crate::controller::{Controller, Status, own_length};
use crate::entries::{Entry, Kind, Light, Question, lookup};
use crate::forming::{Choice, choose};
use crate::message::{Body, Message, MessageKind, Text};
use crate::numbers::{CELLS, CellRecord, ControllerNumber, Place, PlainView, Slip, Stamp, View, majority};
use crate::refusal::{Fault, No, Refusal, ask};

/// The memory that a caller lends to each call.
pub struct Lent<'a, K, C: ?Sized> {
    /// Place k of controller c's book is at c × cap + k − 1.
    pub books: &'a mut [Entry<K>],
    pub pool: &'a mut [Message<K>],
    pub cabinet: &'a mut C,
}

/// The three outcomes of a settle that is not refused.
#[derive(PartialEq, Eq, Debug)]
pub enum Settled {
    Confirmed,
    Lost,
    Waiting(Slip),
}

#[derive(Clone, PartialEq, Eq, Debug)]
pub struct Site {
    made: bool,
    n: u16,
    cap: u16,
    books: usize,
    pool: usize,
    count: u16,
    controllers: [Controller; CELLS],
}

impl Default for Site {
    fn default() -> Site {
        Site::new()
    }
}

impl Site {
    /// A site record that is not made yet: every step is refused with 1.
    pub const fn new() -> Site {
        Site { made: false, n: 0, cap: 0, books: 0, pool: 0, count: 0, controllers: [Controller::DOWN; CELLS] }
    }

    pub fn is_made(&self) -> bool {
        self.made
    }

    pub fn n(&self) -> u16 {
        self.n
    }

    pub fn cap(&self) -> u16 {
        self.cap
    }

    /// The messages in the pool.
    pub fn count(&self) -> u16 {
        self.count
    }

    /// The messages that the pool has room for.
    pub fn room(&self) -> usize {
        self.pool
    }

    /// The controller records, 0 to 6.
    pub fn controllers(&self) -> &[Controller; CELLS] {
        &self.controllers
    }

    /// The entries in use of controller c's book, out of the books lent.
    pub fn book<'b, K>(&self, c: ControllerNumber, books: &'b [Entry<K>]) -> &'b [Entry<K>] {
        let start = self.start(c);
        &books[start..start + usize::from(self.controllers[c.index()].length)]
    }

    /// Makes the site, whatever this record held before.
    pub fn make<K: Kind, C: Cabinet + ?Sized>(&mut self, n: u16, cap: u16, lent: &Lent<'_, K, C>) -> Result<(), Fault> {
        let refused = |refusal| Fault::Controller { refusal, controller: 0 };
        let in_range = (3..=CELLS as u16).contains(&n)
            && cap >= 1
            && (8..=4_096).contains(&lent.pool.len())
            && lent.books.len() == usize::from(n) * usize::from(cap);
        if !in_range {
            return Err(refused(Refusal::NotMade));
        }
        if (0..n).any(|cell| lent.cabinet.held(cell) != CellRecord::ZERO) {
            return Err(refused(Refusal::CellsUsed));
        }
        let backup = Controller { status: Status::Active(None), complete: true, ..Controller::DOWN };
        let mut controllers = [Controller::DOWN; CELLS];
        controllers[..usize::from(n)].fill(backup);
        controllers[0].status = Status::Active(Some(own_length(ControllerNumber::ZERO, 0)));
        *self = Site { made: true, n, cap, books: lent.books.len(), pool: lent.pool.len(), count: 0, controllers };
        Ok(())
    }

    /// Takes a new change at the primary i.
    pub fn change<K: Kind, C: Cabinet + ?Sized>(
        &mut self,
        i: u16,
        x: K,
        lent: &mut Lent<'_, K, C>,
    ) -> Result<Slip, Fault> {
        self.try_change(i, x, lent).map_err(|no| no.of_controller(i))
    }

    fn try_change<K: Kind, C: Cabinet + ?Sized>(
        &mut self,
        i: u16,
        x: K,
        lent: &mut Lent<'_, K, C>,
    ) -> Result<Slip, No> {
        self.ask_made(lent)?;
        let i = self.ask_controller(i)?;
        self.ask_up(i)?;
        self.ask_active(i)?;
        self.ask_primary(i)?;
        let start = self.start(i);
        let record = &mut self.controllers[i.index()];
        ask(record.length < self.cap, Refusal::BookFull)?;
        let place = Place::new(record.length + 1)?;
        lent.books[start + usize::from(record.length)] = Entry { view: record.current.into(), change: x };
        record.grow(i);
        Ok(Slip::of(Stamp { view: record.current, place }))
    }

    /// Sends the entry at place k of the primary i's book to b.
    pub fn pass<K: Kind, C: Cabinet + ?Sized>(
        &mut self,
        i: u16,
        b: u16,
        k: u16,
        lent: &mut Lent<'_, K, C>,
    ) -> Result<(), Fault> {
        self.try_pass(i, b, k, lent).map_err(|no| no.of_controller(i))
    }

    fn try_pass<K: Kind, C: Cabinet + ?Sized>(
        &mut self,
        i: u16,
        b: u16,
        k: u16,
        lent: &mut Lent<'_, K, C>,
    ) -> Result<(), No> {
        self.ask_made(lent)?;
        let (i, b) = self.ask_two(i, b)?;
        self.ask_up(i)?;
        self.ask_active(i)?;
        self.ask_primary(i)?;
        let record = &self.controllers[i.index()];
        ask(1 <= k && k <= record.length, Refusal::DoesNotFit)?;
        self.ask_room()?;
        let entry = lent.books[self.start(i) + usize::from(k) - 1];
        let view = record.current;
        self.send(lent.pool, i, b, view, Body::Entry { place: k, entry });
        Ok(())
    }

    /// Lets i call a view change as its manager.
    pub fn call<K: Kind, C: Cabinet + ?Sized>(&mut self, i: u16, lent: &mut Lent<'_, K, C>) -> Result<(), Fault> {
        self.try_call(i, lent).map_err(|no| no.of_controller(i))
    }

    fn try_call<K: Kind, C: Cabinet + ?Sized>(&mut self, i: u16, lent: &mut Lent<'_, K, C>) -> Result<(), No> {
        self.ask_made(lent)?;
        let i = self.ask_controller(i)?;
        self.ask_up(i)?;
        let record = &mut self.controllers[i.index()];
        let count = record.promised.count.next().ok_or(Refusal::CountsSpent)?;
        let view = View { count, controller: i };
        put(lent.cabinet, i, record.current, view)?;
        let mut answers = [None; CELLS];
        answers[i.index()] = Some(record.answer(i));
        record.promised = view;
        record.status = Status::Manager(answers);
        Ok(())
    }

    /// Sends an invitation of the manager i to b.
    pub fn invite<K: Kind, C: Cabinet + ?Sized>(
        &mut self,
        i: u16,
        b: u16,
        lent: &mut Lent<'_, K, C>,
    ) -> Result<(), Fault> {
        self.try_invite(i, b, lent).map_err(|no| no.of_controller(i))
    }

    fn try_invite<K: Kind, C: Cabinet + ?Sized>(
        &mut self,
        i: u16,
        b: u16,
        lent: &mut Lent<'_, K, C>,
    ) -> Result<(), No> {
        self.ask_made(lent)?;
        let (i, b) = self.ask_two(i, b)?;
        self.ask_up(i)?;
        let record = &self.controllers[i.index()];
        ask(matches!(record.status, Status::Manager(_)), Refusal::WrongStatus)?;
        self.ask_room()?;
        let view = record.promised;
        self.send(lent.pool, i, b, view, Body::Invitation);
        Ok(())
    }

    /// Lets the manager i form its promised view, if its answers allow it.
    pub fn form<K: Kind, C: Cabinet + ?Sized>(&mut self, i: u16, lent: &mut Lent<'_, K, C>) -> Result<Choice, Fault> {
        self.try_form(i, lent).map_err(|no| no.of_controller(i))
    }

    fn try_form<K: Kind, C: Cabinet + ?Sized>(&mut self, i: u16, lent: &mut Lent<'_, K, C>) -> Result<Choice, No> {
        self.ask_made(lent)?;
        let i = self.ask_controller(i)?;
        self.ask_up(i)?;
        let record = &self.controllers[i.index()];
        let Status::Manager(answers) = &record.status else { return Err(Refusal::WrongStatus.into()) };
        let choice = choose(self.n, answers).ok_or(Refusal::NoRuleAllows)?;
        self.ask_room()?;
        let view = record.promised;
        self.controllers[i.index()].status = Status::Waiting;
        self.send(lent.pool, i, choice.chosen, view, Body::Form);
        Ok(choice)
    }

    /// Delivers message j, which stays in the pool.
    pub fn deliver<K: Kind, C: Cabinet + ?Sized>(
        &mut self,
        j: u16,
        lent: &mut Lent<'_, K, C>,
    ) -> Result<MessageKind, Fault> {
        self.try_deliver(j, lent).map_err(|no| no.of_message(j))
    }

    fn try_deliver<K: Kind, C: Cabinet + ?Sized>(
        &mut self,
        j: u16,
        lent: &mut Lent<'_, K, C>,
    ) -> Result<MessageKind, No> {
        self.ask_made(lent)?;
        ask(j < self.count, Refusal::NoSuchMessage)?;
        let message = &lent.pool[usize::from(j)];
        let kind = message.kind();
        let letter = message.read(self.n, self.cap)?;
        let (sender, i, v) = (letter.sender, letter.addressee, letter.view);
        self.ask_up(i)?;
        let room = self.ask_room();
        let start = self.start(i);
        let record = &mut self.controllers[i.index()];
        match letter.text {
            Text::Invitation => {
                ask(v > record.promised, Refusal::WrongView)?;
                room?;
                put(lent.cabinet, i, record.current, v)?;
                record.promised = v;
                record.status = Status::Waiting;
                let answer = record.answer(i);
                self.send(lent.pool, i, sender, v, answer.into());
            }
            Text::Answer(answer) => {
                let Status::Manager(answers) = &mut record.status else { return Err(Refusal::WrongStatus.into()) };
                ask(v == record.promised, Refusal::WrongView)?;
                let counted = &mut answers[sender.index()];
                ask(counted.is_none(), Refusal::DoesNotFit)?;
                *counted = Some(answer);
            }
            Text::Form => {
                ask(matches!(record.status, Status::Waiting), Refusal::WrongStatus)?;
                ask(v == record.promised, Refusal::WrongView)?;
                ask(record.complete, Refusal::IncompleteBook)?;
                put(lent.cabinet, i, v, v)?;
                record.current = v;
                record.primary = i;
                record.status = Status::Active(Some(own_length(i, record.length)));
            }
            Text::Entry(place, entry) => {
                ask(record.is_active(), Refusal::WrongStatus)?;
                ask(v == record.current, Refusal::WrongView)?;
                // Place and length are at most cap, and the place is one more: the entry fits.
                ask(u32::from(place) == u32::from(record.length) + 1, Refusal::DoesNotFit)?;
                room?;
                lent.books[start + usize::from(record.length)] = entry;
                record.grow(i);
                self.send(lent.pool, i, sender, v, Body::Acknowledgement { length: place });
            }
            Text::Acknowledgement(length) => {
                let Status::Active(lengths) = &mut record.status else { return Err(Refusal::WrongStatus.into()) };
                let Some(lengths) = lengths else { return Err(Refusal::NotPrimary.into()) };
                ask(v == record.current, Refusal::WrongView)?;
                ask(length <= record.length, Refusal::DoesNotFit)?;
                let known = &mut lengths[sender.index()];
                *known = (*known).max(Some(length));
            }
        }
        Ok(kind)
    }

    /// Lets the waiting i enter the view of the primary p, with a copy of p's book.
    pub fn join<K: Kind, C: Cabinet + ?Sized>(
        &mut self,
        i: u16,
        p: u16,
        lent: &mut Lent<'_, K, C>,
    ) -> Result<(), Fault> {
        self.try_join(i, p, lent).map_err(|no| no.of_controller(i))
    }

    fn try_join<K: Kind, C: Cabinet + ?Sized>(&mut self, i: u16, p: u16, lent: &mut Lent<'_, K, C>) -> Result<(), No> {
        self.ask_made(lent)?;
        let (i, p) = self.ask_two(i, p)?;
        self.ask_up(i)?;
        self.ask_up(p)?;
        let waiting = matches!(self.controllers[i.index()].status, Status::Waiting);
        ask(waiting, Refusal::WrongStatus)?;
        self.ask_active(p)?;
        self.ask_primary(p)?;
        let Controller { current: v, length, .. } = self.controllers[p.index()];
        let (to, from) = (self.start(i), self.start(p));
        let room = self.ask_room();
        let record = &mut self.controllers[i.index()];
        ask(v == record.promised && v > record.current, Refusal::WrongView)?;
        ask(length <= self.cap, Refusal::DoesNotFit)?;
        room?;
        put(lent.cabinet, i, v, v)?;
        lent.books.copy_within(from..from + usize::from(length), to);
        *record =
            Controller { status: Status::Active(None), current: v, promised: v, complete: true, length, primary: p };
        self.send(lent.pool, i, p, v, Body::Acknowledgement { length });
        Ok(())
    }

    /// Asks the primary i what became of a slip. A refusal hands the slip back.
    pub fn settle<K: Kind, C: Cabinet + ?Sized>(
        &self,
        i: u16,
        slip: Slip,
        lent: &Lent<'_, K, C>,
    ) -> Result<Settled, (Slip, Fault)> {
        match self.try_settle(i, slip.stamp(), lent) {
            Ok(Some(true)) => Ok(Settled::Confirmed),
            Ok(Some(false)) => Ok(Settled::Lost),
            Ok(None) => Ok(Settled::Waiting(slip)),
            Err(no) => Err((slip, no.of_controller(i))),
        }
    }

    /// Some(true) is confirmed, Some(false) lost, and none waiting.
    fn try_settle<K: Kind, C: Cabinet + ?Sized>(
        &self,
        i: u16,
        slip: Stamp,
        lent: &Lent<'_, K, C>,
    ) -> Result<Option<bool>, No> {
        self.ask_made(lent)?;
        let i = self.ask_controller(i)?;
        self.ask_up(i)?;
        let record = &self.controllers[i.index()];
        let Status::Active(lengths) = &record.status else { return Err(Refusal::WrongStatus.into()) };
        let Some(lengths) = lengths else { return Err(Refusal::NotPrimary.into()) };
        ask(record.current >= slip.view, Refusal::WrongView)?;
        let place = slip.place.get();
        let entry = self.book(i, lent.books).get(usize::from(place) - 1);
        let has_entry = entry.is_some_and(|entry| entry.view == PlainView::from(slip.view));
        // None is smaller than every length.
        let acknowledged = |least: u16| lengths.iter().filter(|length| **length >= Some(least)).count();
        let majority = usize::from(majority(self.n));
        Ok(if has_entry {
            (acknowledged(place) >= majority).then_some(true)
        } else {
            (record.current > slip.view && acknowledged(0) >= majority).then_some(false)
        })
    }

    /// Puts a question to the book of i.
    pub fn lookup<K: Kind, C: Cabinet + ?Sized>(
        &self,
        i: u16,
        question: Question,
        lent: &Lent<'_, K, C>,
    ) -> Result<Light, Fault> {
        self.try_lookup(i, question, lent).map_err(|no| no.of_controller(i))
    }

    fn try_lookup<K: Kind, C: Cabinet + ?Sized>(
        &self,
        i: u16,
        question: Question,
        lent: &Lent<'_, K, C>,
    ) -> Result<Light, No> {
        self.ask_made(lent)?;
        let i = self.ask_controller(i)?;
        self.ask_up(i)?;
        self.ask_active(i)?;
        Ok(lookup(self.book(i, lent.books), question))
    }

    /// Cuts the power of i.
    pub fn crash<K: Kind, C: Cabinet + ?Sized>(&mut self, i: u16, lent: &Lent<'_, K, C>) -> Result<(), Fault> {
        self.try_crash(i, lent).map_err(|no| no.of_controller(i))
    }

    fn try_crash<K: Kind, C: Cabinet + ?Sized>(&mut self, i: u16, lent: &Lent<'_, K, C>) -> Result<(), No> {
        self.ask_made(lent)?;
        let i = self.ask_controller(i)?;
        self.ask_up(i)?;
        self.controllers[i.index()] = Controller::DOWN;
        Ok(())
    }

    /// Switches i on again: its views are those of its cell, and its book is gone.
    pub fn recover<K: Kind, C: Cabinet + ?Sized>(&mut self, i: u16, lent: &Lent<'_, K, C>) -> Result<(), Fault> {
        self.try_recover(i, lent).map_err(|no| no.of_controller(i))
    }

    fn try_recover<K: Kind, C: Cabinet + ?Sized>(&mut self, i: u16, lent: &Lent<'_, K, C>) -> Result<(), No> {
        self.ask_made(lent)?;
        let i = self.ask_controller(i)?;
        let record = &mut self.controllers[i.index()];
        ask(!record.is_up(), Refusal::WrongPower)?;
        let held = lent.cabinet.held(i.get());
        *record = Controller {
            status: Status::Waiting,
            current: held.current(),
            promised: held.promised(),
            ..Controller::DOWN
        };
        Ok(())
    }

    /// Takes message j out of the pool; the last one takes its place.
    pub fn lose<K: Kind, C: Cabinet + ?Sized>(&mut self, j: u16, lent: &mut Lent<'_, K, C>) -> Result<(), Fault> {
        self.try_lose(j, lent).map_err(|no| no.of_message(j))
    }

    fn try_lose<K: Kind, C: Cabinet + ?Sized>(&mut self, j: u16, lent: &mut Lent<'_, K, C>) -> Result<(), No> {
        self.ask_made(lent)?;
        ask(j < self.count, Refusal::NoSuchMessage)?;
        self.count -= 1;
        lent.pool[usize::from(j)] = lent.pool[usize::from(self.count)];
        Ok(())
    }

    /// Question 1.
    fn ask_made<K, C: ?Sized>(&self, lent: &Lent<'_, K, C>) -> Result<(), No> {
        let as_made = self.made && lent.books.len() == self.books && lent.pool.len() == self.pool;
        ask(as_made, Refusal::NotMade)
    }

    /// Question 2 for one controller.
    fn ask_controller(&self, i: u16) -> Result<ControllerNumber, No> {
        match ControllerNumber::new(i) {
            Ok(number) if i < self.n => Ok(number),
            _ => Err(Refusal::NoSuchController.into()),
        }
    }

    /// Question 2 for two controllers.
    fn ask_two(&self, i: u16, b: u16) -> Result<(ControllerNumber, ControllerNumber), No> {
        ask(i != b, Refusal::NoSuchController)?;
        Ok((self.ask_controller(i)?, self.ask_controller(b)?))
    }

    /// Question 5.
    fn ask_up(&self, i: ControllerNumber) -> Result<(), No> {
        ask(self.controllers[i.index()].is_up(), Refusal::WrongPower)
    }

    /// Question 6, where the status has to be active.
    fn ask_active(&self, i: ControllerNumber) -> Result<(), No> {
        ask(self.controllers[i.index()].is_active(), Refusal::WrongStatus)
    }

    /// Question 7.
    fn ask_primary(&self, i: ControllerNumber) -> Result<(), No> {
        ask(self.controllers[i.index()].primary == i, Refusal::NotPrimary)
    }

    /// Question 14.
    fn ask_room(&self) -> Result<(), No> {
        ask(usize::from(self.count) < self.pool, Refusal::PoolFull)
    }

    /// Where the book of controller c begins.
    fn start(&self, c: ControllerNumber) -> usize {
        c.index() * usize::from(self.cap)
    }

    /// Puts a message at the end of the pool, after question 14.
    fn send<K>(
        &mut self,
        pool: &mut [Message<K>],
        sender: ControllerNumber,
        addressee: ControllerNumber,
        view: View,
        body: Body<K>,
    ) {
        pool[usize::from(self.count)] =
            Message { sender: sender.get(), addressee: addressee.get(), view: view.into(), body };
        self.count += 1;
    }
}

/// Questions 15 and 17, the last of a step, and then its put.
fn put<C: Cabinet + ?Sized>(cabinet: &mut C, i: ControllerNumber, current: View, promised: View) -> Result<(), No> {
    let cell = i.get();
    if cabinet.worn(cell) {
        return Err(No::Worn { worn: Worn { cell }, controller: cell });
    }
    let record = CellRecord::new(current, promised)?;
    cabinet.put(cell, record).map_err(|worn| No::Worn { worn, controller: cell })
}
