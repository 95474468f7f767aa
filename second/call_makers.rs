//! Calls made one after another, with the turn that each will meet in view.

use crate::adversaries::{Frame, palette};
use crate::benches::{Bench, Call, CallName, Turn};
use crate::models::{Base, Class, Model, Set};
use crate::rng::Rng;
use crate::runs::{MOST_CONTROLLERS, Opening, Place, needed};
use crate::values::{Cell, Value};

pub struct CallMaker<'a> {
    rng: &'a Rng,
    frame: Frame,
    cells: usize,
    values: Vec<Value>,
    bench: Bench,
    /// Where something was forged in the round under way.
    forged: Vec<Place>,
    calls: Vec<Call>,
}

/// What the calls are made for: the block as it was opened, or else as it is to be.
#[derive(Clone, Copy)]
struct Block {
    n: usize,
    t: usize,
    before: Set,
}

impl<'a> CallMaker<'a> {
    pub fn new(frame: Frame, cells: usize, rng: &'a Rng) -> CallMaker<'a> {
        CallMaker {
            rng,
            frame,
            cells,
            values: palette(frame.kind, rng),
            bench: Bench::new(frame.kind, frame.model, cells),
            forged: Vec::new(),
            calls: Vec::new(),
        }
    }

    pub fn into_calls(self) -> Vec<Call> {
        self.calls
    }

    pub fn make(&mut self, call: Call) {
        let accepted = self.bench.perform(&call).is_ok();
        match call {
            Call::Seat(_) if accepted => self.forged.clear(),
            Call::Forge(place, _) if accepted => self.forged.push(place),
            _ => {}
        }
        self.calls.push(call);
    }

    /// Any call, more often one for which it is time.
    pub fn make_any(&mut self) {
        use CallName::*;
        let weights = match self.bench.turn() {
            Turn::Idle => [(70, Open), (8, Seat), (8, Forge), (6, Close), (8, Decision)],
            Turn::Waiting(_) => [
                (4, Open),
                (60, Seat),
                (8, Forge),
                (6, Close),
                (22, Decision),
            ],
            Turn::Seated(_) => [
                (4, Open),
                (6, Seat),
                (45, Forge),
                (33, Close),
                (12, Decision),
            ],
        };
        let name = self.rng.weighted(&weights);
        let call = if self.rng.percent(70) {
            self.sound(name)
        } else {
            self.odd(name)
        };
        self.make(call);
    }

    /// A call that is refused, and so leaves everything as it stands.
    pub fn make_refused(&mut self) {
        let odd = (0..8).map(|_| self.odd(self.rng.pick(&CallName::ALL)));
        let refused = odd
            .into_iter()
            .find(|call| self.bench.clone().perform(call).is_err());
        if let Some(call) = refused {
            self.make(call);
        }
    }

    pub fn ask_all(&mut self) {
        for controller in 0..self.block().n {
            self.make(Call::Decision(controller));
        }
    }

    /// Asks whoever can be asked.
    pub fn ask_unseated(&mut self) {
        let Block { n, before, .. } = self.block();
        for controller in (0..n).filter(|&controller| !before.has(controller)) {
            self.make(Call::Decision(controller));
        }
    }

    fn block(&self) -> Block {
        let run = match self.bench.turn() {
            Turn::Idle => {
                return Block {
                    n: self.frame.n,
                    t: self.frame.t,
                    before: Set::EMPTY,
                };
            }
            Turn::Waiting(run) => run,
            Turn::Seated(round) => round.run(),
        };
        Block {
            n: run.n(),
            t: run.t(),
            before: run.before(),
        }
    }

    fn model(&self) -> Model {
        self.frame.model
    }

    pub fn some_value(&self) -> Value {
        self.rng.pick(&self.values)
    }

    fn some_cell(&self) -> Cell {
        (!self.rng.percent(20)).then(|| self.some_value())
    }

    fn some_set(&self, n: usize, size: usize) -> Set {
        self.rng
            .some_below(n.min(MOST_CONTROLLERS), size)
            .into_iter()
            .collect()
    }

    /// A call that is accepted, if it is its turn.
    pub fn sound(&self, name: CallName) -> Call {
        match name {
            CallName::Open => Call::Open(self.opening()),
            CallName::Seat => Call::Seat(self.allowed_set()),
            CallName::Forge => Call::Forge(self.forgeable_place(), self.some_cell()),
            CallName::Close => Call::Close,
            CallName::Decision => Call::Decision(self.rng.below(self.block().n)),
        }
    }

    fn opening(&self) -> Opening {
        let Frame { n, t, .. } = self.frame;
        // A smaller block where the store is too small for that of the frame.
        let (n, t) = match (1..n).rev().find(|&n| needed(n) <= self.cells) {
            Some(smaller) if needed(n) > self.cells => (smaller, 0),
            _ => (n, t),
        };
        let initial = self.some_set(n, self.rng.between(0, t));
        Opening::of(t, &self.proposals(n), initial)
    }

    fn proposals(&self, n: usize) -> Vec<Value> {
        match self.rng.percent(50) {
            true => vec![self.some_value(); n],
            false => (0..n).map(|_| self.some_value()).collect(),
        }
    }

    fn allowed_set(&self) -> Set {
        let Block { n, t, before } = self.block();
        match self.model().base {
            Base::Fixed => before,
            _ if self.rng.percent(20) => before,
            _ => self.some_set(n, self.rng.between(t.min(1), t)),
        }
    }

    fn forgeable_place(&self) -> Place {
        if self.rng.percent(25) && !self.forged.is_empty() {
            return self.rng.pick(&self.forged);
        }
        let place = self.some_place();
        let Turn::Seated(round) = self.bench.turn() else {
            return place;
        };
        let speaks =
            |&sender: &usize| matches!(round.classes[sender], Class::Free | Class::Uniform);
        let senders: Vec<usize> = (0..self.block().n).filter(speaks).collect();
        if senders.is_empty() {
            return place;
        }
        let sender = self.rng.pick(&senders);
        let receiver = match round.classes[sender] {
            Class::Uniform => 0,
            _ => place.receiver,
        };
        Place {
            sender,
            receiver,
            ..place
        }
    }

    fn columns(&self) -> usize {
        match self.bench.turn() {
            Turn::Seated(round) => round.stage.columns(self.block().n),
            _ => 1,
        }
    }

    fn some_place(&self) -> Place {
        let n = self.block().n;
        Place {
            sender: self.rng.below(n),
            receiver: self.rng.below(n),
            column: self.rng.below(self.columns()),
        }
    }

    /// A call that is as near to being accepted as it can be, or far from it.
    pub fn odd(&self, name: CallName) -> Call {
        match name {
            CallName::Open => Call::Open(self.odd_opening()),
            CallName::Seat => Call::Seat(self.odd_set()),
            CallName::Forge => Call::Forge(self.odd_place(), self.some_cell()),
            CallName::Close => Call::Close,
            CallName::Decision => Call::Decision(self.odd_controller()),
        }
    }

    fn too_large(&self, least: usize) -> usize {
        self.rng
            .pick(&[least, least, 16, 20, 255, 256, 1 << 32, usize::MAX])
    }

    fn odd_opening(&self) -> Opening {
        let mut opening = self.opening();
        for _ in 0..self.rng.pick(&[1, 1, 2, 3]) {
            self.spoil(&mut opening);
        }
        opening
    }

    fn spoil(&self, opening: &mut Opening) {
        let rng = self.rng;
        match rng.below(8) {
            0 => opening.n = rng.pick(&[0, 17, 17, 20, usize::MAX]),
            1 => opening.t = self.too_large(opening.n),
            2 => {
                // Exactly b + e + l controllers.
                let t = rng.between(1, 2);
                let counts = self.model().counts(t);
                let n = counts.b + counts.e + counts.l;
                *opening = Opening::of(t, &self.proposals(n), self.some_set(n, t));
            }
            3 => {
                // For most stores that are small this is too large.
                let n = rng.between(self.frame.n, MOST_CONTROLLERS);
                *opening = Opening::of(0, &self.proposals(n), Set::EMPTY);
            }
            4 if rng.percent(50) => opening.proposals.push(self.some_value()),
            4 => drop(opening.proposals.pop()),
            _ if rng.percent(50) && opening.n < MOST_CONTROLLERS => {
                opening.initial = [opening.n].into_iter().collect();
            }
            _ => {
                let n = opening.n.min(MOST_CONTROLLERS);
                opening.initial = self.some_set(n, opening.t.saturating_add(1));
            }
        }
    }

    fn odd_set(&self) -> Set {
        let Block { n, t, .. } = self.block();
        match self.rng.below(4) {
            0 if n < MOST_CONTROLLERS => [self.rng.between(n, 15)].into_iter().collect(),
            0 | 1 => self.some_set(n, t + 1),
            2 => self.some_set(n, self.rng.between(0, t)),
            _ => Set(self.rng.next() as u16),
        }
    }

    fn odd_place(&self) -> Place {
        let n = self.block().n;
        let mut place = match self.rng.percent(60) {
            true => self.forgeable_place(),
            false => self.some_place(),
        };
        match self.rng.below(6) {
            0 => place.sender = self.too_large(n),
            1 => place.receiver = self.too_large(n),
            2 => place.column = self.too_large(self.columns()),
            3 => place.receiver = self.rng.below(n),
            // Mostly somebody who is honest, or silent.
            _ => place.sender = self.rng.below(n),
        }
        place
    }

    fn odd_controller(&self) -> usize {
        let Block { n, before, .. } = self.block();
        let seated: Vec<usize> = before.members().collect();
        match seated.is_empty() || self.rng.percent(40) {
            true => self.too_large(n),
            false => self.rng.pick(&seated),
        }
    }
}
