//! W-210: two stores of the same lifts beside one area of counts. One takes a call that keeps them, the other the plain call,
//! and they change places from time to time, so that neither call has the better memory.
use crate::kept_calls::KeptArea;
use crate::kept_in_place::KeptInPlace;
use crate::lift::{Contender, Lift};
use crate::proved::Proved;
use plain_kept::Kept;

/// A store with both kinds of calls. A call that should be accepted and is not ends the run.
pub trait Keeper: Clone {
    type Counts: Clone;
    fn append(&mut self, lift: &Lift);
    fn append_kept(&mut self, counts: &mut Self::Counts, lift: &Lift);
    fn drop(&mut self);
    fn drop_kept(&mut self, counts: &mut Self::Counts);
    fn closed_segments(&self) -> usize;
    /// As that one is, which has the same S and NOR bytes.
    fn restore(&mut self, from: &Self);
}

impl Keeper for Proved {
    type Counts = KeptArea;

    fn append(&mut self, lift: &Lift) {
        Contender::append(self, lift);
    }

    fn append_kept(&mut self, counts: &mut KeptArea, lift: &Lift) {
        assert_eq!(self.put_kept(counts, lift), 0, "the store refuses an append that keeps counts");
    }

    fn drop(&mut self) {
        assert_eq!(self.drop_oldest(), 0, "the store refuses a drop");
    }

    fn drop_kept(&mut self, counts: &mut KeptArea) {
        assert_eq!(self.drop_kept(counts), 0, "the store refuses a drop that keeps counts");
    }

    fn closed_segments(&self) -> usize {
        let [oldest, open] = [0, 4].map(|at| u32::from_le_bytes(self.state[at..at + 4].try_into().unwrap()));
        (open - oldest) as usize
    }

    fn restore(&mut self, from: &Proved) {
        self.state = from.state;
        self.nand.copy_from_slice(&from.nand);
    }
}

impl Keeper for KeptInPlace {
    type Counts = Kept;

    fn append(&mut self, lift: &Lift) {
        self.put(lift).expect("an append");
    }

    fn append_kept(&mut self, counts: &mut Kept, lift: &Lift) {
        self.put_kept(counts, lift).expect("an append that keeps counts");
    }

    fn drop(&mut self) {
        self.drop_oldest().expect("a drop");
    }

    fn drop_kept(&mut self, counts: &mut Kept) {
        self.drop_kept(counts).expect("a drop that keeps counts");
    }

    fn closed_segments(&self) -> usize {
        (self.state.open - self.state.oldest) as usize
    }

    fn restore(&mut self, from: &KeptInPlace) {
        self.state.clone_from(&from.state);
        self.nand.copy_from_slice(&from.nand);
    }
}

/// What a twin is asked for in one go.
#[derive(Clone, Copy)]
pub enum Task<'a> {
    Append(&'a [Lift]),
    Drop(usize),
}

#[derive(Clone)]
pub struct Twins<T: Keeper> {
    pub stores: [T; 2],
    pub counts: T::Counts,
}

impl<T: Keeper> Twins<T> {
    pub fn new(store: T, counts: T::Counts) -> Self {
        Twins { stores: [store.clone(), store], counts }
    }

    /// Where one has too few segments for the task it becomes again what it was.
    pub fn make_ready(&mut self, task: Task, keeping: bool, one: usize, before: &Self) {
        let Task::Drop(segments) = task else { return };
        if self.stores[one].closed_segments() < segments {
            self.stores[one].restore(&before.stores[one]);
            if keeping {
                self.counts = before.counts.clone();
            }
        }
    }

    /// By one of the two.
    pub fn run(&mut self, task: Task, keeping: bool, one: usize) {
        let Twins { stores, counts } = self;
        let store = &mut stores[one];
        match (task, keeping) {
            (Task::Append(lifts), true) => lifts.iter().for_each(|lift| store.append_kept(counts, lift)),
            (Task::Append(lifts), false) => lifts.iter().for_each(|lift| store.append(lift)),
            (Task::Drop(segments), true) => (0..segments).for_each(|_| store.drop_kept(counts)),
            (Task::Drop(segments), false) => (0..segments).for_each(|_| store.drop()),
        }
    }
}
