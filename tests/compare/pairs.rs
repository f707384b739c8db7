//! Machines of one gym: lifts close together by few members, paired in every direction; whole, with bytes changed so that
//! times fall, damaged, and on chips of odd lengths.
use crate::convert::lift_at;
use crate::damage::damage_once;
use crate::edges;
use crate::habits::odd_slots;
use crate::judge::{Difference, Step};
use crate::lengths;
use crate::patterns::Loads;
use crate::random::Random;
use crate::states;
use crate::trial::Trial;
use model::limits::LAST_TIME;
use script::areas::{SLOT_BYTES, STORES};
use script::calls::{Call, Pairs, PAIR_BYTES};
use script::command::Command;

/// Milliseconds from one lift to the next, on whatever machine.
const STEPS: [&[u64]; 5] = [
    &[0, 0, 1, 1, 2],
    &[0, 1, 999, 1_000, 3_000, 5_000],
    &[0, 0, 1, 14_999, 15_000, 15_001],
    &[0, 1, 29_999, 30_000, 30_001],
    &[1, 3_000, 30_000, 30_001, 86_400_000],
];
/// Members that a gym has; some differ in one byte alone.
const MEMBERS: [&[u32]; 5] =
    [&[1], &[1, 2], &[0, 1, 2, 3], &[0, 1, 256, 65_536, 1 << 24, 0x0101_0101], &[0, 7, 263, u32::MAX, u32::MAX - 1]];
/// How long a member stays on a machine, in lifts.
const SETS: [&[u64]; 3] = [&[1], &[1, 2, 3], &[1, 5, 12, 40]];
/// How far from a lift's time another one is put: about as far as a pair may be apart.
const APART: [i64; 11] = [-30_001, -30_000, -1, 0, 1, 2, 500, 15_000, 29_999, 30_000, 30_001];

struct Machine {
    store: usize,
    slots: u64,
    loads: Loads,
}

struct Gym {
    machines: Vec<Machine>,
    members: &'static [u32],
    steps: &'static [u64],
    sets: &'static [u64],
    /// One lift in so many is followed by a close, by a drop.
    close_in: u64,
    drop_in: u64,
    time: u64,
    /// Times of lifts; a store may have lost them since.
    times: Vec<u64>,
}

pub fn rounds(trial: &mut Trial) -> Step {
    let mut gym = Gym::any(trial)?;
    for _ in 0..trial.random.pick(&[1, 2, 2, 5]) {
        let lifts = trial.random.pick(&[1, 4, 30, 60, 200, 500]);
        gym.lift(trial, lifts)?;
        gym.pair_up(trial, 6)?;
    }
    trial.run(Command::Snap)?;
    for _ in 0..24 {
        trial.run(Command::Back)?;
        gym.change(trial)?;
        gym.pair_up(trial, 4)?;
    }
    trial.run(Command::Back)?;
    let pairs = gym.any_pairs(trial)?;
    lengths::try_wrong_pairs(trial, &pairs)
}

/// The store on the largest chip beside a small one, both ways.
pub fn beside_largest_chip(trial: &mut Trial, slots: u64) -> Step {
    let largest = Machine { store: trial.judge.selected(), slots, loads: Loads::any(&mut trial.random) };
    let small = Machine::formatted(trial, STORES - 1, 2)?;
    let time = trial.random.pick(&[LAST_TIME - 60_000, LAST_TIME - 1]);
    let mut gym = Gym { time, ..Gym::of(vec![largest, small], &mut trial.random) };
    gym.lift(trial, 12)?;
    gym.pair_up(trial, 4)
}

impl Machine {
    /// A store on chips that held anything.
    fn formatted(trial: &mut Trial, store: usize, slots: u64) -> Result<Machine, Difference> {
        trial.run(Command::Use(store))?;
        trial.lend_chips(slots)?;
        trial.call(Call::Format { slots })?;
        Ok(Machine { store, slots, loads: Loads::any(&mut trial.random) })
    }

    fn select(&self, trial: &mut Trial) -> Step {
        if trial.judge.selected() == self.store {
            return Ok(());
        }
        trial.run(Command::Use(self.store))
    }
}

impl Gym {
    /// Two machines or three, mostly of different S.
    fn any(trial: &mut Trial) -> Result<Gym, Difference> {
        let mut machines = Vec::new();
        for store in 0..trial.random.pick(&[2, 2, 3]) {
            let slots = trial.random.pick(&[2, 2, 3, 4, 5, 8, 17]);
            machines.push(Machine::formatted(trial, store, slots)?);
        }
        Ok(Gym::of(machines, &mut trial.random))
    }

    fn of(machines: Vec<Machine>, random: &mut Random) -> Gym {
        Gym {
            machines,
            members: random.pick(&MEMBERS),
            steps: random.pick(&STEPS),
            sets: random.pick(&SETS),
            close_in: random.pick(&[3, 20, 200, 4000]),
            drop_in: random.pick(&[20, 200, 4000, 4000]),
            time: random.pick(&[0, 0, 1, 1_000_000, 999_999_999_000_000, LAST_TIME - 100_000]),
            times: Vec::new(),
        }
    }

    /// So many lifts or some more, in sets of one member on one machine.
    fn lift(&mut self, trial: &mut Trial, lifts: u64) -> Step {
        let mut left = lifts;
        while left > 0 {
            let place = trial.random.index(self.machines.len());
            let member = trial.random.pick(self.members);
            let set = trial.random.pick(self.sets);
            self.machines[place].select(trial)?;
            for _ in 0..set {
                self.one_lift(trial, place, member)?;
            }
            left = left.saturating_sub(set);
        }
        Ok(())
    }

    fn one_lift(&mut self, trial: &mut Trial, place: usize, member: u32) -> Step {
        let Machine { slots, ref mut loads, .. } = self.machines[place];
        let random = &mut trial.random;
        self.time = (self.time + random.pick(self.steps)).min(LAST_TIME);
        self.times.push(self.time);
        let mut note = random.note();
        note[..4].copy_from_slice(&member.to_le_bytes());
        let load = loads.next(random);
        let (closes, drops) = (random.once_in(self.close_in), random.once_in(self.drop_in));
        trial.call(Call::Append { keeps: false, slots, time: self.time, load, note })?;
        if closes {
            trial.call(Call::Close { slots })?;
        }
        if drops {
            trial.call(Call::Drop { keeps: false, slots })?;
        }
        Ok(())
    }

    /// Selects a machine, to be paired with another one, now and then with itself; now and then another S is named.
    fn any_pairs(&self, trial: &mut Trial) -> Result<Pairs, Difference> {
        let machines = self.machines.len();
        let place = trial.random.index(machines);
        let step = if trial.random.once_in(6) { 0 } else { 1 + trial.random.index(machines - 1) };
        let [first, second] = [place, place + step].map(|place| &self.machines[place % machines]);
        first.select(trial)?;
        let mut named = |slots| match trial.random.once_in(16) {
            true => odd_slots(slots, &mut trial.random),
            false => slots,
        };
        let (slots, second_slots) = (named(first.slots), named(second.slots));
        Ok(Pairs { slots, second: second.store, second_slots, area_bytes: 0 })
    }

    fn pair_up(&self, trial: &mut Trial, times: u64) -> Step {
        (0..times).try_for_each(|_| self.pair_once(trial))
    }

    fn pair_once(&self, trial: &mut Trial) -> Step {
        let mut pairs = self.any_pairs(trial)?;
        let found = trial.pairs_found(&pairs) * PAIR_BYTES;
        pairs.area_bytes = match trial.random.below(8) {
            0 => found.saturating_sub(1),
            1 => trial.random.index(found + 1),
            2 => found + trial.random.index(200),
            3 => found + PAIR_BYTES - 1,
            _ => found,
        };
        trial.run(Command::Pairs(pairs))
    }

    /// Some machines with bytes changed, others as they are.
    fn change(&self, trial: &mut Trial) -> Step {
        for machine in &self.machines {
            if trial.random.once_in(2) {
                machine.select(trial)?;
                self.change_machine(trial, machine.slots)?;
            }
        }
        Ok(())
    }

    /// Records that are no damage, damage, a state at its bounds, and last chips of another length.
    fn change_machine(&self, trial: &mut Trial, slots: u64) -> Step {
        for _ in 0..trial.random.pick(&[0, 1, 3, 10]) {
            self.change_record(trial, slots)?;
        }
        if trial.random.once_in(4) {
            damage_once(trial, slots)?;
        }
        if trial.random.once_in(10) {
            states::move_to_bound(trial, slots)?;
        }
        if trial.random.once_in(20) {
            edges::odd_chips(trial, slots)?;
        }
        Ok(())
    }

    /// Another time or another member for a lift; times may fall by it.
    fn change_record(&self, trial: &mut Trial, slots: u64) -> Step {
        let slot = trial.random.index(slots as usize) * SLOT_BYTES;
        let place = trial.random.pick(&[8, 24, 320]);
        let place = trial.random.index(place);
        let (part, record) = lift_at(trial, slot, place);
        if trial.random.once_in(3) {
            let member = trial.random.pick(self.members);
            return trial.poke(part, record + 12, &member.to_le_bytes());
        }
        let time = self.another_time(&mut trial.random);
        trial.poke(part, record, &time.to_le_bytes())
    }

    /// About as far before or after a lift as a pair may be apart; now and then at the limits of a time.
    fn another_time(&self, random: &mut Random) -> u64 {
        if random.once_in(12) || self.times.is_empty() {
            return random.pick(&[0, 1, 30_000, LAST_TIME - 30_000, LAST_TIME, LAST_TIME + 1, u64::MAX]);
        }
        random.pick(&self.times).saturating_add_signed(random.pick(&APART))
    }
}
