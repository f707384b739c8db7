//! Chooses the calls of a list: what a console would ask, and what it should not.
use crate::imports;
use crate::judge::Step;
use crate::patterns::{near_plate_end, Loads, Times};
use crate::random::Random;
use crate::tolerant;
use crate::trial::Trial;
use model::limits::{EVERYTHING, GREATEST_LOAD, LAST_TIME, LEAST_LOAD};
use model::paper::Lift;
use model::stacks::{carried, ends};
use script::calls::{Call, Window, ROW_BYTES};
use script::command::Field;
use script::form::Form;

pub struct Habits {
    pub slots: u64,
    loads: Loads,
    times: Times,
    /// One call in so many is a close, a drop, a search, an import, of no use.
    close_in: u64,
    drop_in: u64,
    search_in: u64,
    import_in: u64,
    odd_in: u64,
    /// Of four appends and drops so many keep counts, in form 1.
    keeping: u64,
    /// Times and loads that were handed in; the store may have lost them since.
    lifts: Vec<(u64, i32)>,
    /// Times at which a segment began.
    starts: Vec<u64>,
}

impl Habits {
    pub fn any(slots: u64, random: &mut Random) -> Habits {
        Habits {
            slots,
            loads: Loads::any(random),
            times: Times::any(random),
            close_in: random.pick(&[5, 60, 1000, 4000, 4000]),
            drop_in: random.pick(&[10, 200, 4000, 4000]),
            search_in: random.pick(&[4, 12, 40]),
            import_in: random.pick(&[20, 100, 1000]),
            odd_in: random.pick(&[20, 60]),
            keeping: random.pick(&[0, 0, 4, 4, 3]),
            lifts: Vec::new(),
            starts: Vec::new(),
        }
    }

    /// Loads from now on that need many buckets.
    pub fn spread_loads(&mut self) {
        self.loads = Loads::Even { load: 0 };
    }

    /// Loads from now on at the limits and elsewhere, close together or so far apart.
    pub fn set_loads_apart(&mut self, apart: i32, random: &mut Random) {
        self.loads = Loads::apart(apart, random);
    }

    /// Loads from now on at the ends of plates and beside them.
    pub fn lift_at_plate_ends(&mut self) {
        self.loads = Loads::AtPlateEnds;
    }

    /// From now on so many of four appends and drops keep counts.
    pub fn keep_counts(&mut self, keeping: u64) {
        self.keeping = keeping;
    }

    pub fn keeps(&self, trial: &mut Trial) -> bool {
        trial.form == Form::New && trial.random.below(4) < self.keeping
    }

    /// From now on each lift later than the one before.
    pub fn let_times_rise(&mut self) {
        self.times = Times::Dense;
    }

    pub fn one_call(&mut self, trial: &mut Trial) -> Step {
        let random = &mut trial.random;
        if random.once_in(self.odd_in) {
            let call = self.odd_call(trial);
            return trial.call(call);
        }
        if random.once_in(self.search_in) {
            return self.ask(trial);
        }
        if random.once_in(self.close_in) {
            return trial.call(Call::Close { slots: self.slots });
        }
        if random.once_in(self.drop_in) {
            return self.drop(trial);
        }
        if trial.form == Form::New && random.once_in(self.import_in) {
            let records = random.below(30);
            return imports::import(trial, self, records);
        }
        if random.once_in(1000) {
            self.loads = Loads::any(random);
            self.times = Times::any(random);
        }
        self.append(trial)
    }

    pub fn append(&mut self, trial: &mut Trial) -> Step {
        let last_time = trial.field(Field::Next);
        let time = self.times.after(last_time, &mut trial.random);
        let load = self.loads.next(&mut trial.random);
        let note = trial.random.note();
        let keeps = self.keeps(trial);
        trial.call(Call::Append { keeps, slots: self.slots, time, load, note })?;
        self.lifts.push((time, load));
        if trial.field(Field::Count) == 1 {
            self.starts.push(time);
        }
        Ok(())
    }

    /// Lifts that may be appended one after another.
    pub fn next_lifts(&mut self, trial: &mut Trial, count: u64) -> Vec<Lift> {
        let mut time = trial.field(Field::Next);
        let lift = |_| {
            time = self.times.after(time, &mut trial.random);
            Lift { time, load: self.loads.next(&mut trial.random), note: trial.random.note() }
        };
        let lifts: Vec<Lift> = (0..count).map(lift).collect();
        self.lifts.extend(lifts.iter().map(|lift| (lift.time, lift.load)));
        lifts
    }

    pub fn close(&mut self, trial: &mut Trial) -> Step {
        trial.call(Call::Close { slots: self.slots })
    }

    pub fn drop(&mut self, trial: &mut Trial) -> Step {
        let keeps = self.keeps(trial);
        trial.call(Call::Drop { keeps, slots: self.slots })
    }

    /// A search, now and then a tally, a page, a plate or, in form 1, a tolerant search or an export.
    pub fn ask(&mut self, trial: &mut Trial) -> Step {
        let slots = self.slots;
        let window = self.window(&mut trial.random);
        match trial.random.below(10) {
            0 | 1 => {
                let call = tally_or_page(trial, slots, window.t1, window.t2);
                trial.call(call)
            }
            2 => {
                let call = lookup(&mut trial.random);
                trial.call(call)
            }
            3 if trial.form == Form::New => {
                let tolerance = tolerant::any_tolerance(&mut trial.random);
                tolerant::search_about(trial, slots, window, tolerance)
            }
            4 if trial.form == Form::New => imports::export(trial, slots, window),
            _ => {
                let found = trial.rows_found(slots, &window) * ROW_BYTES;
                let area_bytes = match trial.random.below(6) {
                    0 => found,
                    1 => found.saturating_sub(1),
                    2 => trial.random.index(found + 1),
                    _ => found + trial.random.index(200),
                };
                trial.call(Call::Search { slots, window, area_bytes })
            }
        }
    }

    pub fn search_all(&mut self, trial: &mut Trial) -> Step {
        let area_bytes = (trial.rows_found(self.slots, &EVERYTHING) + 1) * ROW_BYTES;
        trial.call(Call::Search { slots: self.slots, window: EVERYTHING, area_bytes })
    }

    /// A search of a window that ends before many segments.
    pub fn search_early(&self, trial: &mut Trial) -> Step {
        let random = &mut trial.random;
        let (a, b) = (self.early_time(random), self.early_time(random));
        let (t1, t2) = random.pick(&[(0, a), (0, a), (a, a), (a.min(b), a.max(b))]);
        let (k1, k2) = self.loads(random);
        self.search(trial, Window { t1, t2, k1, k2 })
    }

    /// A search for one load, of all times or of a window.
    pub fn search_one_load(&self, trial: &mut Trial) -> Step {
        let random = &mut trial.random;
        let window = self.window(random);
        let load = self.one_load(random);
        self.search(trial, Window { k1: load, k2: load, ..window })
    }

    /// With room for all rows.
    fn search(&self, trial: &mut Trial, window: Window) -> Step {
        let area_bytes = trial.rows_found(self.slots, &window) * ROW_BYTES;
        trial.call(Call::Search { slots: self.slots, window, area_bytes })
    }

    fn known_lift(&self, random: &mut Random) -> (u64, i32) {
        if self.lifts.is_empty() {
            return (random.below(10), random.load(-10, 10));
        }
        let latest = self.lifts.len().min(1 + 320 * self.slots as usize);
        self.lifts[self.lifts.len() - 1 - random.index(latest)]
    }

    /// The starts of the latest segments, those that the store may still have.
    fn latest_starts(&self) -> &[u64] {
        &self.starts[self.starts.len().saturating_sub(self.slots as usize + 1)..]
    }

    /// The time of a lift, the start of a segment, or a millisecond beside it.
    fn known_time(&self, random: &mut Random) -> u64 {
        let time = match self.latest_starts() {
            [] => self.known_lift(random).0,
            starts if random.once_in(2) => random.pick(starts),
            _ => self.known_lift(random).0,
        };
        beside(time, random)
    }

    /// The start of a segment, rather an old one, or a millisecond beside it.
    fn early_time(&self, random: &mut Random) -> u64 {
        let time = match self.latest_starts() {
            [] => self.known_lift(random).0,
            starts => starts[random.index(starts.len()).min(random.index(starts.len()))],
        };
        beside(time, random)
    }

    pub fn window(&self, random: &mut Random) -> Window {
        let (a, b) = (self.known_time(random), self.known_time(random));
        let (t1, t2) = match random.below(6) {
            0 | 1 => (0, LAST_TIME),
            2 => (a, a),
            3 => (a, (a + 86_399_999).min(LAST_TIME)),
            _ => (a.min(b), a.max(b)),
        };
        let (k1, k2) = self.loads(random);
        Window { t1, t2, k1, k2 }
    }

    /// One load, all loads, or the loads from one lift's to another's.
    fn loads(&self, random: &mut Random) -> (i32, i32) {
        match random.below(7) {
            0..=3 => {
                let load = self.one_load(random);
                (load, load)
            }
            4 => (LEAST_LOAD, GREATEST_LOAD),
            _ => {
                let (k, l) = (self.known_lift(random).1, self.known_lift(random).1);
                (k.min(l), k.max(l))
            }
        }
    }

    /// A load that was lifted, one beside it, or one between two lifted ones, mostly absent and in span.
    fn one_load(&self, random: &mut Random) -> i32 {
        let (k, l) = (self.known_lift(random).1, self.known_lift(random).1);
        match random.below(4) {
            0 | 1 => k,
            2 => (k + random.pick(&[-1, 1])).clamp(LEAST_LOAD, GREATEST_LOAD),
            _ => random.load(k.min(l), k.max(l)),
        }
    }

    /// A call that grounds 1 and 4 to 9 are against, or that looks like one.
    fn odd_call(&mut self, trial: &mut Trial) -> Call {
        let last_time = trial.field(Field::Next);
        let keeps = self.keeps(trial);
        let random = &mut trial.random;
        let slots = if random.once_in(4) { odd_slots(self.slots, random) } else { self.slots };
        let time = match random.below(3) {
            0 => last_time.saturating_sub(1 + random.below(3)),
            1 => random.pick(&[LAST_TIME, LAST_TIME + 1, u64::MAX]),
            _ => last_time.saturating_add(random.below(2)),
        };
        let load = if random.once_in(3) { odd_load(random) } else { self.known_lift(random).1 };
        let mut window = self.window(random);
        match random.below(6) {
            0 => std::mem::swap(&mut window.t1, &mut window.t2),
            1 => std::mem::swap(&mut window.k1, &mut window.k2),
            2 => window.t1 = time,
            3 => window.t2 = time,
            4 => window.k1 = load,
            _ => window.k2 = load,
        }
        match random.below(9) {
            0 => Call::Close { slots },
            1 => Call::Drop { keeps, slots },
            2 | 3 => Call::Append { keeps, slots, time, load, note: random.note() },
            4 | 5 => tally_or_page(trial, slots, window.t1, window.t2),
            6 => Call::Plate { place: any_place(random), load },
            _ => Call::Search { slots, window, area_bytes: random.index(2000) },
        }
    }
}

/// The time, or a millisecond before or after it.
fn beside(time: u64, random: &mut Random) -> u64 {
    time.saturating_add(random.pick(&[0, 1, 1, 1, 2])).saturating_sub(1).min(LAST_TIME)
}

pub fn odd_slots(slots: u64, random: &mut Random) -> u64 {
    let choices = [0, 1, slots - 1, slots + 1, 2 * slots, 4096, 4097, 1 << 32 | slots, 1 << 50, u64::MAX];
    random.pick(&choices)
}

pub fn odd_load(random: &mut Random) -> i32 {
    random.pick(&[LEAST_LOAD - 1, LEAST_LOAD, GREATEST_LOAD, GREATEST_LOAD + 1, i32::MIN, i32::MAX])
}

/// The tally of a window or its page, which a store of form 0 has not.
pub fn tally_or_page(trial: &mut Trial, slots: u64, t1: u64, t2: u64) -> Call {
    if trial.form == Form::New && trial.random.once_in(2) {
        return Call::Page { slots, t1, t2 };
    }
    Call::Tally { slots, t1, t2 }
}

/// A stack that is carried, now and then a place beyond them.
fn any_place(random: &mut Random) -> u64 {
    if random.once_in(6) {
        return random.pick(&[2, 3, 16, 255, 256, 257, 1 << 32, 1 << 32 | 1, 1 << 63, u64::MAX - 1, u64::MAX]);
    }
    random.below(2)
}

/// A plate looked up near the end of its band on that stack, or past the limits.
fn lookup(random: &mut Random) -> Call {
    let place = any_place(random);
    let load = match carried().get(place as usize) {
        _ if random.once_in(10) => odd_load(random),
        Some(stack) if random.once_in(2) => random.pick(&ends(stack)) as i32 + random.load(-1, 1),
        _ => near_plate_end(random),
    };
    Call::Plate { place, load }
}
