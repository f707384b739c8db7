//! Document 01, "Paper log": lists of lifts under serials, and W-210's counts beside them; what it says of W-211's text. It
//! never sees chips, state or answers.
use crate::counts::Counts;
use crate::limits::*;
use crate::load_tree::LoadTree;
use crate::plate::plate_of;
use crate::service_page::{page, text_of};
use crate::stacks::plate_at;
use crate::text::{check_area, import, text_of as text_of_lifts, Importing};
use script::calls::{Call, Window};
use script::form::Form;

/// A lift as a search gives it.
pub type Record = [u8; ROW_BYTES];

#[derive(Clone, Debug, PartialEq)]
pub struct Lift {
    pub time: u64,
    pub load: i32,
    pub note: [u8; 20],
}

impl Lift {
    /// The lift that a search gives so, with a load within its limits.
    pub fn of_record(record: &Record) -> Lift {
        let stored_load = u32::from_le_bytes(record[8..12].try_into().unwrap());
        Lift {
            time: u64::from_le_bytes(record[..8].try_into().unwrap()),
            load: (i64::from(stored_load) - LOAD_SHIFT) as i32,
            note: record[12..].try_into().unwrap(),
        }
    }

    pub fn record(&self) -> Record {
        let mut record = [0; ROW_BYTES];
        let stored_load = (i64::from(self.load) + LOAD_SHIFT) as u32;
        record[..8].copy_from_slice(&self.time.to_le_bytes());
        record[8..12].copy_from_slice(&stored_load.to_le_bytes());
        record[12..].copy_from_slice(&self.note);
        record
    }
}

/// Why the open serial closed in a call.
#[derive(Clone, Copy, PartialEq)]
pub enum Closed {
    ByClose,
    At320Lifts,
    ForBucket36,
}

/// What the log says of a call. An import appends many lifts, also one that is refused.
#[derive(Default)]
pub struct Said {
    pub number: u8,
    pub lifts_taken: u64,
    /// Serials that went: their slots, and no others, are erased in this call.
    pub gone: Vec<u64>,
    /// How many lifts went with them.
    pub lifts_gone: u64,
    pub closed: Vec<Closed>,
    /// Appends at the time of the one before.
    pub repeated_times: u64,
    /// The rows of a search, one after another; the text of an export.
    pub rows: Vec<u8>,
    /// Of a search the count of rows (no log knows of pages read), of a tally or a page its counts, of a lookup the plate, of
    /// an export the length, of an import the line.
    pub values: Vec<u64>,
    /// The lines of a page.
    pub page: Vec<String>,
}

impl Said {
    fn refusal(number: u8) -> Said {
        Said { number, ..Said::default() }
    }

    /// Takes in what is said of one append more.
    fn go_on(&mut self, append: Said) {
        self.lifts_taken += append.lifts_taken;
        self.gone.extend(append.gone);
        self.lifts_gone += append.lifts_gone;
        self.closed.extend(append.closed);
        self.repeated_times += append.repeated_times;
    }

    /// The bytes of the answer area: the values, or the page.
    pub fn answer(&self) -> Vec<u8> {
        if self.page.is_empty() {
            return self.values.iter().flat_map(|value| value.to_le_bytes()).collect();
        }
        text_of(&self.page).into_bytes()
    }
}

/// The log is the same in both forms; they differ in whether a lift may have the time of the one before.
#[derive(Clone)]
pub struct PaperLog {
    form: Form,
    slots: u64,
    /// Closed segments, oldest first; the last one's serial is the open serial less 1.
    closed: std::collections::VecDeque<Vec<Lift>>,
    open: Vec<Lift>,
    open_serial: u64,
    open_tree: LoadTree,
    /// The last accepted time; none after the format.
    last_time: Option<u64>,
    /// The counts that calls of form 1 may keep.
    pub counts: Counts,
}

impl PaperLog {
    pub fn formatted(form: Form, slots: u64) -> PaperLog {
        PaperLog {
            form,
            slots,
            closed: Default::default(),
            open: Vec::new(),
            open_serial: 1,
            open_tree: LoadTree::default(),
            last_time: None,
            counts: Counts::ZERO,
        }
    }

    pub fn form(&self) -> Form {
        self.form
    }

    pub fn slots(&self) -> u64 {
        self.slots
    }

    /// "last accepted + 1, at first 0"; in form 1 "next time becomes the last accepted time" (W-202)
    pub fn next_time(&self) -> u64 {
        match (self.last_time, self.form) {
            (None, _) => 0,
            (Some(last), Form::Old) => last + 1,
            (Some(last), Form::New) => last,
        }
    }

    /// A conversion (W-203) keeps serials and lifts.
    pub fn carried_into(mut self, form: Form) -> PaperLog {
        self.form = form;
        self
    }

    /// Whether each lift is later than the one before it.
    pub fn times_rise(&self) -> bool {
        self.lifts().zip(self.lifts().skip(1)).all(|(before, lift)| before.time < lift.time)
    }

    /// Every lift that the log holds, oldest first.
    pub fn lifts(&self) -> impl Iterator<Item = &Lift> {
        self.closed.iter().flatten().chain(&self.open)
    }

    pub fn closed_segments(&self) -> u64 {
        self.closed.len() as u64
    }

    fn oldest_serial(&self) -> u64 {
        self.open_serial - self.closed_segments()
    }

    /// The number of a call after the format, and what it does.
    pub fn call(&mut self, call: &Call) -> Said {
        self.answer(call).unwrap_or_else(Said::refusal)
    }

    /// What is said of an accepted call, and of any import.
    fn answer(&mut self, call: &Call) -> Outcome<Said> {
        match *call {
            Call::Plate { place, load } => Ok(Said { values: vec![plate_at(place, load)? as u64], ..Said::default() }),
            Call::Import { keeps, slots, ref text } => Ok(self.import(keeps, slots, text)),
            Call::Format { slots }
            | Call::Append { slots, .. }
            | Call::Close { slots }
            | Call::Drop { slots, .. }
            | Call::Search { slots, .. }
            | Call::Tally { slots, .. }
            | Call::Page { slots, .. }
            | Call::Export { slots, .. }
                if slots != self.slots =>
            {
                Err(SLOTS_OR_NAND_LENGTH)
            }
            Call::Format { slots } => {
                *self = PaperLog::formatted(self.form, slots);
                Ok(Said::default())
            }
            Call::Append { keeps, time, load, note, .. } => self.append(keeps, Lift { time, load, note }),
            Call::Close { .. } => self.close(),
            Call::Drop { keeps, .. } => self.drop_oldest(keeps),
            Call::Search { window, area_bytes, .. } => self.search(&window, area_bytes / ROW_BYTES),
            Call::Tally { t1, t2, .. } => self.tally(t1, t2),
            Call::Page { t1, t2, .. } => self.service_page(t1, t2),
            Call::Export { window, area_bytes, .. } => self.export(&window, area_bytes),
        }
    }

    fn append(&mut self, keeps: bool, lift: Lift) -> Outcome<Said> {
        self.check_counts(keeps)?;
        refuse_if(time_past_limit(lift.time), TIME_LIMIT)?;
        refuse_if(load_past_limit(lift.load), LOAD_LIMIT)?;
        refuse_if(lift.time < self.next_time(), TIME_BELOW_NEXT)?;
        refuse_if(self.open_serial >= u64::from(LAST_SERIAL) - 1, LAST_SERIALS)?;
        let closed = if self.open.len() == SEGMENT_LIFTS {
            Some(Closed::At320Lifts)
        } else if self.open_tree.needs_bucket_36(lift.load) {
            Some(Closed::ForBucket36)
        } else {
            None
        };
        let serial = self.open_serial + u64::from(closed.is_some());
        let is_forced = serial > self.slots && self.oldest_serial() <= serial - self.slots;
        let mut said = if is_forced { self.lose_oldest(keeps)? } else { Said::default() };
        if keeps {
            self.counts.add(lift.load);
        }
        if closed.is_some() {
            self.begin_next_serial();
        }
        self.open_tree.take(lift.load);
        said.lifts_taken = 1;
        said.closed.extend(closed);
        said.repeated_times = u64::from(Some(lift.time) == self.last_time);
        self.last_time = Some(lift.time);
        self.open.push(lift);
        Ok(said)
    }

    /// "Counts with a sum above 1,310,720 break ground 3", for a call that keeps them.
    fn check_counts(&self, keeps: bool) -> Outcome<()> {
        if keeps {
            self.counts.check_sum()?;
        }
        Ok(())
    }

    /// The oldest closed segment goes and, if the call keeps counts, leaves them; the one ground against that is damage.
    fn lose_oldest(&mut self, keeps: bool) -> Outcome<Said> {
        let gone = self.oldest_serial();
        if keeps {
            let lost = Counts::of(self.closed[0].iter().map(|lift| lift.load));
            self.counts = self.counts.less(&lost)?;
        }
        let lifts = self.closed.pop_front().map_or(0, |lifts| lifts.len() as u64);
        Ok(Said { gone: vec![gone], lifts_gone: lifts, ..Said::default() })
    }

    fn begin_next_serial(&mut self) {
        self.closed.push_back(std::mem::take(&mut self.open));
        self.open_tree = LoadTree::default();
        self.open_serial += 1;
    }

    fn close(&mut self) -> Outcome<Said> {
        refuse_if(self.open.is_empty(), NOTHING_TO_DO)?;
        self.begin_next_serial();
        Ok(Said { closed: vec![Closed::ByClose], ..Said::default() })
    }

    fn drop_oldest(&mut self, keeps: bool) -> Outcome<Said> {
        self.check_counts(keeps)?;
        refuse_if(self.closed.is_empty(), NOTHING_TO_DO)?;
        self.lose_oldest(keeps)
    }

    /// The lifts of a window, or the first of grounds 4 to 6 against it.
    pub fn found(&self, window: &Window) -> Outcome<Vec<&Lift>> {
        let Window { t1, t2, k1, k2 } = *window;
        refuse_if(time_past_limit(t1) || time_past_limit(t2), TIME_LIMIT)?;
        refuse_if(load_past_limit(k1) || load_past_limit(k2), LOAD_LIMIT)?;
        refuse_if(t1 > t2 || k1 > k2, BACKWARD_RANGE)?;
        let wanted = |lift: &&Lift| (t1..=t2).contains(&lift.time) && (k1..=k2).contains(&lift.load);
        Ok(self.lifts().filter(wanted).collect())
    }

    fn search(&self, window: &Window, whole_rows: usize) -> Outcome<Said> {
        let found = self.found(window)?;
        refuse_if(found.len() > whole_rows, TOO_MANY_ROWS)?;
        let rows = found.iter().flat_map(|lift| lift.record()).collect();
        Ok(Said { rows, values: vec![found.len() as u64], ..Said::default() })
    }

    fn tally(&self, t1: u64, t2: u64) -> Outcome<Said> {
        let mut counts = vec![0; self.form.counts()];
        for lift in self.found(&Window { t1, t2, k1: LEAST_LOAD, k2: GREATEST_LOAD })? {
            counts[plate_of(self.form, lift.load)] += 1;
        }
        Ok(Said { values: counts, ..Said::default() })
    }

    fn service_page(&self, t1: u64, t2: u64) -> Outcome<Said> {
        let tally = self.tally(t1, t2)?;
        Ok(Said { page: page(t1, t2, &tally.values), ..tally })
    }

    fn export(&self, window: &Window, area_bytes: usize) -> Outcome<Said> {
        let text = text_of_lifts(self.found(window)?.into_iter());
        check_area(&text, area_bytes)?;
        Ok(Said { values: vec![text.len() as u64], rows: text, ..Said::default() })
    }

    fn import(&mut self, keeps: bool, slots: u64, text: &[u8]) -> Said {
        let mut target = Target { log: self, keeps, slots, said: Said::default() };
        let (number, line) = import(text, &mut target);
        Said { number, values: vec![line], ..target.said }
    }
}

/// A log under import, and what is said of the lifts that went in.
struct Target<'a> {
    log: &'a mut PaperLog,
    keeps: bool,
    slots: u64,
    said: Said,
}

impl Importing for Target<'_> {
    fn check(&self) -> Outcome<()> {
        refuse_if(self.slots != self.log.slots, SLOTS_OR_NAND_LENGTH)?;
        self.log.check_counts(self.keeps)
    }

    fn append(&mut self, lift: Lift) -> Outcome<()> {
        let append = self.log.append(self.keeps, lift)?;
        self.said.go_on(append);
        Ok(())
    }
}
