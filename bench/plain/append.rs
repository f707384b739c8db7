//! Append: every ground is looked for before anything is written.
use crate::bloom::{self, SECTIONS_AT, SECTION_BYTES};
use crate::bytes::{is_erased, page, program, put, slot, slot_mut, slot_of};
use crate::state::State;
use crate::tree::{self, entry_at, Plan, BUCKET_BYTES, MID_AT, TREE_BYTES};
use crate::{load_ok, stored, Ground, CODE_MAX, LIFTS_PER_PAGE, LIFTS_PER_SECTION, PAGE_BYTES};
use crate::{RECORD_BYTES, TIME_MAX};

const LAST_SERIAL: u32 = 999_999_998;

impl State {
    pub fn append(
        &mut self,
        nand: &mut [u8],
        nor: &mut [u8],
        slots: u64,
        time: u64,
        load: i32,
        note: &[u8; 20],
    ) -> Result<(), Ground> {
        self.check(nand, nor, slots)?;
        self.append_unless(nand, nor, slots, time, load, note, |_, _, _| Ok(()))
    }

    /// Grounds 4 and on. A forced drop is asked about while nothing is written yet: the state, NAND and the open serial by then.
    #[inline(always)]
    pub(crate) fn append_unless(
        &mut self,
        nand: &mut [u8],
        nor: &mut [u8],
        slots: u64,
        time: u64,
        load: i32,
        note: &[u8; 20],
        drop_refused: impl FnOnce(&State, &[u8], u32) -> Result<(), Ground>,
    ) -> Result<(), Ground> {
        self.check_lift(time, load)?;
        let code = stored(load);
        let buckets: &[u8; TREE_BYTES] = nor[..TREE_BYTES].try_into().unwrap();
        let plan = tree::plan(buckets, self.buckets, self.count, &self.loads, code)?;
        if let Plan::Full = plan {
            if u64::from(self.open + 1 - self.oldest) >= slots {
                drop_refused(self, nand, self.open + 1)?;
            }
            self.check_pages_due(nand, slots)?;
            self.close_segment(nand, nor, slots);
        } else {
            if self.count == 0 && u64::from(self.open - self.oldest) >= slots {
                drop_refused(self, nand, self.open)?;
            }
            self.check_writes(nand, nor, slots, &plan)?;
        }
        // The first lift of a segment takes the slot of the oldest, if all are in use.
        if self.count == 0 && u64::from(self.open - self.oldest) >= slots {
            self.forget_oldest(nand, slots);
        }
        self.index(nor, plan, code);
        self.record(nand, slots, time, code, note);
        self.count_in(time, load);
        Ok(())
    }

    /// Grounds 4, 5, 7 and 8.
    fn check_lift(&self, time: u64, load: i32) -> Result<(), Ground> {
        if time > TIME_MAX {
            Err(Ground::TimeLimit)
        } else if !load_ok(load) {
            Err(Ground::LoadLimit)
        } else if time < self.next {
            Err(Ground::TimeBelowLast)
        } else if self.open >= LAST_SERIAL {
            Err(Ground::SerialsUsedUp)
        } else {
            Ok(())
        }
    }

    /// Ground 10 over the NOR bytes due for writing, then ground 11 over the page that this lift fills.
    fn check_writes(&self, nand: &[u8], nor: &[u8], slots: u64, plan: &Plan) -> Result<(), Ground> {
        let count = usize::from(self.count);
        let clear = |at: usize, n: usize| is_erased(&nor[at..at + n]);
        let new_bucket = |b: u8| clear(usize::from(b) * BUCKET_BYTES, 8) && clear(entry_at(b, 0), 6);
        let tree_clear = match *plan {
            Plan::Full => true,
            Plan::Root => new_bucket(0),
            Plan::Entry { bucket, i } => clear(entry_at(bucket, i), 6),
            // An unused mid is 255 as read.
            Plan::Child { parent, side, .. } => {
                nor[usize::from(parent) * BUCKET_BYTES + side] == 255 && new_bucket(self.buckets)
            }
        };
        let section_full = count % LIFTS_PER_SECTION == LIFTS_PER_SECTION - 1;
        let section_at = SECTIONS_AT + count / LIFTS_PER_SECTION * SECTION_BYTES;
        if !tree_clear || (section_full && !clear(section_at, SECTION_BYTES)) {
            return Err(Ground::Damage);
        }
        let page_full = count % LIFTS_PER_PAGE == LIFTS_PER_PAGE - 1;
        let slot = slot(nand, slot_of(self.open, slots));
        if page_full && !is_erased(page(slot, count / LIFTS_PER_PAGE)) {
            return Err(Ground::PageNotErased);
        }
        Ok(())
    }

    /// The entry goes into the tree, the load's bits into the Bloom buffer, a full section to NOR.
    fn index(&mut self, nor: &mut [u8], plan: Plan, code: u32) {
        let (bucket, i) = match plan {
            Plan::Full | Plan::Root => (self.new_bucket(nor, 0, CODE_MAX), 0),
            Plan::Entry { bucket, i } => (bucket, i),
            Plan::Child { parent, mid, side, x, y } => {
                let at = usize::from(parent) * BUCKET_BYTES;
                if let Some(mid) = mid {
                    put(nor, at + MID_AT, mid.to_le_bytes());
                }
                nor[at + side] = self.buckets;
                (self.new_bucket(nor, x, y), 0)
            }
        };
        put(nor, entry_at(bucket, i), code.to_le_bytes());
        put(nor, entry_at(bucket, i) + 4, self.count.to_le_bytes());
        bloom::note(&mut self.bloom, code);
        let count = usize::from(self.count);
        if count % LIFTS_PER_SECTION == LIFTS_PER_SECTION - 1 {
            put(nor, SECTIONS_AT + count / LIFTS_PER_SECTION * SECTION_BYTES, self.bloom);
            self.bloom = [0; SECTION_BYTES];
        }
    }

    fn new_bucket(&mut self, nor: &mut [u8], x: u32, y: u32) -> u8 {
        let b = self.buckets;
        let at = usize::from(b) * BUCKET_BYTES;
        put(nor, at, x.to_le_bytes());
        put(nor, at + 4, y.to_le_bytes());
        self.buckets += 1;
        b
    }

    /// The record goes into the page buffer, a full page to NAND.
    fn record(&mut self, nand: &mut [u8], slots: u64, time: u64, code: u32, note: &[u8; 20]) {
        let count = usize::from(self.count);
        let at = count % LIFTS_PER_PAGE * RECORD_BYTES;
        put(&mut self.page, at, time.to_le_bytes());
        put(&mut self.page, at + 8, code.to_le_bytes());
        put(&mut self.page, at + 12, *note);
        if count % LIFTS_PER_PAGE == LIFTS_PER_PAGE - 1 {
            let slot = slot_mut(nand, slot_of(self.open, slots));
            program(slot, count / LIFTS_PER_PAGE, &self.page);
            self.page = [255; PAGE_BYTES];
        }
    }

    fn count_in(&mut self, time: u64, load: i32) {
        let count = usize::from(self.count);
        if count == 0 {
            self.start = time;
            self.low = load;
            self.high = load;
        } else {
            self.low = self.low.min(load);
            self.high = self.high.max(load);
        }
        if count < self.loads.len() {
            self.loads[count] = load;
        } else {
            self.loads.rotate_left(1);
            self.loads[12] = load;
        }
        self.count += 1;
        self.next = time;
    }
}
