//! Document 02, W-210: the counts kept beside a state, by plate.
use crate::limits::*;
use crate::plate::plate_of;
use script::areas::COUNT_BYTES;
use script::form::Form;

const PLATES: usize = Form::New.counts();

#[derive(Clone, Debug, PartialEq)]
pub struct Counts([u32; PLATES]);

impl Counts {
    /// "0 at format"
    pub const ZERO: Counts = Counts([0; PLATES]);

    /// How many of these loads lie on each plate.
    pub fn of(loads: impl Iterator<Item = i32>) -> Counts {
        let mut counts = Counts::ZERO;
        loads.for_each(|load| counts.add(load));
        counts
    }

    pub fn from_bytes(bytes: &[u8]) -> Counts {
        let count = |plate: usize| bytes[COUNT_BYTES * plate..][..COUNT_BYTES].try_into().unwrap();
        Counts(std::array::from_fn(|plate| u32::from_le_bytes(count(plate))))
    }

    pub fn to_bytes(&self) -> Vec<u8> {
        self.0.iter().flat_map(|count| count.to_le_bytes()).collect()
    }

    pub fn values(&self) -> [u64; PLATES] {
        self.0.map(u64::from)
    }

    pub fn sum(&self) -> u64 {
        self.values().iter().sum()
    }

    /// "Counts with a sum above 1,310,720 break ground 3."
    pub fn check_sum(&self) -> Outcome<()> {
        refuse_if(self.sum() > MOST_COUNTED, STATE_BOUND)
    }

    pub fn set(&mut self, plate: usize, value: u32) {
        if let Some(count) = self.0.get_mut(plate) {
            *count = value;
        }
    }

    /// A lift is appended.
    pub fn add(&mut self, load: i32) {
        self.0[plate_of(Form::New, load)] += 1;
    }

    /// A lift goes. "a load there past its limit, or a count that would fall below zero, is damage"
    pub fn take_out(&mut self, load: i64) -> Outcome<()> {
        let load = i32::try_from(load).map_err(|_| DAMAGE)?;
        refuse_if(load_past_limit(load), DAMAGE)?;
        let count = &mut self.0[plate_of(Form::New, load)];
        *count = count.checked_sub(1).ok_or(DAMAGE)?;
        Ok(())
    }

    /// What is left once all these have gone: of each plate no more than there are.
    pub fn less(&self, gone: &Counts) -> Outcome<Counts> {
        let too_many = self.0.iter().zip(gone.0).any(|(count, gone)| gone > *count);
        refuse_if(too_many, DAMAGE)?;
        Ok(Counts(std::array::from_fn(|plate| self.0[plate] - gone.0[plate])))
    }
}

#[cfg(test)]
mod tests {
    use super::*;

    #[test]
    fn the_sum_and_its_bound() {
        let mut counts = Counts::ZERO;
        counts.set(0, 1_310_000);
        counts.set(21, 720);
        assert_eq!(counts.check_sum(), Ok(()));
        counts.add(GREATEST_LOAD);
        assert_eq!((counts.sum(), counts.check_sum()), (1_310_721, Err(STATE_BOUND)));
        (0..PLATES).for_each(|plate| counts.set(plate, u32::MAX));
        assert_eq!(counts.sum(), 22 * u64::from(u32::MAX));
    }

    /// Lift by lift and all at once come to the same.
    #[test]
    fn lifts_that_go() {
        let counts = Counts::of([250, 251, 251, 10_251].into_iter());
        let mut left = counts.clone();
        assert_eq!([251, 250, 251].map(|load| left.take_out(load)), [Ok(()); 3]);
        assert_eq!(left, Counts::of([GREATEST_LOAD].into_iter()));
        assert_eq!(counts.less(&Counts::of([251, 250, 251].into_iter())), Ok(left.clone()));
        assert_eq!([250, 100_001, -50_001, 1 << 31].map(|load| left.take_out(load)), [Err(DAMAGE); 4]);
        assert_eq!(counts.less(&Counts::of([250, 250].into_iter())), Err(DAMAGE));
    }

    #[test]
    fn four_bytes_a_plate() {
        let mut counts = Counts::ZERO;
        counts.set(1, 0x0403_0201);
        counts.set(PLATES, 9);
        let bytes = counts.to_bytes();
        assert_eq!((bytes.len(), &bytes[..9]), (88, &[0, 0, 0, 0, 1, 2, 3, 4, 0][..]));
        assert_eq!(Counts::from_bytes(&bytes), counts);
    }
}
