//! The two forms of a store: their plates, and where each field stands in their state areas.

/// Form 0 is document 01's, form 1 that of W-202.
#[derive(Clone, Copy, Debug, PartialEq)]
pub enum Form {
    Old,
    New,
}

impl Form {
    /// The form that a store of this one is carried into.
    pub const fn other(self) -> Form {
        match self {
            Form::Old => Form::New,
            Form::New => Form::Old,
        }
    }

    /// "Header byte 10 is 1 in this form, 0 before." (W-202)
    pub const fn byte_ten(self) -> u8 {
        match self {
            Form::Old => 0,
            Form::New => 1,
        }
    }

    /// "20 above 9,750"; in form 1 "a load above 10,250 is now called plate 21" (W-206)
    pub const fn last_plate(self) -> usize {
        match self {
            Form::Old => 20,
            Form::New => 21,
        }
    }

    /// How many counts a tally has, and in form 1 are kept: one for each plate, from 0 on.
    pub const fn counts(self) -> usize {
        self.last_plate() + 1
    }

    /// How many counts of pages read a search has beside its count of rows: header, Bloom and tree pages, in form 1 alone
    /// (W-207).
    pub const fn page_counts(self) -> usize {
        match self {
            Form::Old => 0,
            Form::New => 3,
        }
    }

    /// "so a pointer gains its serial: slot 2, serial 4, time 8" (W-202)
    pub const fn serial_bytes(self) -> usize {
        match self {
            Form::Old => 0,
            Form::New => 4,
        }
    }

    /// "The oldest live time leaves the state" (W-202)
    const fn live_bytes(self) -> usize {
        match self {
            Form::Old => 8,
            Form::New => 0,
        }
    }

    pub const fn pointer_bytes(self) -> usize {
        2 + self.serial_bytes() + 8
    }

    /// Where the four heads begin; the oldest live time stands before them.
    pub const fn heads(self) -> usize {
        19 + self.live_bytes()
    }

    pub const fn last_loads(self) -> usize {
        self.heads() + 4 * self.pointer_bytes()
    }

    pub const fn page_buffer(self) -> usize {
        self.last_loads() + 4 * 13
    }

    pub const fn bloom_buffer(self) -> usize {
        self.page_buffer() + 512
    }

    /// Where the open segment's start stands, then its low and its high load.
    pub const fn start(self) -> usize {
        self.bloom_buffer() + 128
    }

    /// "783 bytes, or 775 in form 0" (W-214)
    pub const fn state_bytes(self) -> usize {
        self.start() + 16
    }
}
