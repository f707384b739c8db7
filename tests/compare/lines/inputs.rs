//! An input of `slotlist` from a seed: lines that suit what the log holds by then, and lines that do not.
use super::windows::Held;
use super::{other_forms, spelling};
use crate::figures::Turns;
use crate::patterns::{Loads, Times};
use crate::random::Random;
use model::limits::{GREATEST_LOAD, LAST_TIME, LEAST_LOAD};
use model::lines::{asked, lines_of, SLOTS};
use model::paper::PaperLog;
use script::calls::Window;
use script::form::Form;

/// A habit gives one line or two, without the last line feed.
type Habit = fn(&mut Input) -> Vec<u8>;
const HABITS: [Habit; 6] =
    [Input::append, Input::close, Input::drop_oldest, Input::ask, Input::ask_in_vain, Input::other_form];

/// How often each habit comes: from inputs of full segments to inputs with hardly a lift.
const MOODS: [[u64; 6]; 6] = [
    [400, 0, 0, 10, 2, 2],
    [1200, 1, 1, 30, 4, 4],
    [60, 1, 0, 20, 2, 2],
    [20, 2, 1, 10, 2, 2],
    [6, 3, 3, 8, 3, 3],
    [4, 1, 1, 2, 4, 20],
];

struct Input {
    random: Random,
    bytes: Vec<u8>,
    /// What the lines so far lead to.
    log: PaperLog,
    loads: Loads,
    times: Times,
}

pub fn input_of(seed: u64, turns: &mut Turns) -> Vec<u8> {
    let mut input = Input::begun(Random::new(seed));
    let lines = input.random.pick(&[4, 40, 400, 1500, 3000]);
    let weights = input.random.pick(&MOODS);
    for _ in 0..input.random.below(lines) {
        if input.random.once_in(500) {
            (input.loads, input.times) = any_ways(&mut input.random);
        }
        let habit = HABITS[input.random.by_weight(&weights)];
        let text = habit(&mut input);
        input.enter(&text, turns);
    }
    let lacks_last_line_feed = input.random.once_in(3);
    if lacks_last_line_feed {
        input.bytes.pop();
    }
    input.bytes
}

impl Input {
    fn begun(mut random: Random) -> Input {
        let (loads, times) = any_ways(&mut random);
        Input { random, bytes: Vec::new(), log: PaperLog::formatted(Form::New, SLOTS), loads, times }
    }

    fn enter(&mut self, text: &[u8], turns: &mut Turns) {
        self.bytes.extend_from_slice(text);
        self.bytes.push(b'\n');
        for asked in lines_of(text).filter_map(asked) {
            turns.count(&asked.call, &self.log.call(&asked.call));
        }
    }

    /// A lift that suits; at the end of time only its repetition does.
    fn append(&mut self) -> Vec<u8> {
        let random = &mut self.random;
        let time = self.times.after(self.log.next_time(), random);
        let load = self.loads.next(random);
        spelling::append(random, time, load).into()
    }

    fn close(&mut self) -> Vec<u8> {
        b"C".to_vec()
    }

    fn drop_oldest(&mut self) -> Vec<u8> {
        b"G".to_vec()
    }

    fn ask(&mut self) -> Vec<u8> {
        let random = &mut self.random;
        let window = Held::by(&self.log).window(random);
        match random.below(2) {
            0 => spelling::search(random, &window).into(),
            _ => tally_and_page(random, &window),
        }
    }

    /// What grounds 5, 6, 7 and 9 are against, two of them at times.
    fn ask_in_vain(&mut self) -> Vec<u8> {
        let random = &mut self.random;
        let last_time = self.log.next_time();
        let early = random.pick(&[last_time.saturating_sub(1), last_time / 2, 0]);
        let load = self.loads.next(random);
        let beyond = random.pick(&[LEAST_LOAD - 1, GREATEST_LOAD + 1, -9_999_999, 99_999_999]);
        let window = Held::by(&self.log).window(random);
        let t1 = (window.t1.max(window.t2) + 1).min(LAST_TIME);
        let backwards = Window { t1, t2: window.t1.min(window.t2), ..window };
        match random.below(9) {
            0 => spelling::append(random, early, load).into(),
            1 => spelling::append(random, early, beyond).into(),
            2 => spelling::append(random, last_time, beyond).into(),
            3 => b"C\nC".to_vec(),
            4 => b"G\nG".to_vec(),
            5 => tally_and_page(random, &backwards),
            6 => spelling::search(random, &backwards).into(),
            7 => spelling::search(random, &Window { k1: beyond, ..backwards }).into(),
            _ => spelling::search(random, &Window { k2: beyond, ..window }).into(),
        }
    }

    fn other_form(&mut self) -> Vec<u8> {
        let good = self.random.pick::<Habit>(&[Input::append, Input::ask, Input::ask, Input::close])(self);
        other_forms::changed(good, &mut self.random)
    }
}

/// How loads and times run from now on.
fn any_ways(random: &mut Random) -> (Loads, Times) {
    let loads = match random.below(8) {
        0 | 1 => Loads::AtPlateEnds,
        2 | 3 => Loads::Even { load: random.load(LEAST_LOAD, GREATEST_LOAD) },
        _ => Loads::any(random),
    };
    (loads, Times::any(random))
}

/// T and P of one window, in either order, or one of the two.
fn tally_and_page(random: &mut Random, window: &Window) -> Vec<u8> {
    let letters = random.pick(&["TP", "PT", "P", "T"]).chars();
    let lines: Vec<String> = letters.map(|letter| spelling::tally(random, letter, window.t1, window.t2)).collect();
    lines.join("\n").into()
}
