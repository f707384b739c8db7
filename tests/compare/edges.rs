//! Chips of odd lengths, odd S, and states that no format made.
use crate::habits::odd_slots;
use crate::judge::Step;
use crate::lengths;
use crate::trial::{Trial, NOR_BYTES};
use script::areas::SLOT_BYTES;
use script::calls::{Call, Window};
use script::command::{Command, Fill};

pub fn rounds(trial: &mut Trial) -> Step {
    for _ in 0..30 {
        let slots = trial.random.pick(&[2, 3, 4, 5]);
        odd_chips(trial, slots)?;
        if trial.random.once_in(4) {
            any_state(trial)?;
        }
        for _ in 0..8 {
            let named = if trial.random.once_in(3) { odd_slots(slots, &mut trial.random) } else { slots };
            any_call(trial, named)?;
        }
        lengths::try_wrong_ones(trial, slots)?;
    }
    Ok(())
}

pub fn odd_chips(trial: &mut Trial, slots: u64) -> Step {
    let random = &mut trial.random;
    let whole = slots as usize * SLOT_BYTES;
    let nand_bytes = random.pick(&[whole, whole, whole, whole - 1, whole + 1, 0, 1, SLOT_BYTES, whole + SLOT_BYTES]);
    let nor_bytes = random.pick(&[NOR_BYTES, NOR_BYTES, NOR_BYTES, NOR_BYTES - 1, NOR_BYTES + 1, 0, 1, 2 * NOR_BYTES]);
    let fill = Fill::Mixed(random.below(50));
    trial.run(Command::Areas { nand_bytes, nor_bytes, fill })
}

pub fn any_state(trial: &mut Trial) -> Step {
    for offset in 0..trial.form.state_bytes() {
        if trial.random.once_in(3) {
            let value = trial.random.bits() as u8;
            trial.poke(trial.state(), offset, &[value])?;
        }
    }
    Ok(())
}

fn any_call(trial: &mut Trial, slots: u64) -> Step {
    let random = &mut trial.random;
    let time = random.below(100);
    let load = random.load(-100, 100);
    let keeps = random.once_in(2);
    let window = Window { t1: 0, t2: time, k1: load.min(0), k2: load.max(0) };
    let call = match random.below(10) {
        0 | 1 => Call::Format { slots },
        2 => Call::Append { keeps, slots, time, load, note: random.note() },
        3 => Call::Close { slots },
        4 => Call::Drop { keeps, slots },
        5 => Call::Search { slots, window, area_bytes: random.index(100) },
        6 => Call::Page { slots, t1: 0, t2: time },
        7 => Call::Export { slots, window, area_bytes: random.index(100) },
        8 => Call::Import { keeps, slots, text: format!("time,load,member\r\n{time},{load},1").into_bytes() },
        _ => Call::Tally { slots, t1: 0, t2: time },
    };
    trial.call(call)
}
