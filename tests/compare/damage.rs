//! Damaged stores: bytes of headers, pointers, buckets, records, pages and NOR changed between calls.
use crate::bases;
use crate::habits::{tally_or_page, Habits};
use crate::judge::Step;
use crate::mids;
use crate::random::Random;
use crate::trial::{Trial, BUCKETS, BUCKET_BYTES, HEADER, NOR_BYTES, SECTIONS, TREE};
use model::limits::LAST_TIME;
use script::areas::{PAGE_BYTES, SLOT_BYTES};
use script::calls::Call;
use script::command::{Command, Field, Part};
use script::form::Form;

/// Offsets and widths in the header page, its form and its four pointers apart.
const HEADER_FIELDS: [(usize, usize); 10] =
    [(0, 4), (4, 2), (6, 1), (7, 1), (8, 1), (9, 1), (16, 8), (24, 8), (32, 4), (36, 4)];
/// The byte that tells the form, and where the pointers begin.
pub const BYTE_TEN: usize = 10;
pub const POINTERS: usize = 40;
const BUCKET_FIELDS: [(usize, usize); 5] = [(0, 4), (4, 4), (8, 4), (12, 1), (13, 1)];
/// Numbers that some bound or mark of document 01 stands at.
const MARKS: [u64; 20] =
    [0, 1, 2, 4, 5, 12, 13, 35, 36, 37, 102, 128, 255, 319, 320, 321, 65_535, 150_001, 150_002, LAST_TIME + 1];

pub fn rounds(trial: &mut Trial) -> Step {
    let mut habits = bases::any(trial)?;
    trial.run(Command::Snap)?;
    for _ in 0..60 {
        trial.run(Command::Back)?;
        for _ in 0..trial.random.pick(&[1, 1, 1, 2, 3]) {
            damage_once(trial, habits.slots)?;
        }
        for _ in 0..1 + trial.random.below(5) {
            call_after_damage(trial, &mut habits)?;
        }
        trial.run(Command::Back)?;
        mids::search_beside_damage(trial, habits.slots)?;
    }
    Ok(())
}

pub fn call_after_damage(trial: &mut Trial, habits: &mut Habits) -> Step {
    let slots = habits.slots;
    match trial.random.below(12) {
        0 => habits.drop(trial),
        1 => trial.call(Call::Close { slots }),
        2 => habits.search_all(trial),
        3 => {
            let call = tally_or_page(trial, slots, 0, LAST_TIME);
            trial.call(call)
        }
        4..=6 => habits.ask(trial),
        7 => habits.one_call(trial),
        _ => habits.append(trial),
    }
}

/// A field's number changed by little, by a bit, to a mark, or to anything.
fn changed(present: u64, random: &mut Random) -> u64 {
    match random.below(6) {
        0 => present.wrapping_add(1),
        1 => present.wrapping_sub(1),
        2 => present ^ 1 << random.below(64),
        3 => random.pick(&MARKS),
        4 => u64::MAX,
        _ => random.bits(),
    }
}

pub fn change_field(trial: &mut Trial, part: Part, offset: usize, width: usize) -> Step {
    let area = trial.areas().part(part);
    let mut present = [0; 8];
    present[..width].copy_from_slice(&area[offset..offset + width]);
    let bytes = changed(u64::from_le_bytes(present), &mut trial.random).to_le_bytes();
    trial.poke(part, offset, &bytes[..width])
}

/// A field of a bucket or of one of its entries, within its 128 bytes.
fn bucket_field(random: &mut Random) -> (usize, usize) {
    let entry = 24 + 8 * random.index(13);
    match random.below(3) {
        0 => (entry, 4),
        1 => (entry + 4, 2),
        _ => random.pick(&BUCKET_FIELDS),
    }
}

pub fn damage_header(trial: &mut Trial, header: usize) -> Step {
    match trial.random.below(6) {
        0 | 1 => damage_pointer(trial, Part::Nand, header + POINTERS),
        2 => {
            let form = trial.random.pick(&[trial.form.other().byte_ten(), 2, 255]);
            trial.poke(Part::Nand, header + BYTE_TEN, &[form])
        }
        _ => {
            let (field, width) = trial.random.pick(&HEADER_FIELDS);
            change_field(trial, Part::Nand, header + field, width)
        }
    }
}

/// One of four pointers, of a header or in the heads: its slot, its serial or its time.
pub fn damage_pointer(trial: &mut Trial, part: Part, pointers: usize) -> Step {
    let pointer = pointers + trial.form.pointer_bytes() * trial.random.index(4);
    match trial.random.below(6) {
        0 => change_field(trial, part, pointer, 2),
        1 => change_field(trial, part, pointer, 1),
        2 | 3 => change_field(trial, part, pointer + 2 + trial.form.serial_bytes(), 8),
        _ if trial.form == Form::Old => Ok(()),
        _ => odd_serial(trial, part, pointer + 2),
    }
}

/// A serial about the oldest retained one, where liveness turns, about the open one, or anything: no serial is damage.
fn odd_serial(trial: &mut Trial, part: Part, offset: usize) -> Step {
    let (oldest, open) = (trial.field(Field::Oldest) as u32, trial.field(Field::Open) as u32);
    let any = trial.random.bits() as u32;
    let near = [oldest.wrapping_sub(1), oldest, oldest.wrapping_add(1), open, open.wrapping_add(1)];
    let serial = match trial.random.below(2) {
        0 => trial.random.pick(&near),
        _ => trial.random.pick(&[0, any, u32::MAX]),
    };
    trial.poke(part, offset, &serial.to_le_bytes())
}

pub fn damage_once(trial: &mut Trial, slots: u64) -> Step {
    let buckets = trial.field(Field::Buckets) as usize;
    let random = &mut trial.random;
    let slot = random.index(slots as usize) * SLOT_BYTES;
    let (field, width) = bucket_field(random);
    let open_bucket = random.index((buckets + 1).min(BUCKETS));
    match random.below(17) {
        0..=2 => damage_header(trial, slot + HEADER),
        3..=5 => change_field(trial, Part::Nor, BUCKET_BYTES * open_bucket + field, width),
        6 | 7 => {
            let bucket = random.pick(&[0, 0, 1, 2, 3, 5, 8, 20]);
            change_field(trial, Part::Nand, slot + TREE + BUCKET_BYTES * bucket + field, width)
        }
        8 => {
            let record = 32 * random.index(320);
            let (field, width) = random.pick(&[(8, 4), (8, 1), (0, 8)]);
            change_field(trial, Part::Nand, slot + record + field, width)
        }
        9 => damage_section(trial, slot),
        10 => damage_page_due(trial, slots),
        11 => damage_buffers(trial),
        12 => damage_pointer(trial, trial.state(), trial.form.heads()),
        13 => change_count(trial, slot + HEADER),
        14 => damage_entry_due(trial),
        15 => narrow_a_range(trial, open_bucket),
        _ => damage_anywhere(trial),
    }
}

/// Another count in a header, with the sections and the fragment length that it gives.
pub fn change_count(trial: &mut Trial, header: usize) -> Step {
    let count: u16 = trial.random.pick(&[1, 63, 64, 65, 256, 257, 319, 320, 321, 384, 385, 65_535]);
    let sections = count.div_ceil(64);
    let length = (512 / sections).min(128);
    trial.poke(Part::Nand, header + 4, &count.to_le_bytes())?;
    trial.poke(Part::Nand, header + 7, &[sections as u8, length as u8])
}

/// An open bucket's range made one load wide, or its mid put on the upper end: no damage by itself.
fn narrow_a_range(trial: &mut Trial, bucket: usize) -> Step {
    let offset = BUCKET_BYTES * bucket;
    let bytes = &trial.areas().nor[offset..offset + 12];
    let number = |offset: usize| u32::from_le_bytes(bytes[offset..offset + 4].try_into().unwrap());
    let (x, y) = (number(0), number(4));
    let (field, value) =
        trial.random.pick(&[(0, y.wrapping_sub(1)), (4, x.wrapping_add(1)), (4, x.wrapping_add(2)), (8, y)]);
    trial.poke(Part::Nor, offset + field, &value.to_le_bytes())
}

/// A byte of the entry after the latest lift's, where the next lift may go.
fn damage_entry_due(trial: &mut Trial) -> Step {
    let latest = (trial.field(Field::Count) as u16).wrapping_sub(1).to_le_bytes();
    let nor = &trial.areas().nor;
    let mut entries = (0..BUCKETS).flat_map(|bucket| (0..12).map(move |entry| BUCKET_BYTES * bucket + 24 + 8 * entry));
    match entries.find(|entry| nor[entry + 4..entry + 6] == latest) {
        Some(entry) => {
            let byte = trial.random.index(8);
            change_field(trial, Part::Nor, entry + 8 + byte, 1)
        }
        None => Ok(()),
    }
}

/// Bloom bytes, of the section due next in NOR or of a closed segment.
fn damage_section(trial: &mut Trial, slot: usize) -> Step {
    let section = trial.field(Field::Count) as usize / 64;
    let byte = trial.random.index(128);
    if trial.random.once_in(2) {
        return change_field(trial, Part::Nor, SECTIONS + 128 * section + byte, 1);
    }
    let page = trial.random.pick(&[29, 30]);
    let offset = slot + page * PAGE_BYTES + trial.random.index(PAGE_BYTES);
    change_field(trial, Part::Nand, offset, 1)
}

/// A byte of a page that a coming call programs, so that it is not erased.
pub fn damage_page_due(trial: &mut Trial, slots: u64) -> Step {
    let serial = trial.field(Field::Open) - 1 + trial.random.pick(&[0, 0, 1]);
    let slot = (serial % slots) as usize * SLOT_BYTES;
    let lift_page = trial.field(Field::Count) as usize / 16 % 20;
    let page = trial.random.pick(&[lift_page, lift_page, 20, 21, 29, 30, 31]);
    let byte = trial.random.index(PAGE_BYTES);
    let offset = slot + page * PAGE_BYTES + trial.random.pick(&[0, byte, PAGE_BYTES - 1]);
    let value = trial.random.pick(&[0, 127, 254]);
    trial.poke(Part::Nand, offset, &[value])
}

/// A record in the page buffer, a byte of the Bloom buffer, or one of the last loads.
fn damage_buffers(trial: &mut Trial) -> Step {
    let (form, random) = (trial.form, &mut trial.random);
    let (offset, width) = match random.below(4) {
        0 | 1 => (form.page_buffer() + 32 * random.index(16) + 8, 4),
        2 => (form.bloom_buffer() + random.index(128), 1),
        _ => (form.last_loads() + 4 * random.index(13), 1),
    };
    change_field(trial, Part::State(form), offset, width)
}

fn damage_anywhere(trial: &mut Trial) -> Step {
    let nand_bytes = trial.areas().nand.len();
    let random = &mut trial.random;
    let (part, length) = random.pick(&[(Part::Nand, nand_bytes), (Part::Nor, NOR_BYTES)]);
    let offset = random.index(length);
    change_field(trial, part, offset, 1)
}
