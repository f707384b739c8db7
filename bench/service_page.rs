//! W-201: the service page of the in-place implementation, laid out in a lent area.
use plain::Counts;

const COLUMNS: usize = 40;
const LINE_BYTES: usize = COLUMNS + 1;
/// A heading, a line for each plate, a total.
const LINES: usize = 1 + size_of::<Counts>() / size_of::<u64>() + 1;

/// The bytes of a page, a line feed after each line.
pub type ServicePage = [u8; LINES * LINE_BYTES];

/// The tally of a time window as a page, heaviest plate first.
pub fn lay_out(t1: u64, t2: u64, counts: &Counts, page: &mut ServicePage) {
    let total: u64 = counts.iter().sum();
    page.fill(b' ');
    page.chunks_exact_mut(LINE_BYTES).for_each(|line| line[COLUMNS] = b'\n');
    let mut lines = page.chunks_exact_mut(LINE_BYTES);
    let heading = lines.next().expect("a heading");
    put(&mut heading[..15], t1);
    put(&mut heading[25..40], t2);
    for (plate, &count) in counts.iter().enumerate().rev() {
        let line = lines.next().expect("a line for each plate");
        put(&mut line[..4], plate as u64);
        put(&mut line[4..13], count);
        put(&mut line[13..18], (100 * count).checked_div(total).unwrap_or(0));
    }
    put(&mut lines.next().expect("a total")[4..13], total);
}

/// Right-justified in a field that has room for it.
fn put(field: &mut [u8], mut number: u64) {
    for place in field.iter_mut().rev() {
        *place = b'0' + (number % 10) as u8;
        number /= 10;
        if number == 0 {
            break;
        }
    }
}
