//! Document 01, "Plates", and W-206: what tallies and the service page go by.
use script::form::Form;

/// 0 up to 250; n for 500n-250 < load <= 500n+250; above the end of the band before it, the form's last plate.
pub fn plate_of(form: Form, load: i32) -> usize {
    let in_band = |n: &usize| load <= 500 * *n as i32 + 250;
    (0..form.last_plate()).find(in_band).unwrap_or(form.last_plate())
}

#[cfg(test)]
mod tests {
    use super::*;

    #[test]
    fn the_plates_of_both_forms() {
        let loads = [-500, 250, 251, 9_750, 9_751, 10_250, 10_251, 100_000];
        assert_eq!(loads.map(|load| plate_of(Form::Old, load)), [0, 0, 1, 19, 20, 20, 20, 20]);
        assert_eq!(loads.map(|load| plate_of(Form::New, load)), [0, 0, 1, 19, 20, 20, 21, 21]);
    }
}
