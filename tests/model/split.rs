//! Document 01, "Tree", second half: where a full bucket is split.

/// l and h: the fitted values of the next loads, rounded outward.
pub fn prediction(last_loads: &[i32; 13]) -> (i64, i64) {
    let sum: i64 = last_loads.iter().map(|load| i64::from(*load)).sum();
    let drift: i64 = last_loads.iter().zip(-6i64..).map(|(load, weight)| weight * i64::from(*load)).sum();
    let near = 14 * sum + 7 * drift;
    let far = 14 * sum + 32 * drift;
    let rounded_down = near.min(far).div_euclid(182);
    let rounded_up = -(-near.max(far)).div_euclid(182);
    (rounded_down, rounded_up)
}

fn half(sum: i64) -> i64 {
    sum.div_euclid(2)
}

/// The first rule that applies to a range (x, y] and a prediction l to h.
fn proposed_mid(x: i64, y: i64, l: i64, h: i64) -> i64 {
    let middle = half(x + y);
    if x < l && h < y {
        half(l + h)
    } else if l <= x && y <= h {
        middle
    } else if l <= x && x < h && h <= y {
        if 2 * (h - x) > h - l {
            half(x + h)
        } else {
            h.max(middle)
        }
    } else if x <= l && l < y && y <= h {
        if 2 * (y - l) > h - l {
            half(l + y)
        } else {
            l.min(middle)
        }
    } else {
        middle
    }
}

/// The mid of the range (x, y], brought into x+1..y-1, or y where that is empty.
pub fn mid(x: i64, y: i64, last_loads: &[i32; 13]) -> i64 {
    if y == x + 1 {
        return y;
    }
    let (l, h) = prediction(last_loads);
    proposed_mid(x, y, l, h).min(y - 1).max(x + 1)
}

#[cfg(test)]
mod tests {
    use super::*;

    #[test]
    fn the_worked_examples_of_document_01() {
        let rising: [i32; 13] = std::array::from_fn(|i| 500 + 10 * i as i32);
        assert_eq!(prediction(&rising), (630, 880));
        assert_eq!(mid(-50_001, 100_000, &rising), 755);
        assert_eq!(mid(-50_001, 100_000, &[500; 13]), 500);
        assert_eq!(mid(-4, -1, &[10; 13]), -3);
        assert_eq!(mid(499, 500, &[500; 13]), 500);
    }
}
