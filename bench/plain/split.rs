//! Where a full bucket is split: the prediction from the last 13 loads and the midpoint rule.

/// The mid of a bucket with range (x, y], on signed loads; halves are rounded down.
pub fn mid_of(x: i32, y: i32, loads: &[i32; 13]) -> i32 {
    let (l, h) = predict(loads);
    let (x, y) = (i64::from(x), i64::from(y));
    if y == x + 1 {
        return y as i32;
    }
    let half = |a: i64, b: i64| (a + b).div_euclid(2);
    let mid = if x < l && h < y {
        half(l, h)
    } else if l <= x && y <= h {
        half(x, y)
    } else if l <= x && x < h && h <= y {
        if 2 * (h - x) > h - l {
            half(x, h)
        } else {
            h.max(half(x, y))
        }
    } else if x <= l && l < y && y <= h {
        if 2 * (y - l) > h - l {
            half(l, y)
        } else {
            l.min(half(x, y))
        }
    } else {
        half(x, y)
    };
    mid.clamp(x + 1, y - 1) as i32
}

fn predict(loads: &[i32; 13]) -> (i64, i64) {
    let (mut a, mut d) = (0, 0);
    for (i, &load) in (-6..).zip(loads) {
        a += i64::from(load);
        d += i * i64::from(load);
    }
    let (one, two) = (14 * a + 7 * d, 14 * a + 32 * d);
    (one.min(two).div_euclid(182), -(-one.max(two)).div_euclid(182))
}
