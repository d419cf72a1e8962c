//! Rounding to the nearest, and the floor of a root.
use std::cmp::Ordering;

/// The whole number nearest to n / d, halves to the even neighbour. Every rounding to the nearest of the second program is this one.
pub fn nearest(n: i128, d: i128) -> i128 {
    let floor = n.div_euclid(d);
    match (2 * n.rem_euclid(d)).cmp(&d) {
        Ordering::Less => floor,
        Ordering::Equal => floor + floor.rem_euclid(2),
        Ordering::Greater => floor + 1,
    }
}

/// The floor of the square root, from the float's guess.
pub fn floor_root(n: i128) -> i128 {
    let mut r = (n as f64).sqrt() as i128;
    while r * r > n {
        r -= 1;
    }
    while (r + 1) * (r + 1) <= n {
        r += 1;
    }
    r
}
