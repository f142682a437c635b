//! The power that document 01 names in place of `powi`.

/// `power` factors `x`, multiplied from left to right; `x` itself for a power of 1 or less.
pub(crate) fn product(x: f64, power: i32) -> f64 {
    let mut result = x;
    for _ in 1..power {
        result *= x;
    }
    result
}

#[cfg(test)]
mod tests {
    use super::product;

    #[test]
    fn factors_are_taken_from_left_to_right() {
        let x = 1.1;
        assert_eq!(product(x, 1), x);
        assert_eq!(product(x, 2), x * x);
        assert_eq!(product(x, 5), (((x * x) * x) * x) * x);
    }
}
