//! Whole numbers past 128 bits: the sine's series has products of 73 decimal digits.

/// What a digit is less than: the product of two digits, some of them added up, has room in 128 bits.
const BASE: u128 = 1_000_000_000_000;

/// The digits, the least first.
pub struct Wide(Vec<u128>);

impl Wide {
    pub fn of(number: u128) -> Wide {
        carried(vec![number, 0, 0, 0])
    }

    pub fn times(&self, other: &Wide) -> Wide {
        let mut sums = vec![0; self.0.len() + other.0.len()];
        for (i, digit) in self.0.iter().enumerate() {
            for (j, by) in other.0.iter().enumerate() {
                sums[i + j] += digit * by;
            }
        }
        carried(sums)
    }

    /// Over a number, rounded down. Over two numbers in turn it is what it is over their product.
    pub fn over(&self, divisor: u128) -> Wide {
        assert!(divisor < u128::MAX / BASE, "a rest has room for a digit");
        let mut digits = self.0.clone();
        let mut rest = 0;
        for digit in digits.iter_mut().rev() {
            let shifted = rest * BASE + *digit;
            *digit = shifted / divisor;
            rest = shifted % divisor;
        }
        Wide(digits)
    }

    /// It stops where 128 bits do not hold the number.
    pub fn narrow(&self) -> u128 {
        let mut digits = self.0.iter().rev();
        let joined = |n: u128, digit: &u128| n.checked_mul(BASE)?.checked_add(*digit);
        let number = digits.try_fold(0, joined);
        number.expect("a number of 128 bits")
    }
}

/// Hands on what each place has too much to the next one.
fn carried(mut sums: Vec<u128>) -> Wide {
    let mut carry = 0;
    for sum in &mut sums {
        let whole = *sum + carry;
        *sum = whole % BASE;
        carry = whole / BASE;
    }
    assert_eq!(carry, 0, "room for every digit");
    Wide(sums)
}
