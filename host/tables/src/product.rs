//! Every pick with every other, thinned out evenly where the product is too large.

use crate::values::Picks;

/// The digits of one number of a product whose size shows only as the picks are made.
pub struct Digits {
    rest: u128,
    size: u128,
}

impl Picks for Digits {
    fn below(&mut self, bound: u64) -> u64 {
        let bound = u128::from(bound);
        let digit = self.rest % bound;
        self.rest /= bound;
        self.size = self.size.saturating_mul(bound);
        digit as u64
    }
}

/// A step that shares no factor with the picks' bounds, which are below 64.
fn step_from(least: u128) -> u128 {
    (least.max(1)..)
        .find(|step| (2..64).all(|factor| step % factor != 0 || *step == 1))
        .unwrap_or(1)
}

/// Calls `check` on at most about `limit` numbers of its product, in even steps.
pub fn each(limit: u128, mut check: impl FnMut(&mut Digits)) {
    let mut number: u128 = 0;
    let mut size = 1;
    while number < size {
        let mut digits = Digits {
            rest: number,
            size: 1,
        };
        check(&mut digits);
        size = size.max(digits.size);
        number = number.saturating_add(step_from(size / limit));
    }
}
