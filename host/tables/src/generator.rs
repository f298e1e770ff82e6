//! Seeded numbers, the same for the same seed; values that are mostly sound, and states that are carried along.

use kernel::oracle::*;

use crate::values::Picks;

/// A multiplicative generator over 64 bits of state (splitmix64).
pub struct Random(u64);

impl Random {
    pub const fn new(seed: u64) -> Self {
        Self(seed)
    }

    pub fn next(&mut self) -> u64 {
        self.0 = self.0.wrapping_add(0x9e37_79b9_7f4a_7c15);
        let mixed = (self.0 ^ self.0 >> 30).wrapping_mul(0xbf58_476d_1ce4_e5b9);
        let mixed = (mixed ^ mixed >> 27).wrapping_mul(0x94d0_49bb_1331_11eb);
        mixed ^ mixed >> 31
    }

    /// Any number, small ones and those near 2^64 more often.
    pub fn number(&mut self) -> u64 {
        let number = self.next() >> self.below(64);
        if self.below(8) == 0 { !number } else { number }
    }

    /// A period that is mostly sound.
    pub fn any_period(&mut self) -> u64 {
        match self.below(4) {
            0 => self.period(),
            1 => self.below(20),
            2 => 1 + self.below(1_000_000_000),
            _ => self.number(),
        }
    }

    pub fn any_budget(&mut self, period: u64) -> Budget {
        if self.below(4) == 0 {
            return self.budget(period);
        }
        Budget {
            budget: self.number().checked_rem(period).map_or(0, |n| n + 1),
            period,
            burst: self.number().checked_rem(period).map_or(0, |n| n + 1),
        }
    }

    /// A configuration that is mostly sound.
    pub fn any_config(&mut self) -> Config {
        match self.below(8) {
            0 => self.config(),
            _ => self.any_sound_config(),
        }
    }

    /// A configuration that the source takes.
    pub fn any_sound_config(&mut self) -> Config {
        if self.below(3) == 0 {
            return self.sound_config();
        }
        let period = 2 + self.number() % 999_999_999;
        let floor = 1 + self.number() % (period - 1);
        Config {
            period,
            allowance: self.number() % (period - floor),
            floor,
            order: DEFAULT_ORDER,
            prefer_fair: self.flag(),
        }
    }

    /// A clock that goes on, mostly by parts of a period, and back at times.
    pub fn later(&mut self, now: u64, period: u64) -> u64 {
        match self.below(8) {
            0 => self.reading(period),
            1 => now.wrapping_sub(self.number().checked_rem(period).unwrap_or(1)),
            2 => now.wrapping_add(period),
            3 => self.number(),
            _ => now.wrapping_add(self.number().checked_rem(period).unwrap_or(1)),
        }
    }

    /// Damages one part of a window at times.
    pub fn damaged(&mut self, window: Window) -> Window {
        let mut window = window;
        match self.below(40) {
            0 => window.config.period = self.of([0, 1_000_000_001, u64::MAX]),
            1 => window.config.floor = self.of([0, window.config.period, u64::MAX]),
            2 => window.config.allowance = window.config.period,
            3 => window.config.order = self.order(),
            4 => window.epoch = self.of([None, Some(0), Some(u64::MAX)]),
            5 => window.priority_remaining = self.number(),
            6 => window.protected_remaining = self.number(),
            _ => {}
        }
        window
    }
}

impl Picks for Random {
    fn below(&mut self, bound: u64) -> u64 {
        (u128::from(self.next()) * u128::from(bound) >> 64) as u64
    }
}
