//! The setup and its rules.

/// M: the parts in which drift is counted.
pub const M: u64 = 10_000;
/// The most stations a line has.
pub const MOST: usize = 12;
/// The limits of T and D, of A and of P.
pub const BOUND: u64 = 1_000_000;
pub const STEP: u64 = 10_000_000;
pub const PERIOD: u64 = 100_000_000;

/// n, f, r, T, D, A, P and the mask of faulty stations.
#[derive(Clone, Copy, Debug, PartialEq, Eq)]
pub struct Setup {
    pub n: u64,
    pub f: u64,
    pub r: u64,
    pub t: u64,
    pub d: u64,
    pub a: u64,
    pub p: u64,
    pub faulty: u64,
}

impl Setup {
    pub fn from_numbers([n, f, r, t, d, a, p, faulty]: [u64; 8]) -> Setup {
        Setup { n, f, r, t, d, a, p, faulty }
    }

    pub fn numbers(&self) -> [u64; 8] {
        [self.n, self.f, self.r, self.t, self.d, self.a, self.p, self.faulty]
    }

    /// S = M + r.
    #[inline]
    pub fn s(&self) -> u64 {
        M + self.r
    }

    #[inline]
    pub fn sound(&self, i: u64) -> bool {
        self.faulty >> i & 1 == 0
    }

    /// How many of the n stations are sound.
    pub fn sound_count(&self) -> u64 {
        self.n - u64::from(self.faulty.count_ones())
    }

    /// n outside 1 to 12.
    pub fn stations_fit(n: u64) -> bool {
        (1..=MOST as u64).contains(&n)
    }

    /// The rules 1 to 7 in order; 0 if all hold.
    pub fn rules(&self) -> u8 {
        let Setup { n, f, r, t, d, a, p, faulty } = *self;
        if !Setup::stations_fit(n) {
            return 1;
        }
        // 2f + 1 > n, without a product that could wrap
        if f > (n - 1) / 2 {
            return 2;
        }
        if r > 100
            || !(1..=BOUND).contains(&t)
            || !(1..=BOUND).contains(&d)
            || !(1..=STEP).contains(&a)
            || !(1..=PERIOD).contains(&p)
        {
            return 3;
        }
        if faulty >> n != 0 || u64::from(faulty.count_ones()) > f {
            return 4;
        }
        // Within the limits every product below stays under 2^63.
        let s = self.s();
        if p <= a || (p - a) * M <= t * s {
            return 5;
        }
        if a * M * M < (s * d + M * t) * s {
            return 6;
        }
        if d * s * M * M < (p * s + t * M) * (s * s - M * M) + t * s * s * M {
            return 7;
        }
        0
    }

    /// All rules of a setup with its first readings: 0 to 8.
    pub fn check(&self, first: &[u64]) -> u8 {
        let refusal = self.rules();
        if refusal != 0 {
            return refusal;
        }
        let fits = |(i, &reading): (usize, &u64)| {
            if self.sound(i as u64) {
                (self.a..=self.a + self.t).contains(&reading)
            } else {
                reading == 0
            }
        };
        if first.len() as u64 != self.n || !first.iter().enumerate().all(fits) {
            return 8;
        }
        0
    }
}
