//! Arithmetic of remainders.

/// A prime power p^e, e at least 1.
#[derive(Clone, Copy, PartialEq, Eq, Debug)]
pub struct PrimePower {
    pub p: u64,
    pub e: usize,
}

impl PrimePower {
    /// p^e.
    pub fn modulus(self) -> u64 {
        self.power(self.e)
    }

    /// p^j.
    pub fn power(self, j: usize) -> u64 {
        self.p.pow(j as u32)
    }

    /// u and θ of d: "If d is not 0, u is the highest power with p^u dividing d
    /// and θ is the whole number d / p^u. If d is 0, u is e and θ is 1."
    pub fn split(self, d: u64) -> (usize, u64) {
        if d == 0 {
            return (self.e, 1);
        }
        let mut u = 0;
        let mut theta = d;
        while theta % self.p == 0 {
            theta /= self.p;
            u += 1;
        }
        (u, theta)
    }
}

/// The number x in 0 .. modulus-1 with unit × x = 1 modulo the modulus, if any,
/// by Euclid's division with the factor of the unit carried along.
pub fn inverse(unit: u64, modulus: u64) -> Option<u64> {
    let m = modulus as i64;
    let (mut before, mut rest) = (m, unit as i64 % m);
    let (mut factor_before, mut factor) = (0i64, 1i64);
    while rest != 0 {
        let quotient = before / rest;
        (before, rest) = (rest, before - quotient * rest);
        (factor_before, factor) = (factor, factor_before - quotient * factor);
    }
    if before == 1 {
        Some(factor_before.rem_euclid(m) as u64)
    } else {
        None
    }
}

/// x - y modulo q, for x and y below q.
pub fn subtract(x: u64, y: u64, q: u64) -> u64 {
    (x + q - y) % q
}

/// The prime powers of m by trial division, primes rising. Empty for m below 2.
pub fn prime_powers(m: u64) -> Vec<PrimePower> {
    let mut found = Vec::new();
    let mut rest = m;
    let mut p = 2;
    while rest > 1 && p <= rest {
        let mut e = 0;
        while rest % p == 0 {
            rest /= p;
            e += 1;
        }
        if e > 0 {
            found.push(PrimePower { p, e });
        }
        p += 1;
    }
    found
}
