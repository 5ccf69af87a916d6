//! The fields of the sheets, read in place, and the refusals 1 to 15, 24 and 25.

/// A refusal as the library answers it.
pub type Refusal = u64;

/// The limit of weights, coefficients and floors.
pub const MOST: i64 = 1 << 30;

/// Sheets that passed the checks 1 to 15, 24 and 25.
pub struct Sheets<'a> {
    pub n: usize,
    pub t: usize,
    pub k: usize,
    pub floor: i64,
    pub scale: i64,
    mask: u8,
    claim: &'a [u8],
    proof: &'a [u8],
    limits: &'a [u8],
    limit_sum: i64,
}

pub fn refuse_at(number: u32, found: Option<usize>) -> Result<(), Refusal> {
    match found {
        Some(index) => Err(refusals::code(number, index)),
        None => Ok(()),
    }
}

pub fn refuse_if(number: u32, wrong: bool) -> Result<(), Refusal> {
    refuse_at(number, wrong.then_some(0))
}

fn word(bytes: &[u8], place: usize) -> i64 {
    let bytes = [bytes[place], bytes[place + 1], bytes[place + 2], bytes[place + 3]];
    i32::from_le_bytes(bytes).into()
}

fn too_high(point: &[u8]) -> bool {
    point.iter().any(|&exponent| exponent > 120)
}

fn beyond(number: i64) -> bool {
    number.abs() > MOST
}

impl<'a> Sheets<'a> {
    /// The fields of a claim that passed the checks 1 to 7, with no proof yet.
    pub fn of_claim(claim: &'a [u8]) -> Result<Sheets<'a>, Refusal> {
        refuse_if(1, claim.len() < 8)?;
        let (n, t) = (usize::from(claim[0]), usize::from(claim[1]));
        let mask = claim[2];
        refuse_if(2, n == 0 || n > 8 || t > 64 || u32::from(mask) >> n != 0 || claim[3] != 0)?;
        refuse_if(3, claim.len() != 8 + t * (n + 4))?;
        let floor = word(claim, 4);
        let (proof, limits): (&[u8], &[u8]) = (&[], &[]);
        let sheets =
            Sheets { n, t, k: 0, floor, scale: 0, mask, claim, proof, limits, limit_sum: 0 };
        refuse_if(4, beyond(floor))?;
        let wrong = |&term: &usize| {
            let coefficient = sheets.coefficient(term);
            coefficient == 0 || beyond(coefficient)
        };
        refuse_at(5, (0..t).find(wrong))?;
        refuse_at(6, (0..t).find(|&term| too_high(sheets.point(term))))?;
        refuse_at(7, (1..t).find(|&term| sheets.point(term - 1) >= sheets.point(term)))?;
        Ok(sheets)
    }

    /// The fields of all three sheets, for an output of `room` bytes.
    pub fn of(
        claim: &'a [u8],
        proof: &'a [u8],
        limits: &'a [u8],
        room: usize,
    ) -> Result<Sheets<'a>, Refusal> {
        let claimed = Sheets::of_claim(claim)?;
        refuse_if(8, proof.len() < 8)?;
        let k = usize::from(u16::from_le_bytes([proof[2], proof[3]]));
        let scale = word(proof, 4);
        let header_is_right = usize::from(proof[0]) == claimed.n
            && proof[1] == 0
            && k <= 256
            && (1..=1 << 20).contains(&scale);
        refuse_if(9, !header_is_right)?;
        refuse_if(10, proof.len() != 8 + k * (2 * claimed.n + 12))?;
        let sheets = Sheets { k, scale, proof, ..claimed }.within(limits)?;
        refuse_if(11, room < proof.len())?;
        let high = |&row: &usize| too_high(sheets.v(row)) || too_high(sheets.w(row));
        refuse_at(12, (0..k).find(high))?;
        refuse_at(13, (0..k).find(|&row| !sheets.has_midpoint(row)))?;
        refuse_at(
            14,
            (0..k).find(|&row| sheets.is_lone(row) && sheets.weights(row)[1..] != [0, 0]),
        )?;
        refuse_at(15, (0..k).find(|&row| sheets.weights(row).into_iter().any(beyond)))?;
        Ok(sheets)
    }

    /// The sheets with limits.
    fn within(self, limits: &'a [u8]) -> Result<Sheets<'a>, Refusal> {
        let n = self.n;
        refuse_if(24, limits.len() != 1 + 7 * n || usize::from(limits[0]) != n)?;
        let sheets = Sheets { limits, ..self };
        refuse_at(25, (0..n).find(|&variable| sheets.limit_wrong(variable)))?;
        let falls = (0..n).map(|variable| {
            let (power, limit, multiplier) = sheets.limit(variable);
            multiplier * limit.pow(power.into())
        });
        Ok(Sheets { limit_sum: falls.sum(), ..sheets })
    }

    /// A variable's power, limit and multiplier.
    fn limit(&self, variable: usize) -> (u8, i64, i64) {
        let entry = &self.limits[1 + 3 * variable..][..3];
        let limit = u16::from_le_bytes([entry[1], entry[2]]).into();
        let multiplier = word(self.limits, 1 + 3 * self.n + 4 * variable);
        (entry[0], limit, multiplier)
    }

    fn limit_wrong(&self, variable: usize) -> bool {
        match self.limit(variable) {
            (0, limit, multiplier) => limit != 0 || multiplier != 0,
            (2 | 4, limit, multiplier) => {
                !(1..=1023).contains(&limit) || !(0..=65_536).contains(&multiplier)
            }
            _ => true,
        }
    }

    /// The point of a variable's power alone, where the variable is limited; exponents past n are
    /// zero.
    pub fn pure_power(&self, variable: usize) -> Option<[u8; 8]> {
        let (power, ..) = self.limit(variable);
        let mut point = [0; 8];
        point[variable] = power;
        (power > 0).then_some(point)
    }

    pub fn point(&self, term: usize) -> &'a [u8] {
        &self.claim[8 + self.n * term..][..self.n]
    }

    pub fn coefficient(&self, term: usize) -> i64 {
        word(self.claim, 8 + self.n * self.t + 4 * term)
    }

    pub fn v(&self, row: usize) -> &'a [u8] {
        &self.proof[8 + 2 * self.n * row..][..self.n]
    }

    pub fn w(&self, row: usize) -> &'a [u8] {
        &self.proof[8 + 2 * self.n * row + self.n..][..self.n]
    }

    pub fn is_lone(&self, row: usize) -> bool {
        self.v(row) == self.w(row)
    }

    /// Where a row's weights begin in the proof.
    pub fn weights_place(&self, row: usize) -> usize {
        8 + 2 * self.n * self.k + 12 * row
    }

    pub fn weights(&self, row: usize) -> [i64; 3] {
        let place = self.weights_place(row);
        [0, 4, 8].map(|offset| word(self.proof, place + offset))
    }

    fn has_midpoint(&self, row: usize) -> bool {
        self.v(row).iter().zip(self.w(row)).all(|(v, w)| (v + w) % 2 == 0)
    }

    /// The midpoint of a pair; exponents past n are zero.
    pub fn midpoint(&self, row: usize) -> [u8; 8] {
        let mut midpoint = [0; 8];
        for (u, (v, w)) in midpoint.iter_mut().zip(self.v(row).iter().zip(self.w(row))) {
            *u = (v + w) / 2;
        }
        midpoint
    }

    /// The target at a point.
    pub fn target(&self, point: &[u8]) -> i64 {
        let found = (0..self.t).find(|&term| self.point(term) == point);
        let coefficient = found.map_or(0, |term| self.coefficient(term));
        if point.iter().all(|&exponent| exponent == 0) {
            self.scale * (coefficient - self.floor) - self.limit_sum
        } else if self.keeps_sign(point) {
            self.scale * coefficient + self.added(point)
        } else {
            -self.scale * coefficient.abs()
        }
    }

    /// What the limits add at a point that is not the constant's.
    fn added(&self, point: &[u8]) -> i64 {
        let is_pure = |&variable: &usize| {
            self.pure_power(variable).is_some_and(|pure| pure[..self.n] == *point)
        };
        (0..self.n).find(is_pure).map_or(0, |variable| self.limit(variable).2)
    }

    /// Every odd exponent is of a masked variable. The mask's lowest bit is the first variable's.
    fn keeps_sign(&self, point: &[u8]) -> bool {
        let mut rest = self.mask;
        for exponent in point {
            if rest % 2 < exponent % 2 {
                return false;
            }
            rest /= 2;
        }
        true
    }
}
