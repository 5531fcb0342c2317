//! The frame of a table, its limits and a refusal (01, The frame of a table; 01, Refusal numbers).

/// Most points of a table.
pub const MOST_POINTS: u64 = 65_536;

/// Largest magnitude of an abscissa, in thousandths.
pub const LARGEST_ABSCISSA: i128 = 9_999_999_999;

/// Longest body, and longest file, in bytes.
pub const LONGEST: usize = 1_048_576;

/// Most bytes of a body's line, its line end not counted (02, T-06).
pub const LONGEST_LINE: usize = 80;

/// Largest magnitude of an ordinate.
pub const LARGEST_ORDINATE: i128 = 2_147_483_647;

/// The mark of a missing ordinate in a slice of 32-bit numbers.
pub const MISSING: i32 = i32::MIN;

/// A refusal: its number in 01's tables and its place, in bytes from 0.
#[derive(Clone, Copy, Debug, PartialEq, Eq)]
pub struct Refusal {
    pub number: u32,
    pub place: u64,
}

/// A refusal with this number at this place.
pub fn refusal(number: u32, place: usize) -> Refusal {
    Refusal { number, place: place as u64 }
}

/// The unit of a head's last written place in thousandths, by its number of digits after the point (02, T-03).
pub const UNITS: [i128; 4] = [1000, 100, 10, 1];

/// A head: its thousandths, and the unit of its last written place.
#[derive(Clone, Copy, Debug, PartialEq, Eq)]
pub struct Head {
    pub thousandths: i128,
    pub unit: i128,
}

/// The frame of a table: first and last abscissa in thousandths, and the number of points.
#[derive(Clone, Copy, Debug, PartialEq, Eq)]
pub struct Frame {
    pub first: i64,
    pub last: i64,
    pub points: u64,
}

impl Frame {
    /// Whether the frame keeps its limits.
    pub fn in_limits(&self) -> bool {
        let abscissas = [self.first, self.last];
        let small = abscissas.iter().all(|x| (*x as i128).abs() <= LARGEST_ABSCISSA);
        let ends = if self.points == 1 { self.first == self.last } else { self.first != self.last };
        small && self.points >= 1 && self.points <= MOST_POINTS && ends
    }

    /// L - F, exact.
    pub fn span(&self) -> i128 {
        self.last as i128 - self.first as i128
    }

    /// N - 1, the number of steps from the first to the last point.
    pub fn steps(&self) -> i128 {
        self.points as i128 - 1
    }

    /// Whether a head passes for index i: within less than half a spacing, or within half a unit, the half included;
    /// for N = 1, if it equals F (01, Checks; 02, T-03).
    pub fn head_passes(&self, head: Head, i: u64) -> bool {
        if self.points == 1 {
            return head.thousandths == self.first as i128;
        }
        self.within_spacing(head, i) || self.within_unit(head, i)
    }

    /// How far a head is off the abscissa of index i, in thousandths times N - 1.
    pub fn off(&self, head: Head, i: u64) -> i128 {
        let from_first = head.thousandths - self.first as i128;
        (from_first * self.steps() - i as i128 * self.span()).abs()
    }

    /// Whether a head is within less than half a spacing.
    pub fn within_spacing(&self, head: Head, i: u64) -> bool {
        2 * self.off(head, i) < self.span().abs()
    }

    /// Whether a head is within half a unit of its last written place.
    pub fn within_unit(&self, head: Head, i: u64) -> bool {
        2 * self.off(head, i) <= head.unit * self.steps()
    }
}

/// A quotient of whole numbers rounded to the nearest whole number, halves to the larger; below must exceed zero.
pub fn nearest(above: i128, below: i128) -> i128 {
    (2 * above + below).div_euclid(2 * below)
}
