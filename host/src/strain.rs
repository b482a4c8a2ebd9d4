//! Strain readings of a block, and the totals of a face.

/// What digital volume correlation gives for a voxel, in microstrain: a whole multiple of 1/1,024, at most 2,048 either way.
#[derive(Clone, Copy, PartialEq, Debug)]
pub enum Reading {
    Strain(f64),
    /// The search ran to its end at this value: counted, not summed.
    Clipped(f64),
    Missing,
}

/// The readings of a block as the library takes them, one for each voxel, x fastest: values, and kind bytes (0 strain, 1 clipped, 2 missing).
#[derive(Clone, Default, Debug)]
pub struct Readings {
    pub values: Vec<f64>,
    pub kinds: Vec<u8>,
}

impl FromIterator<Reading> for Readings {
    fn from_iter<T: IntoIterator<Item = Reading>>(readings: T) -> Readings {
        let (values, kinds) = readings
            .into_iter()
            .map(|reading| match reading {
                Reading::Strain(x) => (x, 0),
                Reading::Clipped(x) => (x, 1),
                Reading::Missing => (0.0, 2),
            })
            .unzip();
        Readings { values, kinds }
    }
}

/// One side of a face: the sum of its strains, and how many of its readings were strains, clipped and missing.
#[derive(Clone, Copy, PartialEq, Debug)]
pub struct Side {
    pub sum: f64,
    pub strains: u64,
    pub clipped: u64,
    pub missing: u64,
}

/// The totals of a face, on the side of its lower code and on that of its higher code. The outside is the higher side, and has zeros.
#[derive(Clone, Copy, PartialEq, Debug)]
pub struct Totals {
    pub lower: Side,
    pub higher: Side,
}

/// A table of sums. Two are equal where all their bits are.
#[derive(Clone, Debug)]
pub struct Sums(pub Vec<f64>);

impl PartialEq for Sums {
    fn eq(&self, other: &Sums) -> bool {
        self.0.len() == other.0.len() && self.0.iter().zip(&other.0).all(|(a, b)| a.to_bits() == b.to_bits())
    }
}

impl Eq for Sums {}
