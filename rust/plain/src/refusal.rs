//! Refusals (docs/SPECIFICATION.md, section 8).

/// A row of the table and the place of the fault.
#[derive(Clone, Copy, Debug, PartialEq, Eq)]
pub struct Refusal {
    pub number: u32,
    /// The triple in 3, the node in 5 and 6, else 0.
    pub place: usize,
}

impl Refusal {
    pub fn new(number: u32, place: usize) -> Self {
        Refusal { number, place }
    }

    /// `Ok` where the row is not met.
    pub(crate) fn unless(fine: bool, number: u32, place: usize) -> Result<(), Self> {
        if fine {
            Ok(())
        } else {
            Err(Refusal::new(number, place))
        }
    }
}
