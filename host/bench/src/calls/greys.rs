//! A call made at many grey values on one grid, one after the other.

use super::{agreed, Call};
use crate::subject::{Subject, GREY};
use crate::Failure;

/// A call of the library and of the reference at a grey value, and the rooms that either is lent. What it leaves is compared whole.
pub trait AtGrey: PartialEq + Sized {
    /// The name of many such calls.
    const NAMES: &'static str;
    /// The line of VTK's program that many such calls stand beside, empty where there is none.
    const FILTER: &'static str;

    /// Rooms of the lengths that a caller lends, all touched.
    fn lent(on: &Subject) -> Self;

    /// Calls the library; answers the refusal's number.
    fn library_at(&mut self, on: &Subject, grey: u16) -> u32;

    /// Calls the reference; answers the refusal's number.
    fn reference_at(&mut self, on: &Subject, grey: u16) -> u32;
}

/// So many grey values from the first on, a step apart.
#[derive(PartialEq)]
pub struct AtGreys<C, const FIRST: u16, const STEP: u16, const COUNT: u16>(C);

/// Thirty grey values, evenly about the one of the other rows.
pub type Thirty<C> = AtGreys<C, { GREY - 290 }, 20, 30>;

/// Grey value 0 alone, at which the mesh is empty.
pub type AtZero<C> = AtGreys<C, 0, 1, 1>;

impl<C: AtGrey, const FIRST: u16, const STEP: u16, const COUNT: u16>
    AtGreys<C, FIRST, STEP, COUNT>
{
    pub fn greys() -> impl Iterator<Item = u16> {
        (0..COUNT).map(|i| FIRST + STEP * i)
    }
}

impl<C: AtGrey, const FIRST: u16, const STEP: u16, const COUNT: u16> Call
    for AtGreys<C, FIRST, STEP, COUNT>
{
    const NAME: &'static str = C::NAMES;
    const UNIT: &'static str = "sample";
    const FILTER: &'static str = C::FILTER;

    fn lent(on: &Subject) -> Self {
        AtGreys(C::lent(on))
    }

    fn library(&mut self, on: &Subject) -> u32 {
        let mut numbers = Self::greys().map(|grey| self.0.library_at(on, grey));
        numbers.find(|&number| number != 0).unwrap_or(0)
    }

    fn reference(&mut self, on: &Subject) -> u32 {
        let mut numbers = Self::greys().map(|grey| self.0.reference_at(on, grey));
        numbers.find(|&number| number != 0).unwrap_or(0)
    }

    fn same(library: &Self, reference: &Self) -> bool {
        library == reference
    }

    /// After each call, since the next one writes over what it leaves.
    fn compare(library: &mut Self, reference: &mut Self, on: &Subject) -> Result<(), Failure> {
        for grey in Self::greys() {
            let granted =
                library.0.library_at(on, grey) == 0 && reference.0.reference_at(on, grey) == 0;
            agreed(granted, library, reference)?;
        }
        Ok(())
    }

    fn input(on: &Subject) -> Subject {
        on.grid()
    }

    /// The samples of each call.
    fn units(on: &Subject) -> usize {
        usize::from(COUNT) * on.sample_count()
    }

    /// About as many calls as are asked for.
    fn runs(asked: usize) -> usize {
        asked.div_ceil(COUNT.into())
    }
}
