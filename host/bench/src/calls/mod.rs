//! The nine calls that are timed, each with its rooms. A run of layers stands for one, and so do thirty queries.

pub mod curvature;
pub mod extraction;
pub mod greys;
pub mod layers;
pub mod query;
pub mod reading;
pub mod shells;
pub mod smoothing;
pub mod summary;
pub mod writing;

use std::io::Read;

use crate::subject::Subject;
use crate::Failure;

/// A call of the library and of the reference, and the rooms that either is lent.
pub trait Call: Sized {
    const NAME: &'static str;
    /// What its time is divided by.
    const UNIT: &'static str = "triangle";
    /// The line of VTK's program to stand beside, empty where no filter does the same.
    const FILTER: &'static str;

    /// Rooms of the lengths that a caller lends, all touched.
    fn lent(on: &Subject) -> Self;

    /// Calls the library; answers the refusal's number.
    fn library(&mut self, on: &Subject) -> u32;

    /// Calls the reference; answers the refusal's number.
    fn reference(&mut self, on: &Subject) -> u32;

    /// Whether the library's call left the same as the reference's, to the last bit.
    fn same(library: &Self, reference: &Self) -> bool;

    /// Makes the call on both sides, and fails unless it is granted and leaves the same on both.
    fn compare(library: &mut Self, reference: &mut Self, on: &Subject) -> Result<(), Failure> {
        let granted = library.library(on) == 0 && reference.reference(on) == 0;
        agreed(granted, library, reference)
    }

    /// Makes the library's call once, on what is read; answers the refusal's number.
    fn once(from: &mut impl Read) -> Result<u32, Failure> {
        let on = Subject::read(from)?;
        Ok(Self::lent(&on).library(&on))
    }

    /// What the call reads, and nothing else.
    fn input(on: &Subject) -> Subject {
        on.meshed()
    }

    /// How many units there are.
    fn units(on: &Subject) -> usize {
        on.triangle_count()
    }

    /// How many runs are made of it where so many are asked for.
    fn runs(asked: usize) -> usize {
        asked.div_ceil(10)
    }
}

/// Fails unless a call was granted and left the same on both sides.
fn agreed<C: Call>(granted: bool, library: &C, reference: &C) -> Result<(), Failure> {
    if !granted {
        return Err(format!("{} is refused", C::NAME).into());
    }
    if !C::same(library, reference) {
        return Err(format!("{}: the library and the reference differ", C::NAME).into());
    }
    Ok(())
}
