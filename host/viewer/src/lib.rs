//! The proved library as a Rust program meets it.
//!
//! [`Surface`], [`Layers`], [`Summary`] and [`Mesh`] own the rooms of their calls and answer a [`Refusal`] as an error. The functions beside them are the
//! library's calls on rooms that the caller lends, with the number as document 01 has it. The library checks everything itself; nothing is checked twice.
//!
//! ```
//! // Metal of 3 by 3 by 3 samples with a void of one sample in its middle.
//! let mut samples = [1000; 27];
//! samples[13] = 0;
//! let surface = viewer::Surface::extract([3, 3, 3], 500, &samples)?;
//!
//! // The same surface from one layer after the other.
//! let mut layers = viewer::Layers::open([3, 3, 3], 500)?;
//! let mut parts = viewer::Parts::default();
//! for layer in samples.chunks(9) {
//!     parts.add(layers.next(layer)?);
//! }
//! parts.add(layers.close()?);
//! assert_eq!(parts.put_together(), Some(surface.clone()));
//!
//! // The same surface by the summary of the samples, and one at another grey value, each with the number of blocks looked at.
//! let summary = viewer::Summary::of([3, 3, 3], &samples)?;
//! assert_eq!(summary.surface(500, &samples)?, (surface.clone(), 49));
//! assert_eq!(summary.surface(0, &samples)?, (viewer::Surface::default(), 1));
//!
//! let smoothed = surface.smooth(1, 64)?;
//! let shells = smoothed.shells()?;
//! assert_eq!(shells.records.len(), 1);
//! let void = shells.records[0];
//! assert!(void.volume < 0);
//! assert_eq!((void.least_x, void.greatest_x), (160, 352));
//! let text = smoothed.write(&shells.records)?;
//! assert!(text.starts_with(b"M\t6\t8\t1\nV\t14\t"));
//!
//! let read = viewer::Surface::read(&text).unwrap();
//! assert_eq!(read, (smoothed, shells.records));
//! let cut = viewer::Surface::read(&text[..50]).unwrap_err();
//! assert_eq!(cut, (viewer::Refusal::MeshLine, 4));
//!
//! let refusal = viewer::Surface::extract([3, 3, 65], 500, &samples).unwrap_err();
//! assert_eq!(refusal, viewer::Refusal::Sides);
//! assert_eq!(refusal.to_string(), "refused with number 1: a side is below 2 or above 64");
//! # Ok::<(), viewer::Refusal>(())
//! ```

#[allow(unsafe_code)]
mod c;
mod layers;
mod lent;
mod owned;
mod refusal;
mod summary;

pub use layers::{Layers, Part, Parts};
pub use lent::*;
pub use owned::{Answer, Shells, Surface};
pub use refusal::Refusal;
pub use summary::Summary;
