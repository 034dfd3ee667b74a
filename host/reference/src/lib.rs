//! A plain reading of document 01 ("Requirements of the build and its rules")
//! and of requests (i) to (iii), (v) and (vi) of document 02 ("Hear the box of a
//! void", "Flat triangles in a cube face", "Reading a mesh back", "Layers as
//! they come off the scanner", "Trying many grey values").
//!
//! The crate was written from these documents alone. It is a second program to
//! compare a proved library with, bit for bit: same answers, same content of
//! every lent room, same refusal numbers. It prefers the shortest way from a
//! sentence of a document to code over speed. Doc comments quote the sentence
//! that the code below them follows.
//!
//! Every call takes its rooms as slices, writes the whole promised content into
//! them and returns counts and the refusal number by value; number 0 means that
//! the call is granted. Work rooms are only measured and zeroed here: the
//! intermediate lists of this crate are its own vectors.

#![forbid(unsafe_code)]

pub mod cube;
pub mod curvature;
pub mod extract;
pub mod grid;
pub mod layers;
mod lines;
pub mod mesh;
pub mod query;
pub mod read;
pub mod shells;
pub mod smooth;
pub mod summary;
pub mod text;
