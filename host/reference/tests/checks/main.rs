//! Runs the reference against the figures of document 01, against its limits
//! and refusals, and against second ways to the same answers.

mod cube;
mod curvature;
mod extract;
mod layers;
mod mesh;
mod query;
mod read;
mod shells;
mod smooth;
mod summary;
mod text;
#[path = "../../../viewer/tests/tools/texts.rs"]
mod texts;
mod tools;
