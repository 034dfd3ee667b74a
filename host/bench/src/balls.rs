//! How far the mean curvature of balls lies from 1/r, raw and after ten rounds.

use crate::calls::smoothing::{ROUNDS, WEIGHT};
use crate::subject::GREY;
use crate::{vtk, Failure};

/// A ball of metal in the middle of the grid, whose samples fall evenly through the grey value at its surface.
fn ball(radius: f64) -> Vec<u16> {
    (0..64 * 64 * 64)
        .map(|s| {
            let place = [s % 64, s / 64 % 64, s / 4096].map(|at| f64::from(at) - 31.5);
            let distance = place.iter().map(|d| d * d).sum::<f64>().sqrt();
            (f64::from(GREY) + 100.0 * (radius - distance)).clamp(0.0, 65_535.0) as u16
        })
        .collect()
}

/// The mean over all points of the size of the mean curvature, a voxel.
fn mean(surface: &viewer::Surface) -> Result<f64, Failure> {
    let sizes: Vec<f64> = surface
        .answers()?
        .iter()
        .map(|answer| match answer {
            viewer::Answer::Bent(_, vector) => {
                256.0 * vector.iter().map(|x| x * x).sum::<f64>().sqrt()
            }
            _ => 0.0,
        })
        .collect();
    Ok(sizes.iter().sum::<f64>() / sizes.len() as f64)
}

pub fn print(program: Option<&str>) -> Result<(), Failure> {
    for radius in [10.0, 20.0, 28.0] {
        let samples = ball(radius);
        let raw = viewer::Surface::extract([64; 3], GREY, &samples)?;
        let smoothed = raw.smooth(ROUNDS, WEIGHT)?;
        let beside = match program {
            Some(program) => {
                let found = vtk::said(program, &samples, 1)?;
                format!("; vtkCurvatures has {:.4} on VTK's raw mesh", found["mean"])
            }
            None => String::new(),
        };
        println!(
            "A ball of radius {radius}: 1/r is {:.4}; the mean curvature is on average {:.4} raw and {:.4} after ten rounds{beside}.",
            1.0 / radius,
            mean(&raw)?,
            mean(&smoothed)?
        );
    }
    Ok(())
}
