//! The calls with their rooms owned: what they answer of document 01's figures, and each refusal that a caller of theirs can meet, as its enum.

#[path = "tools/grids.rs"]
mod grids;
mod tools;

use grids::{Grid, Holes};
use viewer::{Answer, Layers, Mesh, Parts, Refusal, Shell, Summary, Surface};

/// The samples of document 01's figure, 3 by 3 by 3: the centre is 100, all others 0. The grey value is 50.
fn samples() -> [u16; 27] {
    let mut samples = [0; 27];
    samples[13] = 100;
    samples
}

fn figure() -> Surface {
    Surface::extract([3, 3, 3], 50, &samples()).unwrap()
}

#[test]
fn the_figure_of_one_sample() {
    let surface = figure();
    assert_eq!(surface.edges, [14, 31, 36, 39, 40, 41]);
    assert_eq!(surface.marks, [0; 6]);
    assert_eq!(surface.triangles.len(), 24);
    assert_eq!(surface.triangles[..3], [2, 0, 1]);
    let shells = surface.shells().unwrap();
    let record = Shell {
        low: 0,
        points: 6,
        triangles: 8,
        touches: 0,
        volume: 16_777_216,
        least_x: 128,
        greatest_x: 384,
        least_y: 128,
        greatest_y: 384,
        least_z: 128,
        greatest_z: 384,
    };
    assert_eq!(shells.numbers, [0; 6]);
    assert_eq!(shells.records, [record]);
    let smoothed = surface.smooth(1, 256).unwrap();
    assert_eq!(smoothed.points, [256; 18]);
    let together = Shell {
        volume: 0,
        least_x: 256,
        greatest_x: 256,
        least_y: 256,
        greatest_y: 256,
        least_z: 256,
        greatest_z: 256,
        ..record
    };
    assert_eq!(smoothed.shells().unwrap().records, [together]);
    assert_eq!(smoothed.answers().unwrap(), [Answer::Flat; 6]);
    assert!(matches!(
        surface.answers().unwrap()[0],
        Answer::Bent(area, _) if area > 0.0
    ));
}

#[test]
fn the_figure_of_one_triangle() {
    let mesh = Mesh {
        points: &[0, 0, 0, 256, 0, 0, 0, 256, 0],
        triangles: &[0, 1, 2],
        marks: &[1; 3],
    };
    let areas = [16_384.0, 8_192.0, 8_192.0];
    assert_eq!(mesh.answers().unwrap(), areas.map(Answer::Open));
    assert_eq!(mesh.smooth(100, 256).unwrap(), mesh.points);
    assert_eq!(mesh.shells().unwrap().records[0].touches, 1);
}

#[test]
fn a_grid_is_refused() {
    let refused = |sides, samples: &[u16]| Surface::extract(sides, 1, samples).unwrap_err();
    assert_eq!(refused([1, 2, 2], &[0; 4]), Refusal::Sides);
    assert_eq!(refused([2, 2, 2], &[0; 7]), Refusal::Samples);
    assert_eq!(refused([64; 3], &vec![0; 300_000]), Refusal::Samples);
    assert_eq!(refused([64; 3], &checkered()), Refusal::Points);
}

/// Samples 0 and 1 in turn along every axis, 64 a side.
fn checkered() -> Vec<u16> {
    (0..64 * 64 * 64)
        .map(|s| ((s ^ s >> 6 ^ s >> 12) & 1) as u16)
        .collect()
}

/// The first layer hands out nothing, the two others all that the figure has, and the closing nothing. Put together it is the figure.
#[test]
fn the_figure_layer_by_layer() {
    let mut layers = Layers::open([3, 3, 3], 50).unwrap();
    let mut parts = Parts::default();
    let (mut edges, mut triangles) = (Vec::new(), Vec::new());
    for layer in samples().chunks(9) {
        let part = layers.next(layer).unwrap();
        assert_eq!(part.points.len(), 3 * part.edges.len());
        assert_eq!(part.marks, vec![0; part.edges.len()]);
        edges.push(part.edges.to_vec());
        triangles.push(part.triangles.len() / 3);
        parts.add(part);
    }
    assert_eq!(edges, [vec![], vec![14], vec![31, 36, 39, 40, 41]]);
    assert_eq!(triangles, [0, 4, 4]);
    let last = layers.close().unwrap();
    assert!(last.edges.is_empty() && last.triangles.is_empty());
    parts.add(last);
    assert_eq!(parts.put_together(), Some(figure()));
}

/// Two samples above in the last layer: its points are handed out by the closing, and a corner is without its point before it.
#[test]
fn parts_of_a_run_that_is_not_closed() {
    let volume = [0, 0, 0, 0, 9, 9, 0, 0];
    let mut layers = Layers::open([2, 2, 2], 5).unwrap();
    let mut parts = Parts::default();
    assert_eq!(parts.clone().put_together(), Some(Surface::default()));
    for layer in volume.chunks(4) {
        parts.add(layers.next(layer).unwrap());
    }
    assert_eq!(parts.clone().put_together(), None);
    let last = layers.close().unwrap();
    assert_eq!((last.edges, last.marks), (&[13, 16][..], &[1, 1][..]));
    parts.add(last);
    let whole = Surface::extract([2, 2, 2], 5, &volume).unwrap();
    assert_eq!(parts.put_together(), Some(whole));
}

/// Each refusal leaves the run where it was: it goes on, and a copy of it too.
#[test]
fn a_layer_or_a_closing_is_refused() {
    let open = |sides| Layers::open(sides, 50).map(drop);
    for sides in [[1, 3, 3], [3, 65, 3], [3, 3, 0], [u32::MAX; 3]] {
        assert_eq!(open(sides), Err(Refusal::Sides));
    }
    let mut layers = Layers::open([3, 3, 3], 50).unwrap();
    let mut parts = Parts::default();
    for layer in samples().chunks(9) {
        for wrong in [&[][..], &[0; 8], &[0; 10], &[0; 27]] {
            assert_eq!(layers.next(wrong), Err(Refusal::Layer));
        }
        assert_eq!(layers.close(), Err(Refusal::Closing));
        assert!(layers.clone().next(&[100; 9]).is_ok());
        parts.add(layers.next(layer).unwrap());
    }
    assert_eq!(layers.next(&[0; 9]), Err(Refusal::Layer));
    parts.add(layers.close().unwrap());
    assert_eq!(layers.close(), Err(Refusal::Closing));
    assert_eq!(layers.next(&[0; 9]), Err(Refusal::Layer));
    assert_eq!(parts.put_together(), Some(figure()));
}

/// The checkerboard has 12,160 points a layer, and the run stays at the layer that brings them past 250,000.
#[test]
fn a_run_is_refused_for_its_totals() {
    let checkered = checkered();
    let mut layers = Layers::open([64; 3], 1).unwrap();
    let mut points = 0;
    for layer in checkered.chunks(64 * 64).take(21) {
        points += layers.next(layer).unwrap().edges.len();
    }
    assert_eq!(points, 20 * 12_160);
    for layer in checkered.chunks(64 * 64).skip(21).take(2) {
        assert_eq!(layers.next(layer), Err(Refusal::Points));
    }
    assert_eq!(layers.close(), Err(Refusal::Closing));
}

/// The summary is kept, and other grey values are tried by it.
#[test]
fn the_figure_by_its_summary() {
    let summary = Summary::of([3, 3, 3], &samples()).unwrap();
    assert_eq!(summary.surface(50, &samples()), Ok((figure(), 49)));
    for grey in 1..=100 {
        let surface = Surface::extract([3, 3, 3], grey, &samples()).unwrap();
        assert_eq!(summary.surface(grey, &samples()), Ok((surface, 49)));
    }
    for grey in [0, 101, 65_535] {
        let nothing = Ok((Surface::default(), 1));
        assert_eq!(summary.surface(grey, &samples()), nothing);
    }
}

#[test]
fn a_summary_is_refused() {
    let of = |sides, samples: &[u16]| Summary::of(sides, samples).unwrap_err();
    assert_eq!(of([1, 2, 2], &[0; 4]), Refusal::Sides);
    assert_eq!(of([2, 65, 2], &[0; 260]), Refusal::Sides);
    assert_eq!(of([2, 2, 2], &[0; 7]), Refusal::Samples);
    assert_eq!(of([64; 3], &vec![0; 300_000]), Refusal::Samples);
}

/// After each refusal the summary serves its own samples.
#[test]
fn a_query_is_refused() {
    let summary = Summary::of([3, 3, 3], &samples()).unwrap();
    for (other, refusal) in [
        (&[0; 26][..], Refusal::Samples),
        (&vec![0; 300_000], Refusal::Samples),
        (&[0; 27], Refusal::Summary),
    ] {
        for grey in [0, 50] {
            assert_eq!(summary.surface(grey, other), Err(refusal));
        }
        assert_eq!(summary.surface(50, &samples()), Ok((figure(), 49)));
    }
    let noisy = Holes::new().below(196_000);
    for (grid, refusal) in [
        (grids::checkered([64; 3]), Refusal::Points),
        (noisy, Refusal::Triangles),
    ] {
        let Grid {
            sides,
            grey,
            samples,
        } = grid;
        let summary = Summary::of(sides, &samples).unwrap();
        assert_eq!(summary.surface(grey, &samples), Err(refusal));
        let nothing = Ok((Surface::default(), 1));
        assert_eq!(summary.surface(0, &samples), nothing);
    }
}

/// What all three calls on a mesh answer.
fn refused(points: &[u32], triangles: &[u32], marks: &[u8]) -> Refusal {
    let mesh = Mesh {
        points,
        triangles,
        marks,
    };
    let refusal = mesh.shells().unwrap_err();
    assert_eq!(mesh.smooth(0, 0).unwrap_err(), refusal);
    assert_eq!(mesh.answers().unwrap_err(), refusal);
    refusal
}

#[test]
fn a_mesh_is_refused() {
    assert_eq!(refused(&[0; 8], &[0, 1, 2], &[0; 3]), Refusal::Lengths);
    let (many, marks) = (vec![0; 750_003], vec![0; 250_001]);
    assert_eq!(refused(&many, &[], &marks), Refusal::Lengths);
    let many = [0, 1, 2].repeat(500_001);
    assert_eq!(refused(&[0; 9], &many, &[0; 3]), Refusal::Lengths);
    assert_eq!(refused(&[0; 9], &[0, 1, 3], &[0; 3]), Refusal::Corners);
    assert_eq!(refused(&[16_129; 9], &[], &[0; 3]), Refusal::Coordinate);
    assert_eq!(refused(&[0; 9], &[], &[0, 2, 0]), Refusal::Mark);
    let settings = [(101, 0), (0, 257)];
    for (rounds, weight) in settings {
        let refusal = figure().smooth(rounds, weight).unwrap_err();
        assert_eq!(refusal, Refusal::Settings);
    }
}

/// A line of the figure's text replaced, or if there is none, added.
fn text_with(line: usize, by: &str) -> Vec<u8> {
    let surface = figure();
    let text = surface.write(&surface.shells().unwrap().records).unwrap();
    let text = String::from_utf8(text).unwrap();
    let mut lines: Vec<&str> = text.lines().collect();
    lines.resize(lines.len().max(line), "");
    lines[line - 1] = by;
    (lines.join("\n") + "\n").into_bytes()
}

#[test]
fn a_text_is_read() {
    let (surface, records) = (figure(), figure().shells().unwrap().records);
    let text = surface.write(&records).unwrap();
    assert_eq!(Surface::read(&text), Ok((surface, records)));
}

/// The figure's text has its points from line 2 on, its triangles from line 8 on, and its shell in line 16.
#[test]
fn a_text_is_refused() {
    let line = |line, by| Surface::read(&text_with(line, by)).unwrap_err();
    assert_eq!(Surface::read(b"").unwrap_err(), (Refusal::MeshLine, 1));
    assert_eq!(line(1, "M 6 8 1"), (Refusal::MeshLine, 1));
    assert_eq!(line(1, "M\t250001\t8\t1"), (Refusal::Points, 0));
    assert_eq!(line(1, "M\t6\t500001\t1"), (Refusal::Triangles, 0));
    assert_eq!(line(1, "M\t6\t8\t250001"), (Refusal::Records, 0));
    assert_eq!(line(1, "M\t6\t9\t1"), (Refusal::MeshLine, 16));
    assert_eq!(line(3, "V\t14\t256\t384\t256\t0"), (Refusal::MeshLine, 3));
    assert_eq!(line(17, "S"), (Refusal::MeshLine, 17));
    assert_eq!(line(8, "T\t0\t1\t6"), (Refusal::Corners, 0));
    assert_eq!(
        line(2, "V\t14\t256\t256\t16129\t0"),
        (Refusal::Coordinate, 0)
    );
    assert_eq!(line(2, "V\t14\t256\t256\t128\t2"), (Refusal::Mark, 0));
    let touching = "S\t0\t6\t8\t1\t16777216\t128\t384\t128\t384\t128\t384";
    assert_eq!(line(16, touching), (Refusal::Shells, 0));
}
