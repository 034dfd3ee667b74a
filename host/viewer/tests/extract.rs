//! The extractor against the reference: answers, and every place of every room.

#[path = "tools/grids.rs"]
mod grids;
mod tools;

use grids::{Grid, Holes};
use tools::{count, roomy, same, Lengths, Rooms, Seed};

/// One call on both sides, with rooms to spare.
fn same_mesh(grid: &Grid) -> (viewer::Extracted, Rooms) {
    same(grid.sides, grid.grey, &grid.samples, roomy(grid.sides))
}

#[test]
fn each_case_as_a_grid_of_one_cube() {
    for (case, grid) in (0..=255).zip(grids::cubes()) {
        let (found, _) = same_mesh(&grid);
        assert_eq!(found.triangles, u32::from(reference::cube::count(case)));
    }
}

#[test]
fn random_grids_of_every_shape_up_to_nine() {
    for grid in grids::up_to_nine() {
        same_mesh(&grid);
    }
}

#[test]
fn plateaus_at_the_grey_value_and_the_ends_of_the_range() {
    for grid in grids::plateaus() {
        same_mesh(&grid);
    }
    for grid in grids::even() {
        let (found, _) = same_mesh(&grid);
        assert_eq!((found.number, found.points, found.triangles), (0, 0, 0));
    }
}

#[test]
fn checkerboards() {
    for grid in grids::checkerboards() {
        same_mesh(&grid);
    }
}

#[test]
fn the_largest_sides() {
    for grid in grids::large() {
        same_mesh(&grid);
    }
}

#[test]
fn the_figure_of_document_01() {
    let (found, rooms) = same_mesh(&grids::figure());
    assert_eq!((found.number, found.points, found.triangles), (0, 6, 8));
    assert_eq!(rooms.edges[..6], [14, 31, 36, 39, 40, 41]);
    assert_eq!(rooms.marks[..6], [0; 6]);
    assert_eq!(rooms.triangles[..3], [2, 0, 1]);
}

/// A refusal leaves the result rooms, and the work room as it was or all zero.
fn refused(sides: [u32; 3], grey: u16, samples: &[u16], lengths: Lengths, number: u32) {
    let (found, rooms) = same(sides, grey, samples, lengths);
    assert_eq!(
        (found.number, found.points, found.triangles),
        (number, 0, 0),
        "sides {sides:?}, rooms {lengths:?}"
    );
    let before = Rooms::guarded(lengths);
    assert_eq!(
        (&rooms.points, &rooms.edges, &rooms.marks, &rooms.triangles),
        (
            &before.points,
            &before.edges,
            &before.marks,
            &before.triangles
        )
    );
    let work = if number > 3 {
        vec![0; lengths.work]
    } else {
        before.work
    };
    assert_eq!(rooms.work, work);
}

#[test]
fn sides_out_of_range_are_refused_before_anything_else() {
    let wrong = [0, 1, 65, 66, 128, 65_535, 65_536, 1 << 31, u32::MAX];
    let lengths = Lengths {
        points: 5,
        edges: 4,
        marks: 3,
        triangles: 2,
        work: 24,
    };
    for side in wrong {
        for sides in [
            [side, 2, 2],
            [2, side, 2],
            [2, 2, side],
            [side, side, side],
            [64, 64, side],
        ] {
            for samples in [vec![], vec![1; 8], vec![1; 9]] {
                refused(sides, 1, &samples, lengths, 1);
                refused(sides, 1, &samples, Lengths { work: 0, ..lengths }, 1);
            }
        }
    }
}

#[test]
fn a_wrong_number_of_samples_is_refused_before_the_work_room() {
    for length in [0, 1, 7, 9, 16, 1000] {
        let samples = vec![1; length];
        for work in [0, 23, 24, 25, 3 * length] {
            refused(
                [2, 2, 2],
                1,
                &samples,
                Lengths {
                    work,
                    ..roomy([2, 2, 2])
                },
                2,
            );
        }
    }
}

#[test]
fn another_work_room_is_refused_before_the_result_rooms() {
    let samples = [100, 0, 0, 0, 0, 0, 0, 0];
    for work in [0, 1, 8, 23, 25, 48, 1000] {
        refused(
            [2, 2, 2],
            50,
            &samples,
            Lengths {
                work,
                ..roomy([2, 2, 2])
            },
            3,
        );
        refused(
            [2, 2, 2],
            50,
            &samples,
            Lengths {
                points: 0,
                edges: 0,
                marks: 0,
                triangles: 0,
                work,
            },
            3,
        );
    }
}

/// The rooms that a grid's mesh fills to the last place.
fn exact(grid: &Grid) -> Lengths {
    let (found, _) = same_mesh(grid);
    let (points, triangles) = (found.points as usize, found.triangles as usize);
    Lengths {
        points: 3 * points,
        edges: points,
        marks: points,
        triangles: 3 * triangles,
        work: 3 * count(grid.sides),
    }
}

#[test]
fn rooms_one_too_short_exact_and_long() {
    let mut seed = Seed::new(4);
    for _ in 0..60 {
        let grid = grids::small(&mut seed);
        let fit = exact(&grid);
        if fit.edges == 0 || fit.triangles == 0 {
            continue;
        }
        let Grid {
            sides,
            grey,
            samples,
        } = grid;
        let granted = |lengths| assert_eq!(same(sides, grey, &samples, lengths).0.number, 0);
        granted(fit);
        for more in [1, 2, 3] {
            granted(Lengths {
                points: fit.points + more,
                ..fit
            });
            granted(Lengths {
                edges: fit.edges + more,
                ..fit
            });
            granted(Lengths {
                marks: fit.marks + more,
                ..fit
            });
            granted(Lengths {
                triangles: fit.triangles + more,
                ..fit
            });
        }
        let refuses = |number, lengths| refused(sides, grey, &samples, lengths, number);
        for less in [1, 2, 3] {
            for triangles in [0, fit.triangles - 1, fit.triangles] {
                let short = Lengths { triangles, ..fit };
                refuses(
                    4,
                    Lengths {
                        points: fit.points - less,
                        ..short
                    },
                );
                refuses(
                    4,
                    Lengths {
                        edges: fit.edges - 1,
                        ..short
                    },
                );
                refuses(
                    4,
                    Lengths {
                        marks: fit.marks - 1,
                        ..short
                    },
                );
            }
            refuses(
                5,
                Lengths {
                    triangles: fit.triangles - less,
                    ..fit
                },
            );
        }
    }
}

/// A grid is refused with rooms to spare.
fn refused_grid(grid: &Grid, number: u32) {
    let Grid {
        sides,
        grey,
        samples,
    } = grid;
    refused(*sides, *grey, samples, roomy(*sides), number);
}

#[test]
fn the_limit_on_points() {
    refused_grid(&grids::checkered([64; 3]), 4);
    let [exact, more] = grids::most_points();
    let (found, _) = same_mesh(&exact);
    assert_eq!((found.number, found.points), (0, 250_000));
    refused_grid(&more, 4);
}

/// Where the triangles pass their limit is searched for too, so that two of the grids that are compared are one hole apart, the first granted and the second
/// refused.
#[test]
fn the_limit_on_triangles() {
    let holes = Holes::new();
    let numbers: Vec<u32> = holes
        .steps()
        .map(|grid| same_mesh(&grid).0.number)
        .collect();
    assert_eq!(numbers.first(), Some(&0));
    assert!(numbers.contains(&5), "{numbers:?}");

    let [granted, more] = holes.at_the_limit();
    let (found, _) = same_mesh(&granted);
    assert!(found.number == 0 && found.triangles > 499_980);
    refused_grid(&more, 5);
}

#[test]
fn an_empty_mesh_is_granted_into_empty_rooms() {
    let lengths = Lengths {
        points: 0,
        edges: 0,
        marks: 0,
        triangles: 0,
        work: 24,
    };
    let (found, _) = same([2, 2, 2], 0, &[0; 8], lengths);
    assert_eq!((found.number, found.points, found.triangles), (0, 0, 0));
}
