//! What document 01 gives literally.

use program::{hold, same, same_all, Grid};

/// The program answers exactly this text, and so does the reference.
fn answers(input: &str, output: &str) {
    hold(input.as_bytes(), &same(input.as_bytes()), output.as_bytes());
}

#[test]
fn the_worked_example() {
    answers(
        "G\t2\t2\t2\t50\t0\t0\n100\t0\n0\t0\n0\t0\n0\t0\n",
        "M\t3\t1\t1\nV\t0\t128\t0\t0\t1\nV\t1\t0\t128\t0\t1\nV\t2\t0\t0\t128\t1\nT\t0\t1\t2\nS\t0\t3\t1\t1\t2097152\t0\t128\t0\t128\t0\t128\n",
    );
}

const CENTRE_ROWS: &str = "\
0\t0\t0\n0\t0\t0\n0\t0\t0\n\
0\t0\t0\n0\t100\t0\n0\t0\t0\n\
0\t0\t0\n0\t0\t0\n0\t0\t0\n";

/// One a cube, each from the point on its edge along x.
const CENTRE_TRIANGLES: &str = "\
T\t2\t0\t1\nT\t3\t1\t0\nT\t2\t4\t0\nT\t3\t0\t4\n\
T\t2\t1\t5\nT\t3\t5\t1\nT\t2\t5\t4\nT\t3\t4\t5\n";

#[test]
fn one_sample_above_in_the_middle() {
    answers(
        &format!("G\t3\t3\t3\t50\t0\t0\n{CENTRE_ROWS}"),
        &format!(
            "M\t6\t8\t1\n\
             V\t14\t256\t256\t128\t0\nV\t31\t256\t128\t256\t0\nV\t36\t128\t256\t256\t0\n\
             V\t39\t384\t256\t256\t0\nV\t40\t256\t384\t256\t0\nV\t41\t256\t256\t384\t0\n\
             {CENTRE_TRIANGLES}S\t0\t6\t8\t0\t16777216\t128\t384\t128\t384\t128\t384\n"
        ),
    );
}

#[test]
fn one_round_of_full_weight_lets_the_six_points_fall_together() {
    let points: String = [14, 31, 36, 39, 40, 41]
        .map(|edge| format!("V\t{edge}\t256\t256\t256\t0\n"))
        .concat();
    answers(
        &format!("G\t3\t3\t3\t50\t1\t256\n{CENTRE_ROWS}"),
        &format!("M\t6\t8\t1\n{points}{CENTRE_TRIANGLES}S\t0\t6\t8\t0\t0\t256\t256\t256\t256\t256\t256\n"),
    );
}

#[test]
fn grey_value_0_gives_the_empty_mesh() {
    answers(
        "G\t2\t2\t2\t0\t0\t0\n100\t0\n0\t0\n0\t0\n0\t0\n",
        "M\t0\t0\t0\n",
    );
}

#[test]
fn the_limits_are_taken_and_what_is_past_them_refused() {
    let empty = |sides, rounds, weight| Grid {
        rounds,
        weight,
        ..Grid::raw(sides, 1, |_| 0)
    };
    let (granted, side, rounds) = ("M\t0\t0\t0\n", "R\t1\t0\n", "R\t10\t0\n");
    let cases = [
        (empty([64, 2, 2], 100, 256), granted),
        (empty([2, 64, 2], 100, 256), granted),
        (empty([2, 2, 64], 100, 256), granted),
        (empty([65, 2, 2], 0, 0), side),
        (empty([2, 65, 2], 0, 0), side),
        (empty([2, 2, 65], 0, 0), side),
        (empty([1, 2, 2], 0, 0), side),
        (empty([2, 1, 2], 0, 0), side),
        (empty([2, 2, 1], 0, 0), side),
        (empty([2, 2, 2], 101, 0), rounds),
        (empty([2, 2, 2], 0, 257), rounds),
    ];
    let inputs = cases.each_ref().map(|(grid, _)| grid.text());
    for (at, found) in same_all(&inputs).iter().enumerate() {
        hold(&inputs[at], found, cases[at].1.as_bytes());
    }
}
