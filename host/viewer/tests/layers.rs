//! Layers as they come, against the reference: after each call its answer, the state and every place of every room. Put together they are the extractor's mesh.

#[path = "tools/grids.rs"]
mod grids;
#[path = "tools/runs.rs"]
mod runs;
mod tools;

use std::collections::BTreeMap;

use grids::{Grid, Holes};
use reference::layers::{Surface, CLOSED, GREY, KEPT, POINTS, TAKEN, TRIANGLES};
use runs::{calls, refused, Answer, Call, Lengths, Run};
use tools::{noise, Seed};
use viewer::{Parts, LAYERS_STATE};

/// What the last call of a run has handed out. Its triangles name grid edges.
fn owned(run: &Run) -> Surface {
    let part = run.part();
    Surface {
        points: part.points.to_vec(),
        edges: part.edges.to_vec(),
        marks: part.marks.to_vec(),
        triangles: part.triangles.to_vec(),
    }
}

/// What each call of a whole run over a grid hands out, with enough rooms, or the first call that is refused and its number. The whole extractor is granted
/// exactly where all calls are, and the parts put together are its mesh.
fn run_over(grid: &Grid) -> Result<Vec<Surface>, (usize, u32)> {
    let whole = viewer::Surface::extract(grid.sides, grid.grey, &grid.samples);
    let mut run = Run::opened(grid);
    let (mut handed_out, mut parts) = (Vec::new(), Parts::default());
    for (done, call) in calls(grid).enumerate() {
        let answer = run.same(call, Lengths::enough(grid.sides));
        if answer.number != 0 {
            assert!(whole.is_err(), "{grid:?}");
            return Err((done, answer.number));
        }
        parts.add(run.part());
        handed_out.push(owned(&run));
    }
    assert!(parts.put_together() == whole.ok(), "{grid:?}");
    Ok(handed_out)
}

/// A run over a grid that is within the bounds.
fn whole_run(grid: &Grid) -> Vec<Surface> {
    run_over(grid).unwrap_or_else(|refusal| panic!("{grid:?} is refused: {refusal:?}"))
}

#[test]
fn the_figure_of_document_01() {
    let below = Surface {
        points: vec![256, 256, 128],
        edges: vec![14],
        marks: vec![0],
        triangles: [[36, 14, 31], [39, 31, 14], [36, 40, 14], [39, 14, 40]].concat(),
    };
    let places = [
        [256, 128, 256],
        [128, 256, 256],
        [384, 256, 256],
        [256, 384, 256],
        [256, 256, 384],
    ];
    let middle = Surface {
        points: places.concat(),
        edges: vec![31, 36, 39, 40, 41],
        marks: vec![0; 5],
        triangles: [[36, 31, 41], [39, 41, 31], [36, 41, 40], [39, 40, 41]].concat(),
    };
    let nothing = Surface::default();
    let run = [nothing.clone(), below, middle, nothing];
    assert_eq!(whole_run(&grids::figure()), run);
}

/// Document 01's example, and the same with the sample in the upper layer: its triangle names two points that the closing hands out.
#[test]
fn the_example_of_document_01() {
    let nothing = Surface::default();
    let corner = Surface {
        points: vec![128, 0, 0, 0, 128, 0, 0, 0, 128],
        edges: vec![0, 1, 2],
        marks: vec![1; 3],
        triangles: vec![0, 1, 2],
    };
    let run = [nothing.clone(), corner, nothing.clone()];
    assert_eq!(whole_run(&grids::example()), run);

    let between = Surface {
        points: vec![0, 0, 128],
        edges: vec![2],
        marks: vec![1],
        triangles: vec![12, 2, 13],
    };
    let last = Surface {
        points: vec![128, 0, 256, 0, 128, 256],
        edges: vec![12, 13],
        marks: vec![1; 2],
        triangles: vec![],
    };
    let run = [nothing, between, last];
    assert_eq!(whole_run(&grids::one_above([2, 2, 2], [0, 0, 1])), run);
}

/// The state of a run is a function of its sides, its grey value, the layers taken, whether it is closed, and what was handed out.
fn run_state(grid: &Grid, taken: usize, closed: u32, handed_out: &[Surface]) -> Vec<u32> {
    let points: usize = handed_out.iter().map(|part| part.edges.len()).sum();
    let corners: usize = handed_out.iter().map(|part| part.triangles.len()).sum();
    let mut state = opened_state(grid.sides, grid.grey);
    state[TAKEN] = taken as u32;
    state[CLOSED] = closed;
    state[POINTS] = points as u32;
    state[TRIANGLES] = corners as u32 / 3;
    let last = grid.layers().take(taken).last().unwrap_or(&[]);
    for (number, &sample) in state[KEPT..].iter_mut().zip(last) {
        *number = sample.into();
    }
    state
}

/// The state that an opening leaves.
fn opened_state([nx, ny, nz]: [u32; 3], grey: u16) -> Vec<u32> {
    let mut state = vec![nx, ny, nz, grey.into()];
    state.resize(LAYERS_STATE, 0);
    state
}

#[test]
fn made_up_grids_of_every_shape_up_to_seven() {
    let mut seed = Seed::new(31);
    let (mut grids, mut points) = (0, 0);
    for sides in grids::shapes(7) {
        for bound in [2, 3, 5, 20, 256, 65_536].repeat(2) {
            let grid = grids::made_up(&mut seed, sides, bound);
            let nz = sides[2] as usize;
            let handed_out = whole_run(&grid);
            let mut run = Run::opened(&grid);
            assert_eq!(run.state(), run_state(&grid, 0, 0, &[]), "{grid:?}");
            for (done, call) in calls(&grid).enumerate() {
                run.same(call, Lengths::enough(sides));
                let (taken, closed) = ((done + 1).min(nz), u32::from(done == nz));
                let state = run_state(&grid, taken, closed, &handed_out[..=done]);
                assert_eq!(run.state(), state, "{grid:?}");
            }
            grids += 1;
            points += run.state()[POINTS];
        }
    }
    assert_eq!(grids, 2_592);
    assert!(points > 150_000, "{points}");
}

#[test]
fn sides_of_63_and_64() {
    let mut seed = Seed::new(32);
    for sides in [
        [63, 64, 3],
        [64, 63, 2],
        [64, 64, 4],
        [63, 63, 3],
        [64, 2, 5],
        [2, 64, 5],
        [63, 3, 64],
        [3, 63, 63],
        [2, 2, 64],
    ] {
        for bound in [2, 65_536] {
            let grid = grids::made_up(&mut seed, sides, bound);
            whole_run(&grid);
        }
    }
}

/// Every grid within the bounds that the extractor is tried on.
#[test]
fn put_together_they_are_the_extractor_s_mesh() {
    let mut seed = Seed::new(4);
    let grids = grids::cubes()
        .chain(grids::up_to_nine())
        .chain(grids::plateaus())
        .chain(grids::even())
        .chain(grids::checkerboards())
        .chain(grids::large())
        .chain((0..60).map(|_| grids::small(&mut seed)));
    let (mut runs, mut points) = (0, 0);
    for grid in grids {
        runs += 1;
        for part in whole_run(&grid) {
            points += part.edges.len();
        }
    }
    assert_eq!(runs, 256 + 2_048 + 35 + 15 + 6 + 5 + 60);
    assert!(points > 300_000, "{points}");
}

/// The bound is 250,000. In a checkerboard each layer but the last has 12,160 points, so that the layers 0 to 20 are granted and hand out 20 times as many.
#[test]
fn the_limit_on_points() {
    let grid = grids::checkered([64; 3]);
    assert_eq!(run_over(&grid), Err((21, 4)));

    let [exact, more] = grids::most_points();
    let handed_out = whole_run(&exact);
    let points: usize = handed_out.iter().map(|part| part.edges.len()).sum();
    assert_eq!((handed_out.len(), points), (65, 250_000));
    assert_eq!(run_over(&more), Err((64, 4)));
}

/// The totals pass 500,000 in the middle of the run, and exactly where the whole extractor is refused.
#[test]
fn the_limit_on_triangles() {
    let holes = Holes::new();
    let numbers: Vec<u32> = holes
        .steps()
        .map(|grid| run_over(&grid).map_or_else(|(_, number)| number, |_| 0))
        .collect();
    assert_eq!(numbers.first(), Some(&0));
    assert!(numbers.contains(&5), "{numbers:?}");

    let [granted, more] = holes.at_the_limit();
    let handed_out = whole_run(&granted);
    let corners: usize = handed_out.iter().map(|part| part.triangles.len()).sum();
    assert!(corners / 3 > 499_980, "{corners}");
    let (done, number) = run_over(&more).unwrap_err();
    assert!((40..50).contains(&done), "{done}");
    assert_eq!(number, 5);
}

/// A run at the call where it passes a bound: the call is refused again and again and leaves the run where it is. It is granted with a total that is less by
/// just what it was too much, and not with one more.
#[test]
fn a_run_that_passes_a_bound_stays_where_it_is() {
    let checkered = grids::checkered([64; 3]);
    let noisy = Holes::new().below(64 * 64 * 64);
    for (grid, place, number, most) in [
        (&checkered, POINTS, 4, 250_000),
        (&noisy, TRIANGLES, 5, 500_000),
    ] {
        let enough = Lengths::enough(grid.sides);
        let mut run = Run::opened(grid);
        let mut calls = calls(grid);
        let over = calls.find(|&call| run.same(call, enough).number != 0);
        let over = over.expect("the run passes a bound");
        for _ in 0..3 {
            run.refuses(over, enough, number);
            run.refuses(over, Lengths::none(), 4);
            run.refuses(Call::Close, enough, 18);
            run.refuses(Call::Next(&[]), enough, 17);
        }
        let stays = run.state().to_vec();
        run.change(|state| state[place] = 0);
        let answer = run.same(over, enough);
        let count = [answer.points, answer.triangles][place - POINTS];
        assert!(count > 0 && stays[place] + count > most);
        for (total, expected) in [(most - count, 0), (most - count + 1, number)] {
            run.put(&stays);
            run.change(|state| state[place] = total);
            assert_eq!(run.same(over, enough).number, expected);
        }
    }
}

/// Before each call of a run: layers of wrong length, one too many, early closings, and every room short by some. Each leaves the state and the rooms, and the
/// run goes on with rooms that hold just what is handed out.
#[test]
fn refused_calls_strewn_into_runs() {
    let mut seed = Seed::new(33);
    let mut refusals = BTreeMap::new();
    for _ in 0..250 {
        let grid = grids::small(&mut seed);
        let enough = Lengths::enough(grid.sides);
        let (mut run, mut parts) = (Run::opened(&grid), Parts::default());
        let handed_out = whole_run(&grid);
        let mut refuses = |run: &mut Run, call: Call<'_>, lengths: Lengths, number: u32| {
            run.refuses(call, lengths, number);
            *refusals.entry(number).or_insert(0) += 1;
        };
        let samples = grid.layers().next().unwrap().len();
        let long = vec![60; samples + 1];
        for (done, (call, part)) in calls(&grid).zip(&handed_out).enumerate() {
            for length in [0, samples - 1, samples + 1] {
                refuses(&mut run, Call::Next(&long[..length]), enough, 17);
            }
            match done < grid.sides[2] as usize {
                true => refuses(&mut run, Call::Close, enough, 18),
                false => refuses(&mut run, Call::Next(&long[1..]), enough, 17),
            }
            let fit = Lengths::exact(part.edges.len(), part.triangles.len() / 3);
            for (number, short) in fit.short() {
                refuses(&mut run, call, short, number);
            }
            assert_eq!(run.same(call, fit).number, 0, "{grid:?}");
            parts.add(run.part());
        }
        for _ in 0..2 {
            refuses(&mut run, Call::Close, enough, 18);
            refuses(&mut run, Call::Next(&long[1..]), enough, 17);
        }
        let whole = viewer::Surface::extract(grid.sides, grid.grey, &grid.samples);
        assert_eq!(parts.put_together(), whole.ok(), "{grid:?}");
    }
    let seen: Vec<u32> = refusals.keys().copied().collect();
    assert_eq!(seen, [4, 5, 17, 18]);
    assert!(
        refusals.values().all(|&count| count > 1_000),
        "{refusals:?}"
    );
}

/// No rooms at all are refused with 4 before 5, and rooms that are longer than they need be are granted.
#[test]
fn no_rooms_and_long_rooms() {
    let mut seed = Seed::new(34);
    for _ in 0..200 {
        let grid = grids::small(&mut seed);
        let mut run = Run::opened(&grid);
        for (call, part) in calls(&grid).zip(whole_run(&grid)) {
            let fit = Lengths::exact(part.edges.len(), part.triangles.len() / 3);
            if fit.edges > 0 {
                run.refuses(call, Lengths::none(), 4);
            }
            let more = 1 + seed.below(3) as usize;
            let long = Lengths {
                state: LAYERS_STATE,
                points: fit.points + more,
                edges: fit.edges + more,
                marks: fit.marks + more,
                triangles: fit.triangles + more,
            };
            let mut roomy = Run::new(long);
            roomy.put(run.state());
            assert_eq!(roomy.same(call, long).number, 0);
            assert_eq!(owned(&roomy), part);
            run.same(call, fit);
        }
    }
}

/// Rooms for states of up to twice the length.
fn any_length() -> Run {
    Run::new(Lengths {
        state: 2 * LAYERS_STATE,
        ..Lengths::enough([3, 3, 3])
    })
}

/// Lengths that are not a state's.
const OTHER_LENGTHS: [usize; 8] = [0, 1, 3, 7, 8, 4_103, 4_105, 8_208];

fn of_state(state: usize, lengths: Lengths) -> Lengths {
    Lengths { state, ..lengths }
}

#[test]
fn an_opening_writes_the_whole_state() {
    for (sides, grey) in [([3, 64, 2], 0), ([64, 2, 3], 65_535), ([2, 2, 64], 1)] {
        let mut run = any_length();
        let answer = run.same(Call::Open(sides, grey), Lengths::none());
        assert_eq!(answer.number, 0);
        assert_eq!(run.state(), opened_state(sides, grey));
    }
}

#[test]
fn an_opening_is_refused_with_1_then_3() {
    let mut run = any_length();
    for side in [0, 1, 65, 66, 128, 65_536, 1 << 31, u32::MAX] {
        for sides in [
            [side, 2, 64],
            [64, side, 2],
            [2, 64, side],
            [side, side, side],
        ] {
            for length in [4_104].into_iter().chain(OTHER_LENGTHS) {
                run.refuses(Call::Open(sides, 50), of_state(length, Lengths::none()), 1);
            }
        }
    }
    for length in OTHER_LENGTHS {
        let lengths = of_state(length, Lengths::none());
        run.refuses(Call::Open([2, 3, 64], 50), lengths, 3);
    }
    // A run that was opened is opened anew.
    for grid in [grids::figure(), grids::example()] {
        let open = Call::Open(grid.sides, grid.grey);
        assert_eq!(run.same(open, Lengths::none()).number, 0);
        assert_eq!(run.state(), opened_state(grid.sides, grid.grey));
    }
}

/// The third layer of the figure, which hands out five points and four triangles, with the state before it.
const THIRD: Call<'_> = Call::Next(&[0; 9]);
const LAYER: Answer = Answer {
    number: 0,
    points: 5,
    triangles: 4,
};

fn before_the_third_layer() -> Run {
    let grid = grids::figure();
    let mut run = any_length();
    for call in [Call::Open(grid.sides, grid.grey)]
        .into_iter()
        .chain(calls(&grid).take(2))
    {
        assert_eq!(run.same(call, Lengths::enough(grid.sides)).number, 0);
    }
    run
}

/// The figure with its middle layer for the last one. Closing hands out four points.
const CLOSING: Answer = Answer {
    number: 0,
    points: 4,
    triangles: 0,
};

fn before_closing() -> Run {
    let mut run = before_the_third_layer();
    run.change(|state| state[TAKEN] = 3);
    run
}

fn enough() -> Lengths {
    Lengths::enough([3, 3, 3])
}

/// What a call answers with some numbers of the state changed. The state is as it was afterwards.
fn changed(run: &mut Run, numbers: &[(usize, u32)], call: Call<'_>) -> Answer {
    let before = run.state().to_vec();
    run.change(|state| {
        for &(place, number) in numbers {
            state[place] = number;
        }
    });
    let answer = run.same(call, enough());
    run.put(&before);
    answer
}

/// 3 comes first, whatever else is wrong.
#[test]
fn a_state_of_another_length() {
    for (mut run, call) in [
        (before_the_third_layer(), THIRD),
        (before_closing(), Call::Close),
    ] {
        for length in OTHER_LENGTHS {
            run.refuses(call, of_state(length, enough()), 3);
            run.refuses(call, of_state(length, Lengths::none()), 3);
        }
        run.change(|state| state.fill(u32::MAX));
        for length in OTHER_LENGTHS {
            run.refuses(call, of_state(length, enough()), 3);
            run.refuses(Call::Next(&[]), of_state(length, Lengths::none()), 3);
        }
    }
}

/// 1 comes before 17 and 18, and so before 4 and 5.
#[test]
fn a_state_without_sides_or_grey_value() {
    let (mut layer, mut closing) = (before_the_third_layer(), before_closing());
    let wrong = [0, 1, 65, 66, 65_536, u32::MAX];
    let sides = (0..3).flat_map(|place| wrong.map(|side| (place, side)));
    for number in sides.chain([(GREY, 65_536), (GREY, u32::MAX)]) {
        assert_eq!(changed(&mut layer, &[number], THIRD), refused(1));
        assert_eq!(changed(&mut closing, &[number], Call::Close), refused(1));
        let all = [TAKEN, CLOSED, POINTS, TRIANGLES].map(|place| (place, u32::MAX));
        let all = [&[number], &all[..]].concat();
        assert_eq!(changed(&mut layer, &all, Call::Next(&[])), refused(1));
        assert_eq!(changed(&mut closing, &all, Call::Close), refused(1));
    }
    // Run whose product is 0 in 32 bits, and the one whose product is that of 3 and 3.
    for sides in [[65_536, 65_536], [9, 1], [1, 9]] {
        let sides = [(0, sides[0]), (1, sides[1])];
        assert_eq!(changed(&mut layer, &sides, Call::Next(&[])), refused(1));
        assert_eq!(changed(&mut layer, &sides, THIRD), refused(1));
    }
    assert_eq!(changed(&mut layer, &[(GREY, 65_535)], THIRD), refused(0));
    assert_eq!(changed(&mut layer, &[], THIRD), LAYER);
    assert_eq!(changed(&mut closing, &[], Call::Close), CLOSING);
}

/// 17 comes before 4 and 5.
#[test]
fn a_layer_of_wrong_length_or_one_too_many() {
    let mut run = before_the_third_layer();
    let most = [(POINTS, u32::MAX), (TRIANGLES, u32::MAX)];
    for totals in [&most[..], &[]] {
        for length in [0, 1, 8, 10, 18, 27] {
            let layer = vec![0; length];
            assert_eq!(changed(&mut run, totals, Call::Next(&layer)), refused(17));
        }
        let too_many = [3, 4, 65, u32::MAX].map(|taken| (TAKEN, taken));
        let closed = [1, 2, 1 << 31, u32::MAX].map(|closed| (CLOSED, closed));
        for number in too_many.into_iter().chain(closed) {
            let numbers = [totals, &[number]].concat();
            assert_eq!(changed(&mut run, &numbers, THIRD), refused(17));
        }
        assert_eq!(
            changed(&mut run, &[totals, &[(CLOSED, 0)]].concat(), THIRD),
            if totals.is_empty() { LAYER } else { refused(4) }
        );
    }
    assert_eq!(changed(&mut run, &most[1..], THIRD), refused(5));
}

/// 18 comes before 4. Where more layers were taken than there are, closing is not early.
#[test]
fn closing_early_or_a_second_time() {
    let mut run = before_closing();
    for totals in [&[(POINTS, u32::MAX)][..], &[]] {
        let early = [0, 1, 2].map(|taken| (TAKEN, taken));
        let closed = [1, 2, 1 << 31, u32::MAX].map(|closed| (CLOSED, closed));
        for number in early.into_iter().chain(closed) {
            let numbers = [totals, &[number]].concat();
            assert_eq!(changed(&mut run, &numbers, Call::Close), refused(18));
        }
    }
    assert_eq!(
        changed(&mut run, &[(POINTS, u32::MAX)], Call::Close),
        refused(4)
    );
    for taken in [3, 4, 65, u32::MAX] {
        assert_eq!(changed(&mut run, &[(TAKEN, taken)], Call::Close), CLOSING);
    }
}

/// Totals are whole numbers, which are added and never wrap. Closing hands out no triangles, and never gives 5.
#[test]
fn totals_of_any_state() {
    let (mut layer, mut closing) = (before_the_third_layer(), before_closing());
    for (points, number) in [
        (249_995, 0),
        (249_996, 4),
        (250_000, 4),
        (250_001, 4),
        (1 << 31, 4),
        (u32::MAX - 4, 4),
        (u32::MAX, 4),
    ] {
        let total = [(POINTS, points)];
        assert_eq!(changed(&mut layer, &total, THIRD).number, number);
        for triangles in [500_000, u32::MAX] {
            let both = [(POINTS, points), (TRIANGLES, triangles)];
            let expected = if number == 0 { 5 } else { 4 };
            assert_eq!(changed(&mut layer, &both, THIRD), refused(expected));
        }
    }
    for (triangles, number) in [
        (499_996, 0),
        (499_997, 5),
        (500_001, 5),
        (1 << 31, 5),
        (u32::MAX - 3, 5),
        (u32::MAX, 5),
    ] {
        let total = [(TRIANGLES, triangles)];
        assert_eq!(changed(&mut layer, &total, THIRD).number, number);
        assert_eq!(changed(&mut closing, &total, Call::Close), CLOSING);
    }
    for (points, number) in [
        (249_996, 0),
        (249_997, 4),
        (250_001, 4),
        (u32::MAX - 3, 4),
        (u32::MAX, 4),
    ] {
        let total = [(POINTS, points)];
        assert_eq!(changed(&mut closing, &total, Call::Close).number, number);
    }
    // The first layer hands out nothing, and its totals are looked at all the same.
    for (points, triangles, number) in [
        (250_000, 500_000, 0),
        (250_001, 500_000, 4),
        (250_000, 500_001, 5),
        (250_001, 500_001, 4),
        (u32::MAX, u32::MAX, 4),
        (0, u32::MAX, 5),
    ] {
        let first = [(TAKEN, 0), (POINTS, points), (TRIANGLES, triangles)];
        assert_eq!(changed(&mut layer, &first, THIRD), refused(number));
    }
}

/// A kept sample is taken by its lowest 16 bits. A layer takes the place of all of it, and a closing leaves it.
#[test]
fn kept_samples_of_more_than_16_bits() {
    let mut seed = Seed::new(35);
    for _ in 0..300 {
        let grid = grids::small(&mut seed);
        let handed_out = whole_run(&grid);
        let mut run = Run::opened(&grid);
        for (call, part) in calls(&grid).zip(handed_out) {
            run.change(|state| {
                for number in &mut state[KEPT..] {
                    *number |= (seed.next() as u32) << 16;
                }
            });
            let answer = run.same(call, Lengths::enough(grid.sides));
            assert_eq!(answer.number, 0);
            assert_eq!(owned(&run), part, "{grid:?}");
        }
        assert!(run.state()[KEPT..].iter().any(|&number| number > 65_535));
    }
}

/// Two volumes that agree on their first layers, by calls in turn and with equal rooms: as long as they agree the calls answer alike, hand out the same and leave
/// equal states.
#[test]
fn volumes_that_agree_so_far() {
    let mut seed = Seed::new(36);
    let (mut alike, mut apart) = (0, 0);
    for _ in 0..300 {
        let one = grids::small(&mut seed);
        let [nx, ny, nz] = one.sides;
        let same = seed.below(u64::from(nz) + 1) as usize;
        let first = same * (nx * ny) as usize;
        let mut other = one.clone();
        other.samples[first..].copy_from_slice(&noise(&mut seed, one.sides, 100)[first..]);

        let (mut a, mut b) = (Run::opened(&one), Run::opened(&other));
        for (done, (call, by)) in calls(&one).zip(calls(&other)).enumerate() {
            let enough = Lengths::enough(one.sides);
            let mut some = |most: usize| seed.below(most as u64 + 1) as usize;
            let short = Lengths {
                state: LAYERS_STATE,
                points: some(enough.points),
                edges: some(enough.edges),
                marks: some(enough.marks),
                triangles: some(enough.triangles),
            };
            let [one_s, other_s] = [(&mut a, call), (&mut b, by)].map(|(run, call)| {
                let answer = run.same(call, short);
                if answer.number != 0 {
                    assert_eq!(run.same(call, enough).number, 0);
                }
                (answer, owned(run), run.state().to_vec())
            });
            let equal = one_s == other_s;
            // The closing comes after all layers.
            if done < same || same == nz as usize {
                assert!(equal, "{one:?}, {same} layers, call {done}");
                alike += 1;
            } else if !equal {
                apart += 1;
            }
        }
    }
    assert!(alike > 500 && apart > 500, "{alike} {apart}");
}

/// A number that a state may have at a place of its totals: within the bound, about it, or at the end of 32 bits.
fn total(seed: &mut Seed, most: u64) -> u32 {
    let near = seed.below(30);
    match seed.below(4) {
        0 => seed.below(most) as u32,
        1 => (most - near) as u32,
        2 => (most + near) as u32,
        _ => u32::MAX - near as u32,
    }
}

/// Mostly the first number, at times one of the others, at times anything.
fn mostly(seed: &mut Seed, first: u32, others: &[u32]) -> u32 {
    match seed.below(32) {
        0 => seed.next() as u32,
        1..=3 => others[seed.below(others.len() as u64) as usize],
        _ => first,
    }
}

/// Makes up the head of a state: each number is mostly one that fits there. Run that fit are one of four from the least on.
fn made_up_head(seed: &mut Seed, state: &mut [u32], least: u32) {
    for side in &mut state[..3] {
        let fits = least + seed.below(4) as u32;
        *side = mostly(seed, fits, &[0, 1, 65, 66]);
    }
    let taken = seed.below(u64::from(state[2].min(64)) + 2) as u32;
    let grey = seed.below(65_536) as u32;
    state[GREY] = mostly(seed, grey, &[0, 1, 65_535, 65_536]);
    state[TAKEN] = mostly(seed, taken, &[0, 64, u32::MAX]);
    state[CLOSED] = mostly(seed, 0, &[1, 2, u32::MAX]);
    for (place, most) in [(POINTS, 250_000), (TRIANGLES, 500_000)] {
        let others = [total(seed, most)];
        state[place] = mostly(seed, 40, &others);
    }
}

/// Changes some numbers of a state, most of them in its head.
fn damaged(seed: &mut Seed, state: &mut [u32]) {
    for _ in 0..=seed.below(2) {
        let place = match seed.below(4) {
            0 => KEPT + seed.below(25) as usize,
            1 => seed.below(LAYERS_STATE as u64) as usize,
            _ => seed.below(KEPT as u64) as usize,
        };
        state[place] = match seed.below(4) {
            0 => seed.next() as u32,
            1 => state[place] ^ 1 << seed.below(32),
            2 => state[place].wrapping_add(1),
            _ => state[place].wrapping_sub(1),
        };
    }
}

/// Rooms of the greatest lengths, or at times some of them shorter.
fn made_up_lengths(seed: &mut Seed, most: Lengths) -> Lengths {
    let mut some = |most: usize| match seed.below(8) {
        0 => seed.below(most as u64 + 1) as usize,
        _ => most,
    };
    Lengths {
        state: LAYERS_STATE,
        points: some(most.points),
        edges: some(most.edges),
        marks: some(most.marks),
        triangles: some(most.triangles),
    }
}

/// A made-up call on the state as it is: mostly one that is due, of the right length.
fn made_up_call<'a>(seed: &mut Seed, state: &[u32], samples: &'a [u16]) -> Call<'a> {
    let due = state[TAKEN] >= state[2];
    if due != (seed.below(8) == 0) {
        return Call::Close;
    }
    let length = (state[0].min(66) * state[1].min(66)) as usize;
    let length = match seed.below(16) {
        0 => seed.below(samples.len() as u64) as usize,
        1 => length.saturating_sub(1),
        2 => length + 1,
        _ => length,
    };
    Call::Next(&samples[..length.min(samples.len())])
}

/// So many calls on states that a function changes before each of them, with rooms for layers of so many samples a side at most. The reference answers the same,
/// and every number is met often.
fn any_states(
    calls: usize,
    most: u32,
    mut seed: Seed,
    mut change: impl FnMut(&mut Seed, &mut [u32]),
) {
    let most = Lengths::enough([most; 3]);
    let samples = noise(&mut seed, [68, 68, 2], 65_536);
    let mut run = Run::new(most);
    let mut numbers = BTreeMap::new();
    for _ in 0..calls {
        run.change(|state| change(&mut seed, state));
        let call = made_up_call(&mut seed, run.state(), &samples);
        let lengths = made_up_lengths(&mut seed, most);
        let answer = run.same(call, lengths);
        *numbers.entry(answer.number).or_insert(0) += 1;
    }
    let seen: Vec<u32> = numbers.keys().copied().collect();
    assert_eq!(seen, [0, 1, 4, 5, 17, 18]);
    assert!(
        numbers.values().all(|&count| count > calls / 100),
        "{numbers:?}"
    );
}

#[test]
fn made_up_states_by_the_hundred_thousand() {
    any_states(500_000, 5, Seed::new(37), |seed, state| {
        made_up_head(seed, state, 2);
        for number in &mut state[KEPT..KEPT + 25] {
            *number = seed.next() as u32;
        }
    });
}

#[test]
fn made_up_states_of_the_largest_sides() {
    any_states(1_500, 64, Seed::new(40), |seed, state| {
        made_up_head(seed, state, 61);
        for number in &mut state[KEPT..] {
            *number = seed.next() as u32;
        }
    });
}

/// The states of some runs, after each of their calls.
fn states_of_runs(seed: &mut Seed) -> Vec<Vec<u32>> {
    let mut states = Vec::new();
    for _ in 0..40 {
        let grid = grids::small(seed);
        let mut run = Run::opened(&grid);
        states.push(run.state().to_vec());
        for call in calls(&grid) {
            run.same(call, Lengths::enough(grid.sides));
            states.push(run.state().to_vec());
        }
    }
    states
}

/// States of runs with some numbers changed, and then calls on what those leave, changed again.
#[test]
fn damaged_states_by_the_hundred_thousand() {
    let states = states_of_runs(&mut Seed::new(38));
    any_states(500_000, 6, Seed::new(39), |seed, state| {
        if seed.below(4) == 0 {
            let at = seed.below(states.len() as u64) as usize;
            state.copy_from_slice(&states[at]);
        }
        if seed.below(3) > 0 {
            damaged(seed, state);
        }
    });
}
