//! Layers as they come off the scanner: figures, runs put together, limits,
//! refusals, rooms, foreign states, and a second way to the same answers.

use crate::tools::{
    exactly_250_000_points, extracted, one_point_more, random_grid, random_grid_of, Grid, Random,
};
use reference::extract::Extracted;
use reference::layers::{close, next, open, put_together, Surface};
use std::collections::BTreeMap;

/// The length of a state: 8 + 64·64 numbers.
const STATE: usize = 4104;

/// Where the numbers of a state stand.
const GREY: usize = 3;
const TAKEN: usize = 4;
const CLOSED: usize = 5;
const POINTS: usize = 6;
const TRIANGLES: usize = 7;
const KEPT: usize = 8;

/// The bounds of the running totals.
const MOST_POINTS: u32 = 250_000;
const MOST_TRIANGLES: u32 = 500_000;

/// A call after opening.
#[derive(Clone, Copy, Debug)]
enum Call<'a> {
    Next(&'a [u16]),
    Close,
}

/// The lengths of the point, edge, mark and triangle rooms.
type Lengths = [usize; 4];

/// Rooms that hold whatever a call with these sides hands out: 3·nx·ny points
/// and 5·nx·ny triangles.
fn enough([nx, ny, _]: [u32; 3]) -> Lengths {
    let samples = (nx * ny) as usize;
    [9 * samples, 3 * samples, 3 * samples, 15 * samples]
}

/// Rooms that hold this and no more.
fn exact(surface: &Surface) -> Lengths {
    [
        surface.points.len(),
        surface.edges.len(),
        surface.marks.len(),
        surface.triangles.len(),
    ]
}

/// The state and all other rooms of a call.
#[derive(Clone, PartialEq, Debug)]
struct Rooms {
    state: Vec<u32>,
    surface: Surface,
}

impl Rooms {
    /// This state, and rooms of these lengths, full of values that no call
    /// writes.
    fn guarded(state: &[u32], [points, edges, marks, triangles]: Lengths) -> Rooms {
        let numbers = |start: u32, length: usize| (0..length as u32).map(move |i| start + i);
        Rooms {
            state: state.to_vec(),
            surface: Surface {
                points: numbers(3_000_000_000, points).collect(),
                edges: numbers(2_000_000_000, edges).collect(),
                marks: (0..marks).map(|i| 100 + (i % 100) as u8).collect(),
                triangles: numbers(1_000_000_000, triangles).collect(),
            },
        }
    }

    /// A closing answers no triangles.
    fn call(&mut self, call: Call) -> Extracted {
        let Rooms { state, surface } = self;
        let Surface {
            points,
            edges,
            marks,
            triangles,
        } = surface;
        match call {
            Call::Next(layer) => next(layer, state, points, edges, marks, triangles),
            Call::Close => {
                let (number, points) = close(state, points, edges, marks);
                Extracted {
                    number,
                    points,
                    triangles: 0,
                }
            }
        }
    }

    /// These rooms as a granted call leaves them that hands this out.
    fn after(mut self, state: Vec<u32>, handed_out: &Surface) -> Rooms {
        self.state = state;
        let Surface {
            points,
            edges,
            marks,
            triangles,
        } = &mut self.surface;
        points[..handed_out.points.len()].copy_from_slice(&handed_out.points);
        edges[..handed_out.edges.len()].copy_from_slice(&handed_out.edges);
        marks[..handed_out.marks.len()].copy_from_slice(&handed_out.marks);
        triangles[..handed_out.triangles.len()].copy_from_slice(&handed_out.triangles);
        self
    }
}

/// The answer that comes with this in front of the rooms.
fn granted(handed_out: &Surface) -> Extracted {
    Extracted {
        number: 0,
        points: handed_out.edges.len() as u32,
        triangles: handed_out.triangles.len() as u32 / 3,
    }
}

fn refused(number: u32) -> Extracted {
    Extracted {
        number,
        points: 0,
        triangles: 0,
    }
}

/// A call on this state and rooms of these lengths is refused so and leaves all
/// of them.
fn assert_refused(call: Call, state: &[u32], lengths: Lengths, number: u32) {
    let before = Rooms::guarded(state, lengths);
    let mut after = before.clone();
    assert_eq!(after.call(call), refused(number));
    assert!(after == before, "a refusal leaves all: {number}");
}

/// A call on this state is granted, hands this out, leaves this state and the
/// rest of its rooms, both with spare rooms and without.
fn assert_granted(call: Call, state: &[u32], handed_out: &Surface, state_after: &[u32]) {
    let [points, edges, marks, triangles] = exact(handed_out);
    for lengths in [
        [points, edges, marks, triangles],
        [points + 7, edges + 3, marks + 5, triangles + 4],
    ] {
        let before = Rooms::guarded(state, lengths);
        let mut after = before.clone();
        assert_eq!(after.call(call), granted(handed_out));
        assert_eq!(after.state[..KEPT], state_after[..KEPT]);
        assert!(after == before.after(state_after.to_vec(), handed_out));
    }
}

/// The state after an opening.
fn opened([nx, ny, nz]: [u32; 3], grey: u16) -> Vec<u32> {
    let mut state = vec![7; STATE];
    assert_eq!(open(nx, ny, nz, grey, &mut state), 0);
    state
}

/// The layers of a grid.
fn layers(grid: &Grid) -> impl Iterator<Item = &[u16]> {
    let [nx, ny, _] = grid.sides;
    grid.samples.chunks((nx * ny) as usize)
}

/// The calls of a whole run over a grid.
fn calls(grid: &Grid) -> impl Iterator<Item = Call<'_>> {
    layers(grid).map(Call::Next).chain([Call::Close])
}

/// What a call hands out that is granted with enough rooms. The state goes on.
fn go_on(call: Call, sides: [u32; 3], state: &mut Vec<u32>) -> Surface {
    let mut rooms = Rooms::guarded(state, enough(sides));
    let answer = rooms.call(call);
    assert_eq!(answer.number, 0);
    *state = rooms.state;
    let mut handed_out = rooms.surface;
    handed_out.points.truncate(3 * answer.points as usize);
    handed_out.edges.truncate(answer.points as usize);
    handed_out.marks.truncate(answer.points as usize);
    handed_out.triangles.truncate(3 * answer.triangles as usize);
    handed_out
}

/// What each call of a whole run hands out.
fn handed_out(grid: &Grid) -> Vec<Surface> {
    let mut state = opened(grid.sides, grid.grey);
    calls(grid)
        .map(|call| go_on(call, grid.sides, &mut state))
        .collect()
}

/// The whole extractor's mesh.
fn whole(grid: &Grid) -> Surface {
    let (mesh, edges) = extracted(grid);
    Surface {
        points: mesh.points,
        edges,
        marks: mesh.marks,
        triangles: mesh.triangles,
    }
}

/// The state of a run is a function of its sides, grey value, the layers taken
/// and the totals.
fn run_state(grid: &Grid, taken: usize, closed: u32, points: usize, triangles: usize) -> Vec<u32> {
    let [nx, ny, nz] = grid.sides;
    let grey = u32::from(grid.grey);
    let totals = [points as u32, triangles as u32];
    let mut state = vec![nx, ny, nz, grey, taken as u32, closed];
    state.extend(totals);
    if let Some(last) = layers(grid).take(taken).last() {
        state.extend(last.iter().map(|&sample| u32::from(sample)));
    }
    state.resize(STATE, 0);
    state
}

/// Document 01's "3×3×3, centre 100, else 0, grey 50".
#[test]
fn centre_figure_layer_by_layer() {
    let grid = Grid::centre();
    let run = handed_out(&grid);
    let below = Surface {
        points: vec![256, 256, 128],
        edges: vec![14],
        marks: vec![0],
        triangles: [[36, 14, 31], [39, 31, 14], [36, 40, 14], [39, 14, 40]].concat(),
    };
    let middle = Surface {
        points: [
            [256, 128, 256],
            [128, 256, 256],
            [384, 256, 256],
            [256, 384, 256],
            [256, 256, 384],
        ]
        .concat(),
        edges: vec![31, 36, 39, 40, 41],
        marks: vec![0; 5],
        triangles: [[36, 31, 41], [39, 41, 31], [36, 41, 40], [39, 40, 41]].concat(),
    };
    let nothing = Surface::default();
    assert_eq!(run, [nothing.clone(), below, middle, nothing]);

    let mesh = put_together(&run);
    assert_eq!(mesh.edges, [14, 31, 36, 39, 40, 41]);
    assert_eq!(mesh.triangles[..6], [2, 0, 1, 3, 1, 0]);
    assert_eq!(mesh, whole(&grid));
}

/// The state after each call of the same run.
#[test]
fn centre_figure_states() {
    let grid = Grid::centre();
    let mut state = opened([3, 3, 3], 50);
    let mut heads = vec![state[..KEPT].to_vec()];
    let mut kept = Vec::new();
    for call in calls(&grid) {
        go_on(call, grid.sides, &mut state);
        heads.push(state[..KEPT].to_vec());
        kept.push(state[KEPT..].to_vec());
    }
    let wanted = [
        [3, 3, 3, 50, 0, 0, 0, 0],
        [3, 3, 3, 50, 1, 0, 0, 0],
        [3, 3, 3, 50, 2, 0, 1, 4],
        [3, 3, 3, 50, 3, 0, 6, 8],
        [3, 3, 3, 50, 3, 1, 6, 8],
    ];
    assert_eq!(heads, wanted);
    let mut centre = vec![0; STATE - KEPT];
    centre[4] = 100;
    let zero = vec![0; STATE - KEPT];
    assert!(kept == [zero.clone(), centre, zero.clone(), zero]);
}

/// Document 01's worked example, and the same with the sample in the upper
/// layer: its triangle names two points that closing hands out.
#[test]
fn worked_example_layer_by_layer() {
    let nothing = Surface::default();
    let mut grid = Grid::filled([2, 2, 2], 50, 0);
    grid.set([0, 0, 0], 100);
    let corner = Surface {
        points: vec![128, 0, 0, 0, 128, 0, 0, 0, 128],
        edges: vec![0, 1, 2],
        marks: vec![1, 1, 1],
        triangles: vec![0, 1, 2],
    };
    assert_eq!(
        handed_out(&grid),
        [nothing.clone(), corner, nothing.clone()]
    );

    let mut grid = Grid::filled([2, 2, 2], 50, 0);
    grid.set([0, 0, 1], 100);
    let between = Surface {
        points: vec![0, 0, 128],
        edges: vec![2],
        marks: vec![1],
        triangles: vec![12, 2, 13],
    };
    let last = Surface {
        points: vec![128, 0, 256, 0, 128, 256],
        edges: vec![12, 13],
        marks: vec![1, 1],
        triangles: vec![],
    };
    let run = [nothing, between, last];
    assert_eq!(handed_out(&grid), run);
    assert_eq!(put_together(&run).triangles, [1, 0, 2]);
}

/// Marks are those of the whole grid: a middle layer is no outer face.
#[test]
fn marks_of_a_middle_layer() {
    let mut grid = Grid::filled([4, 4, 4], 50, 0);
    grid.set([1, 1, 0], 100);
    grid.set([2, 2, 2], 100);
    let run = handed_out(&grid);
    let edges: Vec<Vec<u32>> = run.iter().map(|part| part.edges.clone()).collect();
    let wanted: [Vec<u32>; 5] = [
        vec![],
        vec![4, 12, 15, 16, 17],
        vec![80],
        vec![115, 123, 126, 127, 128],
        vec![],
    ];
    assert_eq!(edges, wanted);
    let marks: Vec<Vec<u8>> = run.iter().map(|part| part.marks.clone()).collect();
    let wanted = [vec![], vec![1, 1, 1, 1, 0], vec![0], vec![0; 5], vec![]];
    assert_eq!(marks, wanted);
}

/// A second way to a call: the kept layer and the new one as a volume of two
/// layers by itself, its lower layer's points and all its triangles carried up.
/// Closing has the kept layer twice, so that nothing is crossed between.
///
/// Returns the state after it and what it hands out, or the refusal number.
fn second_way(
    call: Call,
    state: &[u32],
    [points, edges, marks, triangles]: Lengths,
) -> Result<(Vec<u32>, Surface), u32> {
    if state.len() != STATE {
        return Err(3);
    }
    let [nx, ny, nz] = [state[0], state[1], state[2]];
    if [nx, ny, nz].iter().any(|side| !(2..65).contains(side)) || state[GREY] >= 65_536 {
        return Err(1);
    }
    let samples = (nx * ny) as usize;
    let kept: Vec<u16> = (0..samples)
        .map(|i| (state[KEPT + i] % 65_536) as u16)
        .collect();
    let layers_taken = state[TAKEN];
    let (z, upper) = match call {
        Call::Next(layer) => {
            let takes_more = layers_taken < nz && state[CLOSED] == 0;
            if layer.len() != samples || !takes_more {
                return Err(17);
            }
            (i64::from(layers_taken) - 1, layer)
        }
        Call::Close => {
            if layers_taken < nz || state[CLOSED] != 0 {
                return Err(18);
            }
            (i64::from(nz) - 1, &kept[..])
        }
    };
    let mut surface = Surface::default();
    if z >= 0 {
        let pair = Grid {
            sides: [nx, ny, 2],
            grey: state[GREY] as u16,
            samples: [&kept[..], upper].concat(),
        };
        surface = carried_up(&pair, z as u32, nz);
    }
    if matches!(call, Call::Close) {
        surface.triangles.clear();
    }
    let (v, t) = (surface.edges.len(), surface.triangles.len() / 3);
    let mut after = state.to_vec();
    after[POINTS] = with_more(state[POINTS], v, MOST_POINTS).ok_or(4_u32)?;
    if [points / 3, edges, marks].iter().any(|&room| room < v) {
        return Err(4);
    }
    match call {
        Call::Next(layer) => {
            after[TRIANGLES] = with_more(state[TRIANGLES], t, MOST_TRIANGLES).ok_or(5_u32)?;
            if triangles / 3 < t {
                return Err(5);
            }
            after[TAKEN] += 1;
            for (i, &sample) in layer.iter().enumerate() {
                after[KEPT + i] = sample.into();
            }
        }
        Call::Close => after[CLOSED] = 1,
    }
    Ok((after, surface))
}

/// A total with so many more, if it stays within its bound.
fn with_more(so_far: u32, more: usize, most: u32) -> Option<u32> {
    let left = most.checked_sub(so_far)?;
    let left = left.checked_sub(more as u32)?;
    Some(most - left)
}

/// The lower layer's points and all triangles of a volume of two layers, which
/// stand at `z` and above it in a grid with `nz` layers.
fn carried_up(pair: &Grid, z: u32, nz: u32) -> Surface {
    let [nx, ny, _] = pair.sides;
    let edges_per_layer = 3 * nx * ny;
    let (mesh, edges) = extracted(pair);
    let mut surface = Surface::default();
    for (place, &edge) in mesh.points.chunks(3).zip(&edges) {
        if edge >= edges_per_layer {
            continue;
        }
        surface
            .points
            .extend([place[0], place[1], place[2] + 256 * z]);
        surface.edges.push(edge + z * edges_per_layer);
        let (x, y) = (edge / 3 % nx, edge / 3 / nx);
        let rims = [
            x == 0 || x == nx - 1,
            y == 0 || y == ny - 1,
            z == 0 || z == nz - 1,
        ];
        let axis = edge as usize % 3;
        let rim = rims[(axis + 1) % 3] || rims[(axis + 2) % 3];
        surface.marks.push(u8::from(rim));
    }
    for corner in mesh.triangles {
        surface
            .triangles
            .push(edges[corner as usize] + z * edges_per_layer);
    }
    surface
}

/// A call agrees with the second way in its answer, the state and every room.
/// Returns its number.
fn assert_second_way(call: Call, state: &[u32], lengths: Lengths) -> u32 {
    let before = Rooms::guarded(state, lengths);
    let mut after = before.clone();
    let answer = after.call(call);
    match second_way(call, state, lengths) {
        Ok((state_after, handed_out)) => {
            assert_eq!(answer, granted(&handed_out));
            assert!(after == before.after(state_after, &handed_out));
        }
        Err(number) => {
            assert_eq!(answer, refused(number));
            assert!(after == before);
        }
    }
    answer.number
}

/// "Put together and renumbered, it is the whole extractor's mesh": sides 2 to
/// 6 of every shape. The state is the run's after every call.
#[test]
fn runs_put_together_are_the_whole_mesh() {
    let mut random = Random::new(1);
    let (mut grids, mut points) = (0, 0);
    for shape in 0..125 {
        let sides = [shape % 5, shape / 5 % 5, shape / 25].map(|side| side + 2);
        for _ in 0..24 {
            let grid = random_grid_of(&mut random, sides);
            let nz = sides[2] as usize;
            let mut state = opened(sides, grid.grey);
            assert!(state == run_state(&grid, 0, 0, 0, 0));
            let mut run: Vec<Surface> = Vec::new();
            let (mut v, mut t) = (0, 0);
            for (done, call) in calls(&grid).enumerate() {
                assert_eq!(assert_second_way(call, &state, enough(sides)), 0);
                let part = go_on(call, sides, &mut state);
                v += part.edges.len();
                t += part.triangles.len() / 3;
                run.push(part);
                let closed = u32::from(done == nz);
                assert!(state == run_state(&grid, nz.min(done + 1), closed, v, t));
            }
            let mesh = whole(&grid);
            assert_eq!(put_together(&run), mesh);
            grids += 1;
            points += mesh.edges.len();
        }
    }
    assert_eq!(grids, 3000);
    assert!(points > 100_000);
}

/// Refused calls strewn into runs: each leaves the state and the rooms, and the
/// run goes on from there.
#[test]
fn refused_calls_strewn_into_runs() {
    let mut random = Random::new(2);
    let mut refusals = BTreeMap::new();
    let mut refuse = |call: Call, state: &[u32], lengths: Lengths, number: u32| {
        assert_refused(call, state, lengths, number);
        *refusals.entry(number).or_insert(0) += 1;
    };
    for _ in 0..300 {
        let grid = random_grid(&mut random);
        let [nx, ny, nz] = grid.sides;
        let samples = (nx * ny) as usize;
        let long = vec![1; samples + 1];
        let mut state = opened(grid.sides, grid.grey);
        let mut run = Vec::new();
        for (done, call) in calls(&grid).enumerate() {
            let spare = enough(grid.sides);
            for length in [0, samples - 1, samples + 1] {
                refuse(Call::Next(&long[..length]), &state, spare, 17);
            }
            if done < nz as usize {
                refuse(Call::Close, &state, spare, 18);
            } else {
                refuse(Call::Next(&long[..samples]), &state, spare, 17);
            }
            let (state_after, handed_out) = second_way(call, &state, spare).unwrap();
            let fits = exact(&handed_out);
            for room in 0..4 {
                if fits[room] > 0 {
                    let mut short = fits;
                    short[room] -= 1;
                    refuse(call, &state, short, if room == 3 { 5 } else { 4 });
                }
            }
            assert_granted(call, &state, &handed_out, &state_after);
            state = state_after;
            run.push(handed_out);
        }
        for _ in 0..2 {
            refuse(Call::Close, &state, enough(grid.sides), 18);
            refuse(Call::Next(&long[..samples]), &state, enough(grid.sides), 17);
        }
        assert_eq!(put_together(&run), whole(&grid));
    }
    let seen: Vec<u32> = refusals.keys().copied().collect();
    assert_eq!(seen, [4, 5, 17, 18]);
    assert!(refusals.values().all(|&count| count > 500), "{refusals:?}");
}

#[test]
fn an_opening_writes_the_whole_room() {
    let mut state: Vec<u32> = (0..STATE as u32).map(|i| 4_000_000_000 + i).collect();
    assert_eq!(open(3, 64, 2, 65_535, &mut state), 0);
    assert_eq!(state[..KEPT], [3, 64, 2, 65_535, 0, 0, 0, 0]);
    assert!(state[KEPT..].iter().all(|&number| number == 0));
}

/// An opening is refused so and leaves its room.
fn assert_not_opened([nx, ny, nz]: [u32; 3], length: usize, number: u32) {
    let before: Vec<u32> = (0..length as u32).map(|i| 4_000_000_000 + i).collect();
    let mut state = before.clone();
    assert_eq!(open(nx, ny, nz, 50, &mut state), number);
    assert!(state == before);
}

#[test]
fn an_opening_is_refused_with_1_then_3() {
    for axis in 0..3 {
        for side in [0, 1, 65, 66, 65_536, u32::MAX] {
            let mut sides = [2, 64, 3];
            sides[axis] = side;
            for length in [0, 7, 4103, 4104, 4105] {
                assert_not_opened(sides, length, 1);
            }
        }
        for side in [2, 64] {
            let mut sides = [3; 3];
            sides[axis] = side;
            assert_eq!(opened(sides, 50)[..3], sides);
        }
    }
    for length in [0, 1, 8, 4103, 4105, 8208] {
        assert_not_opened([3, 3, 3], length, 3);
    }
}

/// The state of the 3×3×3 figure after two layers. The third hands out five
/// points and four triangles.
fn before_the_third_layer() -> Vec<u32> {
    let grid = Grid::centre();
    let mut state = opened(grid.sides, grid.grey);
    for layer in layers(&grid).take(2) {
        go_on(Call::Next(layer), grid.sides, &mut state);
    }
    state
}

/// A state of the same sides that can be closed. Closing hands out four points.
fn before_closing() -> Vec<u32> {
    let mut state = before_the_third_layer();
    state[TAKEN] = 3;
    state
}

const THIRD_LAYER: [u16; 9] = [0; 9];
const FIVE_POINTS_FOUR_TRIANGLES: Lengths = [15, 5, 5, 12];
const FOUR_POINTS: Lengths = [12, 4, 4, 0];

/// The number and the counts that the third layer is answered with.
fn third_layer(state: &[u32], lengths: Lengths) -> (u32, u32, u32) {
    let answer = Rooms::guarded(state, lengths).call(Call::Next(&THIRD_LAYER));
    assert_eq!(
        assert_second_way(Call::Next(&THIRD_LAYER), state, lengths),
        answer.number
    );
    (answer.number, answer.points, answer.triangles)
}

/// The number and the count that closing is answered with.
fn closing(state: &[u32], lengths: Lengths) -> (u32, u32) {
    let answer = Rooms::guarded(state, lengths).call(Call::Close);
    assert_eq!(
        assert_second_way(Call::Close, state, lengths),
        answer.number
    );
    (answer.number, answer.points)
}

/// 3 comes first, whatever else is wrong.
#[test]
fn a_state_has_exactly_4104_numbers() {
    for length in [0, 1, 3, 7, 8, 17, 4103, 4105, 8208] {
        let mut state = before_the_third_layer();
        state.resize(length, 0);
        let damaged = vec![u32::MAX; length];
        for state in [&state, &damaged] {
            assert_refused(
                Call::Next(&THIRD_LAYER),
                state,
                FIVE_POINTS_FOUR_TRIANGLES,
                3,
            );
            assert_refused(Call::Next(&[]), state, [0; 4], 3);
            assert_refused(Call::Close, state, FOUR_POINTS, 3);
        }
    }
    let lengths = FIVE_POINTS_FOUR_TRIANGLES;
    assert_eq!(third_layer(&before_the_third_layer(), lengths), (0, 5, 4));
    assert_eq!(closing(&before_closing(), FOUR_POINTS), (0, 4));
}

/// 1 comes before 17, 18, 4 and 5.
#[test]
fn a_foreign_state_is_refused_with_1() {
    let wrongs = [
        (0, 0),
        (0, 1),
        (0, 65),
        (1, 1),
        (1, 65_536),
        (2, 0),
        (2, 65),
        (2, u32::MAX),
        (GREY, 65_536),
        (GREY, u32::MAX),
    ];
    for (place, number) in wrongs {
        let (mut layer_state, mut close_state) = (before_the_third_layer(), before_closing());
        for state in [&mut layer_state, &mut close_state] {
            state[place] = number;
        }
        let lengths = FIVE_POINTS_FOUR_TRIANGLES;
        assert_refused(Call::Next(&THIRD_LAYER), &layer_state, lengths, 1);
        assert_refused(Call::Close, &close_state, FOUR_POINTS, 1);
        for state in [&mut layer_state, &mut close_state] {
            state[TAKEN..KEPT].fill(u32::MAX);
        }
        assert_refused(Call::Next(&[]), &layer_state, [0; 4], 1);
        assert_refused(Call::Close, &close_state, [0; 4], 1);
    }
    // Sides whose product is 0 in 32 bits.
    let mut state = before_the_third_layer();
    state[..2].fill(65_536);
    assert_refused(Call::Next(&[]), &state, [0; 4], 1);

    let mut state = before_the_third_layer();
    state[GREY] = 65_535;
    assert_eq!(third_layer(&state, [0; 4]), (0, 0, 0));
}

/// 17 comes before 4 and 5.
#[test]
fn a_layer_of_wrong_length_or_one_too_many() {
    let mut spoiled = before_the_third_layer();
    spoiled[POINTS..KEPT].fill(u32::MAX);
    for state in [before_the_third_layer(), spoiled] {
        for length in [0, 1, 8, 10, 27] {
            let layer = vec![0; length];
            for lengths in [[0; 4], FIVE_POINTS_FOUR_TRIANGLES] {
                assert_refused(Call::Next(&layer), &state, lengths, 17);
            }
        }
        for (place, number) in [
            (TAKEN, 3),
            (TAKEN, 4),
            (TAKEN, u32::MAX),
            (CLOSED, 1),
            (CLOSED, 2),
            (CLOSED, u32::MAX),
        ] {
            let mut state = state.clone();
            state[place] = number;
            for lengths in [[0; 4], FIVE_POINTS_FOUR_TRIANGLES] {
                assert_refused(Call::Next(&THIRD_LAYER), &state, lengths, 17);
            }
        }
    }
}

/// 18 comes before 4.
#[test]
fn closing_early_or_a_second_time() {
    let mut spoiled = before_closing();
    spoiled[POINTS..KEPT].fill(u32::MAX);
    for state in [before_closing(), spoiled] {
        for (place, number) in [
            (TAKEN, 0),
            (TAKEN, 1),
            (TAKEN, 2),
            (CLOSED, 1),
            (CLOSED, 2),
            (CLOSED, u32::MAX),
        ] {
            let mut state = state.clone();
            state[place] = number;
            for lengths in [[0; 4], FOUR_POINTS] {
                assert_refused(Call::Close, &state, lengths, 18);
            }
        }
    }
    // More layers taken than there are: closing is not early.
    for layers_taken in [3, 4, u32::MAX] {
        let mut state = before_closing();
        state[TAKEN] = layers_taken;
        let mut after = state.clone();
        after[CLOSED] = 1;
        after[POINTS] = 5;
        let last = Surface {
            points: [
                [256, 128, 512],
                [128, 256, 512],
                [384, 256, 512],
                [256, 384, 512],
            ]
            .concat(),
            edges: vec![58, 63, 66, 67],
            marks: vec![1; 4],
            triangles: vec![],
        };
        assert_granted(Call::Close, &state, &last, &after);
    }
}

/// "A room for points or triangles counts its whole threes." 4 comes before 5.
#[test]
fn rooms_of_one_call() {
    let state = before_the_third_layer();
    for lengths in [[15, 5, 5, 12], [17, 6, 7, 14], [16, 5, 5, 13]] {
        assert_eq!(third_layer(&state, lengths), (0, 5, 4));
    }
    for [points, edges, marks] in [[14, 5, 5], [12, 5, 5], [0, 5, 5], [15, 4, 5], [15, 5, 4]] {
        for triangles in [0, 11, 12] {
            let lengths = [points, edges, marks, triangles];
            assert_refused(Call::Next(&THIRD_LAYER), &state, lengths, 4);
        }
    }
    for triangles in [0, 9, 11] {
        assert_refused(Call::Next(&THIRD_LAYER), &state, [15, 5, 5, triangles], 5);
    }

    let state = before_closing();
    assert_eq!(closing(&state, [12, 4, 4, 0]), (0, 4));
    assert_eq!(closing(&state, [14, 5, 6, 0]), (0, 4));
    for [points, edges, marks] in [[11, 4, 4], [0, 4, 4], [12, 3, 4], [12, 4, 3]] {
        assert_refused(Call::Close, &state, [points, edges, marks, 12], 4);
    }
}

/// "Limits on points and triangles hold for the running totals." They are added
/// as whole numbers and never wrap.
#[test]
fn running_totals_of_a_foreign_state() {
    let with = |mut state: Vec<u32>, points: u32, triangles: u32| {
        state[POINTS] = points;
        state[TRIANGLES] = triangles;
        state
    };
    let lengths = FIVE_POINTS_FOUR_TRIANGLES;

    let state = with(before_the_third_layer(), 249_995, 499_996);
    assert_eq!(third_layer(&state, lengths), (0, 5, 4));
    let mut rooms = Rooms::guarded(&state, lengths);
    rooms.call(Call::Next(&THIRD_LAYER));
    assert_eq!(rooms.state[TAKEN..KEPT], [3, 0, 250_000, 500_000]);
    for points in [
        249_996,
        250_000,
        250_001,
        u32::MAX - 5,
        u32::MAX - 4,
        u32::MAX,
    ] {
        for triangles in [4, 499_997, u32::MAX] {
            let state = with(before_the_third_layer(), points, triangles);
            assert_refused(Call::Next(&THIRD_LAYER), &state, lengths, 4);
        }
    }
    for triangles in [
        499_997,
        500_000,
        500_001,
        u32::MAX - 4,
        u32::MAX - 3,
        u32::MAX,
    ] {
        let state = with(before_the_third_layer(), 249_995, triangles);
        assert_refused(Call::Next(&THIRD_LAYER), &state, lengths, 5);
    }

    // The first layer hands out nothing, and the totals count all the same.
    let first = |points, triangles| with(opened([3, 3, 3], 50), points, triangles);
    let state = first(250_000, 500_000);
    let mut after = state.clone();
    after[TAKEN] = 1;
    assert_granted(
        Call::Next(&THIRD_LAYER),
        &state,
        &Surface::default(),
        &after,
    );
    assert_refused(
        Call::Next(&THIRD_LAYER),
        &first(250_001, 500_001),
        lengths,
        4,
    );
    assert_refused(Call::Next(&THIRD_LAYER), &first(u32::MAX, 0), lengths, 4);
    assert_refused(
        Call::Next(&THIRD_LAYER),
        &first(250_000, 500_001),
        lengths,
        5,
    );
    assert_refused(Call::Next(&THIRD_LAYER), &first(0, u32::MAX), lengths, 5);

    // Closing never gives 5, and leaves the triangles so far.
    for triangles in [8, 500_001, u32::MAX] {
        let state = with(before_closing(), 249_996, triangles);
        assert_eq!(closing(&state, FOUR_POINTS), (0, 4));
        let mut rooms = Rooms::guarded(&state, FOUR_POINTS);
        rooms.call(Call::Close);
        assert_eq!(rooms.state[TAKEN..KEPT], [3, 1, 250_000, triangles]);
        for points in [249_997, 250_001, u32::MAX - 3, u32::MAX] {
            let state = with(before_closing(), points, triangles);
            assert_refused(Call::Close, &state, FOUR_POINTS, 4);
        }
    }
}

/// A kept sample is read by its lowest 16 bits. A granted layer writes over
/// nx·ny of them and leaves the rest of the state's room; a closing leaves all.
#[test]
fn kept_samples_of_a_foreign_state() {
    let plain = before_the_third_layer();
    let mut state = plain.clone();
    for (i, number) in state[KEPT..].iter_mut().enumerate() {
        *number += 65_536 * (1 + i as u32);
    }
    let layer = [9, 8, 7, 6, 5, 4, 3, 2, 1];
    let mut rooms = Rooms::guarded(&plain, FIVE_POINTS_FOUR_TRIANGLES);
    rooms.call(Call::Next(&layer));
    let handed_out = rooms.surface;
    assert_eq!(handed_out.edges, [31, 36, 39, 40, 41]);
    let mut after = state.clone();
    after[TAKEN..KEPT].copy_from_slice(&[3, 0, 6, 8]);
    after[KEPT..KEPT + 9].copy_from_slice(&[9, 8, 7, 6, 5, 4, 3, 2, 1]);
    assert_granted(Call::Next(&layer), &state, &handed_out, &after);

    state[TAKEN] = 3;
    let mut closed = state.clone();
    closed[CLOSED] = 1;
    closed[POINTS] = 5;
    let mut rooms = Rooms::guarded(&state, FOUR_POINTS);
    assert_eq!(rooms.call(Call::Close).points, 4);
    assert_eq!(rooms.surface.edges, [58, 63, 66, 67]);
    assert!(rooms.state == closed);
}

/// A number that a damaged state may hold at `place`.
fn damage(random: &mut Random, place: usize) -> u32 {
    let near = |random: &mut Random, middle: u32| middle - 20 + random.below(40);
    match (random.below(8), place) {
        (0, _) => u32::MAX - random.below(3),
        (1, _) => random.below(u32::MAX),
        (2, _) => 63 + random.below(4),
        (3, _) => near(random, 65_536),
        (4, _) | (5, POINTS) => near(random, MOST_POINTS),
        (5 | 6, TRIANGLES) => near(random, MOST_TRIANGLES),
        _ => random.below(6),
    }
}

/// "with any other state no call goes wrong": damaged states agree with the
/// second way.
#[test]
fn damaged_states_agree_with_the_second_way() {
    let mut random = Random::new(3);
    let mut seen = BTreeMap::new();
    for _ in 0..20_000 {
        let sides = [0; 3].map(|_| 2 + random.below(4));
        let grid = random_grid_of(&mut random, sides);
        let mut state = opened(sides, grid.grey);
        state[TAKEN] = random.below(sides[2] + 2);
        let samples = (sides[0] * sides[1]) as usize;
        for (number, &sample) in state[KEPT..].iter_mut().zip(&grid.samples[samples..]) {
            *number = 65_536 * random.below(3) + u32::from(sample);
        }
        for _ in 0..random.below(3) {
            let place = random.below(KEPT as u32) as usize;
            state[place] = damage(&mut random, place);
        }
        let mut lengths = enough(sides);
        if random.below(4) == 0 {
            let room = random.below(4) as usize;
            lengths[room] = random.below(lengths[room] as u32) as usize;
        }
        let mut length = samples;
        if random.below(8) == 0 {
            length = random.below(40) as usize;
        }
        let mut layer = grid.samples[..samples].to_vec();
        layer.resize(length, 0);
        if random.below(50) == 0 {
            state.resize(random.below(5000) as usize, 0);
        }
        for call in [Call::Next(&layer), Call::Close] {
            let number = assert_second_way(call, &state, lengths);
            let closing = matches!(call, Call::Close);
            *seen.entry((closing, number)).or_insert(0) += 1;
        }
    }
    let kinds: Vec<(bool, u32)> = seen.keys().copied().collect();
    let layer_numbers = [0, 1, 3, 4, 5, 17].map(|number| (false, number));
    let closing_numbers = [0, 1, 3, 4, 18].map(|number| (true, number));
    assert_eq!(kinds, [&layer_numbers[..], &closing_numbers[..]].concat());
    assert!(seen.values().all(|&count| count > 100), "{seen:?}");
}

/// Random numbers in the whole room.
#[test]
fn random_states_agree_with_the_second_way() {
    let mut random = Random::new(4);
    let mut seen = BTreeMap::new();
    for _ in 0..2000 {
        let state: Vec<u32> = (0..STATE).map(|_| random.below(u32::MAX)).collect();
        let mut likely = state.clone();
        for (place, bound) in [(0, 66), (1, 66), (2, 66), (GREY, 70_000), (TAKEN, 66)] {
            likely[place] %= bound;
        }
        for (place, bound) in [(CLOSED, 2), (POINTS, 250_000), (TRIANGLES, 500_000)] {
            likely[place] %= bound;
        }
        let layer: Vec<u16> = (0..4356).map(|_| random.below(65_536) as u16).collect();
        for state in [&state, &likely] {
            let samples = (state[0].min(66) * state[1].min(66)) as usize;
            let lengths = enough([64, 64, 2]);
            for call in [Call::Next(&layer[..samples]), Call::Close] {
                let number = assert_second_way(call, state, lengths);
                *seen.entry(number).or_insert(0) += 1;
            }
        }
    }
    assert!(seen[&0] > 500 && seen[&1] > 4000, "{seen:?}");
}

/// Closing hands out the last three of 250,000 points, and not the last four of
/// 250,001.
#[test]
fn exactly_250_000_points_are_handed_out() {
    let before_closing = |grid: &Grid| {
        let mut state = opened(grid.sides, grid.grey);
        for layer in layers(grid) {
            go_on(Call::Next(layer), grid.sides, &mut state);
        }
        assert_eq!(state[TAKEN..TRIANGLES], [64, 0, 249_997]);
        state
    };
    let grid = exactly_250_000_points();
    let mut state = before_closing(&grid);
    assert_eq!(go_on(Call::Close, grid.sides, &mut state).edges.len(), 3);
    assert_eq!(state[TAKEN..TRIANGLES], [64, 1, 250_000]);

    let grid = one_point_more();
    let state = before_closing(&grid);
    assert_refused(Call::Close, &state, enough(grid.sides), 4);
}

/// Each layer of a checkerboard of side 64 gives 12,160 points, and 15,876
/// triangles with the next.
#[test]
fn points_pass_250_000_in_the_middle_of_a_run() {
    let grid = Grid::checkerboard();
    let sides = grid.sides;
    let mut state = opened(sides, grid.grey);
    let mut all = layers(&grid);
    for layer in all.by_ref().take(21) {
        go_on(Call::Next(layer), sides, &mut state);
    }
    assert_eq!(state[TAKEN..KEPT], [21, 0, 20 * 12_160, 20 * 15_876]);
    let refused_layer = Call::Next(all.next().unwrap());
    assert_refused(refused_layer, &state, enough(sides), 4);
    assert_refused(refused_layer, &state, [0; 4], 4);
}

/// The layers of a run that go in before 5 are those whose grid has 500,000
/// triangles at most.
#[test]
fn triangles_pass_500_000_in_the_middle_of_a_run() {
    let mut random = Random::new(5);
    let mut grid = Grid::filled([64, 64, 64], 500, 1000);
    for sample in &mut grid.samples {
        if random.below(100) < 30 {
            *sample = 0;
        }
    }
    let sides = grid.sides;
    let mut state = opened(sides, grid.grey);
    let mut refused_at = None;
    for (z, layer) in layers(&grid).enumerate() {
        let number = assert_second_way(Call::Next(layer), &state, enough(sides));
        if number != 0 {
            assert_eq!(number, 5);
            refused_at = Some(z);
            break;
        }
        go_on(Call::Next(layer), sides, &mut state);
    }
    let layers_taken = refused_at.unwrap();
    assert!((30..60).contains(&layers_taken));

    let mut below = grid.clone();
    below.sides[2] = layers_taken as u32;
    below.samples.truncate(64 * 64 * layers_taken);
    let so_far = whole(&below).triangles.len() / 3;
    assert_eq!(state[TRIANGLES] as usize, so_far);
    // The same layer with totals of zero.
    state[POINTS..KEPT].fill(0);
    let refused_layer = Call::Next(layers(&grid).nth(layers_taken).unwrap());
    let more = go_on(refused_layer, sides, &mut state).triangles.len() / 3;
    assert!(so_far <= 500_000 && so_far + more > 500_000);
}

/// A run over a grid of side 64, put together.
#[test]
fn a_run_of_side_64() {
    let mut random = Random::new(6);
    let mut grid = Grid::filled([64, 64, 64], 500, 1000);
    for sample in &mut grid.samples {
        if random.below(100) < 10 {
            *sample = random.below(1000) as u16;
        }
    }
    let mesh = put_together(&handed_out(&grid));
    assert!(mesh.edges.len() > 50_000);
    assert!(mesh == whole(&grid));
}

/// A grey value of 0 and one above all samples give empty meshes, which are
/// granted without rooms.
#[test]
fn empty_meshes_need_no_rooms() {
    for (grey, sample) in [(0, 0), (0, 9), (65_535, 65_534)] {
        let grid = Grid::filled([3, 2, 4], grey, sample);
        let mut state = opened(grid.sides, grey);
        for call in calls(&grid) {
            let mut rooms = Rooms::guarded(&state, [0; 4]);
            assert_eq!(rooms.call(call), refused(0));
            state = rooms.state;
        }
        assert_eq!(state[TAKEN..KEPT], [4, 1, 0, 0]);
    }
}
