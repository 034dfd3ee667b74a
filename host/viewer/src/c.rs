//! The C declarations of crate `viewer`, and the only unsafe code. Nothing checks a declaration against its Rattle source, so each is held to
//! it by the tests that compare the two sides.

use crate::Shell;

mod declared {
    use crate::Shell;

    unsafe extern "C" {
        pub fn tholbrina_case_count(case: u8) -> u8;
        pub fn tholbrina_case_edge(case: u8, place: u32) -> u8;
        pub fn tholbrina_extract(
            nx: u32,
            ny: u32,
            nz: u32,
            grey: u16,
            samples: *const u16,
            samples_len: usize,
            points: *mut u32,
            points_len: usize,
            edges: *mut u32,
            edges_len: usize,
            marks: *mut u8,
            marks_len: usize,
            triangles: *mut u32,
            triangles_len: usize,
            work: *mut u32,
            work_len: usize,
            point_count: *mut u32,
            triangle_count: *mut u32,
        ) -> u32;
        pub fn tholbrina_layers_open(
            nx: u32,
            ny: u32,
            nz: u32,
            grey: u16,
            state: *mut u32,
            state_len: usize,
        ) -> u32;
        pub fn tholbrina_layers_next(
            layer: *const u16,
            layer_len: usize,
            state: *mut u32,
            state_len: usize,
            points: *mut u32,
            points_len: usize,
            edges: *mut u32,
            edges_len: usize,
            marks: *mut u8,
            marks_len: usize,
            triangles: *mut u32,
            triangles_len: usize,
            point_count: *mut u32,
            triangle_count: *mut u32,
        ) -> u32;
        pub fn tholbrina_layers_close(
            state: *mut u32,
            state_len: usize,
            points: *mut u32,
            points_len: usize,
            edges: *mut u32,
            edges_len: usize,
            marks: *mut u8,
            marks_len: usize,
            point_count: *mut u32,
        ) -> u32;
        pub fn tholbrina_summary(
            nx: u32,
            ny: u32,
            nz: u32,
            samples: *const u16,
            samples_len: usize,
            summary: *mut u16,
            summary_len: usize,
        ) -> u32;
        pub fn tholbrina_query(
            nx: u32,
            ny: u32,
            nz: u32,
            grey: u16,
            samples: *const u16,
            samples_len: usize,
            summary: *const u16,
            summary_len: usize,
            points: *mut u32,
            points_len: usize,
            edges: *mut u32,
            edges_len: usize,
            marks: *mut u8,
            marks_len: usize,
            triangles: *mut u32,
            triangles_len: usize,
            work: *mut u32,
            work_len: usize,
            point_count: *mut u32,
            triangle_count: *mut u32,
            block_count: *mut u32,
        ) -> u32;
        pub fn tholbrina_smooth(
            points: *const u32,
            points_len: usize,
            triangles: *const u32,
            triangles_len: usize,
            marks: *const u8,
            marks_len: usize,
            rounds: u32,
            weight: u32,
            smoothed: *mut u32,
            smoothed_len: usize,
            work: *mut u32,
            work_len: usize,
        ) -> u32;
        pub fn tholbrina_show(
            raw: *const u32,
            raw_len: usize,
            smoothed: *const u32,
            smoothed_len: usize,
            second: u32,
            point: u32,
            x: *mut u32,
            y: *mut u32,
            z: *mut u32,
        ) -> u32;
        pub fn tholbrina_shells(
            points: *const u32,
            points_len: usize,
            triangles: *const u32,
            triangles_len: usize,
            marks: *const u8,
            marks_len: usize,
            numbers: *mut u32,
            numbers_len: usize,
            records: *mut Shell,
            records_len: usize,
            work: *mut u32,
            work_len: usize,
            shell_count: *mut u32,
        ) -> u32;
        pub fn tholbrina_write(
            points: *const u32,
            points_len: usize,
            edges: *const u32,
            edges_len: usize,
            marks: *const u8,
            marks_len: usize,
            triangles: *const u32,
            triangles_len: usize,
            records: *const Shell,
            records_len: usize,
            text: *mut u8,
            text_len: usize,
            length: *mut usize,
        ) -> u32;
        pub fn tholbrina_read_counts(
            text: *const u8,
            text_len: usize,
            points: *mut u32,
            triangles: *mut u32,
            shells: *mut u32,
        ) -> u32;
        pub fn tholbrina_read(
            text: *const u8,
            text_len: usize,
            points: *mut u32,
            points_len: usize,
            edges: *mut u32,
            edges_len: usize,
            marks: *mut u8,
            marks_len: usize,
            triangles: *mut u32,
            triangles_len: usize,
            records: *mut Shell,
            records_len: usize,
            work: *mut u32,
            work_len: usize,
            line: *mut u64,
            point_count: *mut u32,
            triangle_count: *mut u32,
            shell_count: *mut u32,
        ) -> u32;
        pub fn tholbrina_curvature(
            points: *const u32,
            points_len: usize,
            triangles: *const u32,
            triangles_len: usize,
            marks: *const u8,
            marks_len: usize,
            areas: *mut f64,
            areas_len: usize,
            vectors: *mut f64,
            vectors_len: usize,
        ) -> u32;
        pub fn tholbrina_answer(
            marks: *const u8,
            marks_len: usize,
            areas: *const f64,
            areas_len: usize,
            vectors: *const f64,
            vectors_len: usize,
            point: u32,
            kind: *mut u32,
            area: *mut f64,
            x: *mut f64,
            y: *mut f64,
            z: *mut f64,
        ) -> u32;
    }
}

pub fn case_count(case: u8) -> u8 {
    // SAFETY: the function takes and returns a number by value and has no requirement.
    unsafe { declared::tholbrina_case_count(case) }
}

pub fn case_edge(case: u8, place: u32) -> u8 {
    // SAFETY: the function takes and returns numbers by value and has no requirement.
    unsafe { declared::tholbrina_case_edge(case, place) }
}

#[allow(clippy::too_many_arguments)]
pub fn extract(
    [nx, ny, nz]: [u32; 3],
    grey: u16,
    samples: &[u16],
    points: &mut [u32],
    edges: &mut [u32],
    marks: &mut [u8],
    triangles: &mut [u32],
    work: &mut [u32],
    point_count: &mut u32,
    triangle_count: &mut u32,
) -> u32 {
    // SAFETY: each slice is lent for the call with its own length, the mutable ones are all different, and the function has no requirement.
    unsafe {
        declared::tholbrina_extract(
            nx,
            ny,
            nz,
            grey,
            samples.as_ptr(),
            samples.len(),
            points.as_mut_ptr(),
            points.len(),
            edges.as_mut_ptr(),
            edges.len(),
            marks.as_mut_ptr(),
            marks.len(),
            triangles.as_mut_ptr(),
            triangles.len(),
            work.as_mut_ptr(),
            work.len(),
            point_count,
            triangle_count,
        )
    }
}

pub fn layers_open([nx, ny, nz]: [u32; 3], grey: u16, state: &mut [u32]) -> u32 {
    // SAFETY: the slice is lent for the call with its own length, and the function has no requirement.
    unsafe { declared::tholbrina_layers_open(nx, ny, nz, grey, state.as_mut_ptr(), state.len()) }
}

pub fn layers_next(
    layer: &[u16],
    state: &mut [u32],
    points: &mut [u32],
    edges: &mut [u32],
    marks: &mut [u8],
    triangles: &mut [u32],
    [point_count, triangle_count]: &mut [u32; 2],
) -> u32 {
    // SAFETY: each slice is lent for the call with its own length, the mutable ones and the two numbers are all different places, and the function has no
    // requirement.
    unsafe {
        declared::tholbrina_layers_next(
            layer.as_ptr(),
            layer.len(),
            state.as_mut_ptr(),
            state.len(),
            points.as_mut_ptr(),
            points.len(),
            edges.as_mut_ptr(),
            edges.len(),
            marks.as_mut_ptr(),
            marks.len(),
            triangles.as_mut_ptr(),
            triangles.len(),
            point_count,
            triangle_count,
        )
    }
}

pub fn layers_close(
    state: &mut [u32],
    points: &mut [u32],
    edges: &mut [u32],
    marks: &mut [u8],
    point_count: &mut u32,
) -> u32 {
    // SAFETY: each slice is lent for the call with its own length, all of them and the number are different places, and the function has no requirement.
    unsafe {
        declared::tholbrina_layers_close(
            state.as_mut_ptr(),
            state.len(),
            points.as_mut_ptr(),
            points.len(),
            edges.as_mut_ptr(),
            edges.len(),
            marks.as_mut_ptr(),
            marks.len(),
            point_count,
        )
    }
}

pub fn summary([nx, ny, nz]: [u32; 3], samples: &[u16], summary: &mut [u16]) -> u32 {
    // SAFETY: each slice is lent for the call with its own length, and the function has no requirement.
    unsafe {
        declared::tholbrina_summary(
            nx,
            ny,
            nz,
            samples.as_ptr(),
            samples.len(),
            summary.as_mut_ptr(),
            summary.len(),
        )
    }
}

#[allow(clippy::too_many_arguments)]
pub fn query(
    [nx, ny, nz]: [u32; 3],
    grey: u16,
    samples: &[u16],
    summary: &[u16],
    points: &mut [u32],
    edges: &mut [u32],
    marks: &mut [u8],
    triangles: &mut [u32],
    work: &mut [u32],
    [point_count, triangle_count, block_count]: &mut [u32; 3],
) -> u32 {
    // SAFETY: each slice is lent for the call with its own length, the mutable ones and the three numbers are all different places, and the function has no
    // requirement.
    unsafe {
        declared::tholbrina_query(
            nx,
            ny,
            nz,
            grey,
            samples.as_ptr(),
            samples.len(),
            summary.as_ptr(),
            summary.len(),
            points.as_mut_ptr(),
            points.len(),
            edges.as_mut_ptr(),
            edges.len(),
            marks.as_mut_ptr(),
            marks.len(),
            triangles.as_mut_ptr(),
            triangles.len(),
            work.as_mut_ptr(),
            work.len(),
            point_count,
            triangle_count,
            block_count,
        )
    }
}

pub fn smooth(
    points: &[u32],
    triangles: &[u32],
    marks: &[u8],
    rounds: u32,
    weight: u32,
    smoothed: &mut [u32],
    work: &mut [u32],
) -> u32 {
    // SAFETY: each slice is lent for the call with its own length, the two mutable ones are different, and the function has no requirement.
    unsafe {
        declared::tholbrina_smooth(
            points.as_ptr(),
            points.len(),
            triangles.as_ptr(),
            triangles.len(),
            marks.as_ptr(),
            marks.len(),
            rounds,
            weight,
            smoothed.as_mut_ptr(),
            smoothed.len(),
            work.as_mut_ptr(),
            work.len(),
        )
    }
}

pub fn show(
    raw: &[u32],
    smoothed: &[u32],
    second: u32,
    point: u32,
    [x, y, z]: &mut [u32; 3],
) -> u32 {
    // SAFETY: each slice is lent for the call with its own length, the three numbers are different places, and the function has no requirement.
    unsafe {
        declared::tholbrina_show(
            raw.as_ptr(),
            raw.len(),
            smoothed.as_ptr(),
            smoothed.len(),
            second,
            point,
            x,
            y,
            z,
        )
    }
}

#[allow(clippy::too_many_arguments)]
pub fn shells(
    points: &[u32],
    triangles: &[u32],
    marks: &[u8],
    numbers: &mut [u32],
    records: &mut [Shell],
    work: &mut [u32],
    shell_count: &mut u32,
) -> u32 {
    // SAFETY: each slice is lent for the call with its own length, the mutable ones are all different, a record is laid out as in C, and the
    // function has no requirement.
    unsafe {
        declared::tholbrina_shells(
            points.as_ptr(),
            points.len(),
            triangles.as_ptr(),
            triangles.len(),
            marks.as_ptr(),
            marks.len(),
            numbers.as_mut_ptr(),
            numbers.len(),
            records.as_mut_ptr(),
            records.len(),
            work.as_mut_ptr(),
            work.len(),
            shell_count,
        )
    }
}

pub fn write(
    points: &[u32],
    edges: &[u32],
    marks: &[u8],
    triangles: &[u32],
    records: &[Shell],
    text: &mut [u8],
    length: &mut usize,
) -> u32 {
    // SAFETY: each slice is lent for the call with its own length, the text and its length are different places, a record is laid out as in C, and the
    // function has no requirement.
    unsafe {
        declared::tholbrina_write(
            points.as_ptr(),
            points.len(),
            edges.as_ptr(),
            edges.len(),
            marks.as_ptr(),
            marks.len(),
            triangles.as_ptr(),
            triangles.len(),
            records.as_ptr(),
            records.len(),
            text.as_mut_ptr(),
            text.len(),
            length,
        )
    }
}

pub fn read_counts(text: &[u8], [points, triangles, shells]: &mut [u32; 3]) -> u32 {
    // SAFETY: the slice is lent for the call with its own length, the three numbers are different places, and the function has no requirement.
    unsafe { declared::tholbrina_read_counts(text.as_ptr(), text.len(), points, triangles, shells) }
}

#[allow(clippy::too_many_arguments)]
pub fn read(
    text: &[u8],
    points: &mut [u32],
    edges: &mut [u32],
    marks: &mut [u8],
    triangles: &mut [u32],
    records: &mut [Shell],
    work: &mut [u32],
    line: &mut u64,
    [point_count, triangle_count, shell_count]: &mut [u32; 3],
) -> u32 {
    // SAFETY: each slice is lent for the call with its own length, the mutable ones and the four numbers are all different places, a record is laid out
    // as in C, and the function has no requirement.
    unsafe {
        declared::tholbrina_read(
            text.as_ptr(),
            text.len(),
            points.as_mut_ptr(),
            points.len(),
            edges.as_mut_ptr(),
            edges.len(),
            marks.as_mut_ptr(),
            marks.len(),
            triangles.as_mut_ptr(),
            triangles.len(),
            records.as_mut_ptr(),
            records.len(),
            work.as_mut_ptr(),
            work.len(),
            line,
            point_count,
            triangle_count,
            shell_count,
        )
    }
}

pub fn curvature(
    points: &[u32],
    triangles: &[u32],
    marks: &[u8],
    areas: &mut [f64],
    vectors: &mut [f64],
) -> u32 {
    // SAFETY: each slice is lent for the call with its own length, the two mutable ones are different, and the function has no requirement.
    unsafe {
        declared::tholbrina_curvature(
            points.as_ptr(),
            points.len(),
            triangles.as_ptr(),
            triangles.len(),
            marks.as_ptr(),
            marks.len(),
            areas.as_mut_ptr(),
            areas.len(),
            vectors.as_mut_ptr(),
            vectors.len(),
        )
    }
}

pub fn answer(
    marks: &[u8],
    areas: &[f64],
    vectors: &[f64],
    point: u32,
    kind: &mut u32,
    [area, x, y, z]: &mut [f64; 4],
) -> u32 {
    // SAFETY: each slice is lent for the call with its own length, the five numbers are different places, and the function has no requirement.
    unsafe {
        declared::tholbrina_answer(
            marks.as_ptr(),
            marks.len(),
            areas.as_ptr(),
            areas.len(),
            vectors.as_ptr(),
            vectors.len(),
            point,
            kind,
            area,
            x,
            y,
            z,
        )
    }
}
