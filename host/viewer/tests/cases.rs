//! The 256 cases of the proved library against the reference, which computes them from document 01's face rule and request (ii)'s start of a fan.

/// The triangles of a case as the library answers them.
fn triangles(case: u8) -> Vec<[u8; 3]> {
    (0..u32::from(viewer::case_count(case)))
        .map(|triangle| [0, 1, 2].map(|corner| viewer::case_edge(case, 3 * triangle + corner)))
        .collect()
}

#[test]
fn every_case_has_the_reference_count() {
    for case in 0..=255 {
        assert_eq!(
            viewer::case_count(case),
            reference::cube::count(case),
            "case {case}"
        );
    }
}

#[test]
fn every_case_has_the_reference_edges_at_every_place() {
    for case in 0..=255 {
        let expected: Vec<u8> = reference::cube::answer(case).concat();
        let found: Vec<u8> = (0..15)
            .map(|place| viewer::case_edge(case, place))
            .collect();
        assert_eq!(found, expected, "case {case}");
    }
}

#[test]
fn case_246_has_no_flat_triangle() {
    assert_eq!(
        triangles(246),
        [[8, 4, 1], [8, 1, 11], [8, 11, 5], [8, 5, 0]]
    );
}

/// Against document 01's fans, by the reference: no case has another count, and just these have other triangles.
#[test]
fn eighteen_cases_are_not_those_of_document_01() {
    let mut differing = Vec::new();
    for case in 0..=255 {
        let old = reference::cube::triangles_of_document_01(case);
        let new = triangles(case);
        assert_eq!(new.len(), old.len(), "case {case}");
        if new != old {
            differing.push(case);
        }
    }
    assert_eq!(
        differing,
        [91, 94, 111, 118, 123, 159, 167, 173, 183, 185, 217, 218, 222, 229, 230, 237, 246, 249]
    );
}

#[test]
fn a_place_beyond_the_last_gives_zero() {
    for case in 0..=255 {
        for place in [15, 16, 255, 256, 15 * 256, 65_536, u32::MAX] {
            assert_eq!(
                viewer::case_edge(case, place),
                0,
                "case {case}, place {place}"
            );
        }
    }
}
