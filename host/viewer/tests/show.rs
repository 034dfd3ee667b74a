//! One point shown, against the reference: the number, and what the three numbers hold after.

const HELD: [u32; 3] = [0xa5a5_0001, 0x5a5a_0003, 0xdead_0005];

/// Both sides asked the same; answers what both say.
fn same(raw: &[u32], smoothed: &[u32], second: u32, point: u32) -> (u32, [u32; 3]) {
    let mut place = HELD;
    let number = viewer::show(raw, smoothed, second, point, &mut place);
    let mut expected = 99;
    let part = reference::smooth::show(raw, smoothed, second != 0, point, &mut expected);
    assert_eq!(number, expected);
    assert_eq!(place.as_slice(), if part.is_empty() { &HELD } else { part });
    (number, place)
}

fn list(start: u32, length: usize) -> Vec<u32> {
    (0..length as u32).map(|i| start + 7 * i).collect()
}

#[test]
fn every_point_of_either_list() {
    let (raw, smoothed) = (list(1, 30), list(1000, 30));
    for point in 0..10 {
        let first = 1 + 21 * point;
        assert_eq!(
            same(&raw, &smoothed, 0, point),
            (0, [first, first + 7, first + 14])
        );
        for second in [1, 2, 255, 256, u32::MAX] {
            let first = 1000 + 21 * point;
            assert_eq!(
                same(&raw, &smoothed, second, point),
                (0, [first, first + 7, first + 14])
            );
        }
    }
}

#[test]
fn six_before_fourteen_and_both_leave_the_place() {
    for raw in 0..=7 {
        for smoothed in 0..=7 {
            for point in [0, 1, 2, 3, 0x5555_5555, 0x5555_5556, u32::MAX] {
                for second in [0, 1] {
                    let (number, place) = same(&list(1, raw), &list(1000, smoothed), second, point);
                    let fits = raw == smoothed && raw % 3 == 0;
                    let expected = match (fits, (point as usize) < raw / 3) {
                        (false, _) => 6,
                        (true, false) => 14,
                        (true, true) => 0,
                    };
                    assert_eq!(number, expected);
                    assert_eq!(place == HELD, number != 0);
                }
            }
        }
    }
}
