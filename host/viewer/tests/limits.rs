//! The bounds of document 01's "Numbers and sizes" stand in the C header, in the wrapper, in the reference, in Rattle's constants and in the definitions: they are the same in all five.
//! What is computed from them stands in the definitions, and where code needs it in Rattle's constants too, with the same value.

use std::collections::BTreeMap;

use viewer::Refusal;

type Bounds = BTreeMap<String, u64>;

fn file(path: &str) -> String {
    let path = format!("{}/../../{path}", env!("CARGO_MANIFEST_DIR"));
    std::fs::read_to_string(&path).unwrap_or_else(|error| panic!("{path}: {error}"))
}

/// `mostSide` and `MOST_SIDE` as `most_side`.
fn plain(name: &str) -> String {
    if name.contains('_') || name.chars().all(char::is_uppercase) {
        return name.to_lowercase();
    }
    name.chars()
        .flat_map(|c| {
            c.is_uppercase()
                .then_some('_')
                .into_iter()
                .chain(c.to_lowercase())
        })
        .collect()
}

/// The value of a sum of names and numbers with `*`, `/`, `-` and brackets, and what follows it.
fn value<'a>(words: &'a [String], known: &Bounds) -> (u64, &'a [String]) {
    let (mut total, mut rest) = product(words, known);
    while rest.first().is_some_and(|word| word == "-") {
        let (next, after) = product(&rest[1..], known);
        (total, rest) = (total - next, after);
    }
    (total, rest)
}

fn product<'a>(words: &'a [String], known: &Bounds) -> (u64, &'a [String]) {
    let (mut total, mut rest) = factor(words, known);
    while let Some(word) = rest
        .first()
        .filter(|word| ["*", "/"].contains(&word.as_str()))
    {
        let (next, after) = factor(&rest[1..], known);
        total = if word == "*" {
            total * next
        } else {
            total / next
        };
        rest = after;
    }
    (total, rest)
}

fn factor<'a>(words: &'a [String], known: &Bounds) -> (u64, &'a [String]) {
    let word = words.first().expect("a number, a name or a bracket");
    if word == "(" {
        let (inner, rest) = value(&words[1..], known);
        assert_eq!(rest[0], ")");
        return (inner, &rest[1..]);
    }
    let number = word.replace('_', "").parse().ok();
    let number = number.or_else(|| known.get(&plain(word)).copied());
    (
        number.unwrap_or_else(|| panic!("{word} is no number and no bound")),
        &words[1..],
    )
}

/// The bounds of lines that a reader takes apart into a name and an expression.
fn bounds(text: &str, line: impl Fn(&str) -> Option<(&str, &str)>) -> Bounds {
    let mut found = Bounds::new();
    for (name, expression) in text.lines().filter_map(line) {
        let spaced = expression.replace('(', " ( ").replace(')', " ) ");
        let words: Vec<String> = spaced.split_whitespace().map(str::to_string).collect();
        let (number, rest) = value(&words, &found);
        assert!(rest.is_empty(), "{name}: {rest:?} is left over");
        let before = found.insert(plain(name), number);
        assert_eq!(before, None, "{name} stands twice");
    }
    found
}

/// `pub const NAME: TYPE = EXPRESSION;`, in Rust and in Rattle.
fn constant(line: &str) -> Option<(&str, &str)> {
    let (name, rest) = line.strip_prefix("pub const ")?.split_once(": ")?;
    let expression = rest.split_once(" = ")?.1.strip_suffix(';')?;
    Some((name, expression.trim_end_matches(" as usize")))
}

fn header(line: &str) -> Option<(&str, &str)> {
    let (name, number) = line.trim().strip_prefix("tholbrina_")?.split_once(" = ")?;
    (name.starts_with("least_") || name.starts_with("most_"))
        .then(|| (name, number.trim_end_matches(',')))
}

fn definition(line: &str) -> Option<(&str, &str)> {
    line.split_once(" = ")
}

/// Those of the bounds that have a name among others.
fn among(bounds: &Bounds, others: &Bounds) -> Bounds {
    let mut kept = bounds.clone();
    kept.retain(|name, _| others.contains_key(name));
    kept
}

/// The last of rising numbers that is granted; the first is, and some later one is not.
fn last(first: u64, granted: impl Fn(u64) -> bool) -> u64 {
    assert!(granted(first));
    (first..100_000)
        .find(|&n| !granted(n + 1))
        .expect("a bound")
}

/// The bounds of the reference, which names three of them and has the others in what it grants.
fn reference() -> Bounds {
    let side = |side: u64| {
        let samples = vec![0; 4 * side as usize];
        let (mut none, mut marks, mut work) = ([[0; 0]; 3], [0; 0], vec![0; 3 * samples.len()]);
        let [points, edges, triangles] = &mut none;
        let found = reference::extract::extract(
            side as u32,
            2,
            2,
            1,
            &samples,
            points,
            edges,
            &mut marks,
            triangles,
            &mut work,
        );
        found.number != 1
    };
    let settings = |rounds: u64, weight: u64| {
        let (rounds, weight) = (rounds as u32, weight as u32);
        reference::smooth::smooth(&[], &[], &[], rounds, weight, &mut [], &mut [0]) == 0
    };
    let small = |[x, y, z]: [u64; 3]| {
        let text = format!("G\t{x}\t{y}\t{z}\t0\t0\t0\n");
        reference::text::run(text.as_bytes()) != b"R\t13\t0\n"
    };
    let number = |n: u64| {
        let text = format!("G\t2\t2\t2\t{n}\t0\t0\n");
        reference::text::run(text.as_bytes()) != b"R\t12\t1\n"
    };
    let sizes = (2..16).flat_map(|x| (2..16).flat_map(move |y| (2..64).map(move |z| [x, y, z])));
    let most_small = sizes
        .filter(|&sides| small(sides))
        .map(|[x, y, z]| x * y * z)
        .max();
    let least_side = (0..100).find(|&n| side(n));
    use reference::mesh::{MOST_COORDINATE, MOST_POINTS, MOST_TRIANGLES};
    [
        ("least_side", least_side.expect("a side is granted")),
        ("most_side", last(2, side)),
        ("most_number", last(0, number)),
        ("most_points", MOST_POINTS as u64),
        ("most_triangles", MOST_TRIANGLES as u64),
        ("most_coordinate", u64::from(MOST_COORDINATE)),
        ("most_rounds", last(0, |rounds| settings(rounds, 0))),
        ("most_weight", last(0, |weight| settings(0, weight))),
        ("most_small", most_small.expect("a small grid is granted")),
        ("unit", u64::from(reference::grid::offset(0, 1, 1))),
    ]
    .map(|(name, number)| (name.to_string(), number))
    .into()
}

#[test]
fn the_same_in_every_place() {
    let definitions = bounds(&file("crates/grid/specs/Limits.antt"), definition);
    let code = bounds(&file("crates/grid/src/limits.rt"), constant);
    let shared = among(&definitions, &code);
    assert_eq!(code, shared, "Rattle's constants and the definitions");
    let document = reference();
    let defined = among(&definitions, &document);
    assert_eq!(document, defined, "the reference and the definitions");
    let coded = among(&code, &document);
    assert_eq!(document, coded, "the reference and Rattle's constants");

    // The words of a refusal have the bounds in them.
    for (refusal, bound) in [
        (Refusal::Sides, "least_side"),
        (Refusal::Sides, "most_side"),
        (Refusal::Points, "most_points"),
        (Refusal::Triangles, "most_triangles"),
        (Refusal::Coordinate, "most_coordinate"),
        (Refusal::SmallGrid, "most_small"),
    ] {
        let words = refusal.words().replace(',', "");
        let number = definitions[bound].to_string();
        assert!(
            words.split(' ').any(|word| word == number),
            "{bound}: {words}"
        );
    }

    // The bounds of the small program's text and the units of a voxel are no bounds of a call.
    let mut calls = document;
    for other in ["most_number", "most_small", "unit"] {
        assert!(calls.remove(other).is_some(), "{other}");
    }
    let header = bounds(&file("include/tholbrina.h"), header);
    assert_eq!(header, calls, "the C header and the definitions");
    let mut wrapper = bounds(&file("host/viewer/src/lent.rs"), constant);
    // The lengths of two rooms are no bounds. A state of layers has eight numbers and a layer of the largest sides; a summary has two numbers a block, and the
    // blocks are halved from the largest side down to single cubes.
    let most_side = calls["most_side"];
    let blocks: u64 = (0..=most_side.ilog2()).map(|level| 8u64.pow(level)).sum();
    let (state, summary) = (reference::layers::STATE, reference::summary::SUMMARY);
    for (name, length, document) in [
        ("layers_state", 8 + most_side.pow(2), state),
        ("summary_length", 2 * blocks, summary),
    ] {
        assert_eq!(wrapper.remove(name), Some(length), "{name}");
        assert_eq!(document as u64, length, "{name}");
        let said = format!("enum {{ tholbrina_{name} = {length} }};");
        let header = file("include/tholbrina.h");
        assert!(header.lines().any(|line| line == said), "{name}");
    }
    assert_eq!(wrapper, calls, "the wrapper and the definitions");
}
