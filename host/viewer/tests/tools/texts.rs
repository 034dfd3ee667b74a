//! The text of a mesh, changed: what no first line, line or field may be, lines that are lost, and bytes, lines and numbers spoiled.
#![allow(dead_code)]

/// A text whose tabs are written as spaces.
pub fn tabbed(text: &str) -> String {
    text.replace(' ', "\t")
}

/// The text with this line, counted from 1, replaced.
pub fn with_line(text: &str, line: usize, by: &str) -> String {
    let mut lines: Vec<&str> = text.lines().collect();
    lines[line - 1] = by;
    lines.join("\n") + "\n"
}

/// The fields of a line, counted from 1; field 0 is the letter.
pub fn line_of(text: &str, line: usize) -> Vec<&str> {
    text.lines().nth(line - 1).unwrap().split('\t').collect()
}

/// The text with this field of a line replaced.
pub fn with_field(text: &str, line: usize, field: usize, by: &str) -> String {
    let mut fields = line_of(text, line);
    fields[field] = by;
    with_line(text, line, &fields.join("\t"))
}

/// Every field after the letter, as line and field, from line 2 on.
pub fn number_fields(text: &str) -> Vec<(usize, usize)> {
    (2..=text.lines().count())
        .flat_map(|line| (1..line_of(text, line).len()).map(move |field| (line, field)))
        .collect()
}

/// Field 5 of an S line is the volume.
pub fn is_volume(text: &str, (line, field): (usize, usize)) -> bool {
    line_of(text, line)[0] == "S" && field == 5
}

/// First lines that are bad, parted by `|`; tabs are written as spaces, and an LF follows each.
const BAD_HEADS: &str = "| M 3 1 1|M|M 3 1|M 3 1 1 |M 3 1 1 0|m 3 1 1|MM 3 1 1|V 3 1 1|3 1 1|\
    M  3 1 1|M 3  1|M 3 1 |M  1 1|M 03 1 1|M 3 00 1|M 3 1 01|M +3 1 1|M 3 -1 1|\
    M 3 1 -0|M 3 1 1\r|M 3 1 1\0|\u{feff}M 3 1 1|M 3 1 \u{0661}|M 0x3 1 1|M 3 1 1.0|\
    M 4294967296 1 1|M 3 4294967296 1|M 3 1 4294967296|M 3 1 18446744073709551617|\
    M 3 1\u{b}1|\nM 3 1 1";

/// Texts whose first line is bad, alone and before the other lines of a text; one that has no line, one whose only line has no LF, and one with spaces for
/// its tabs.
pub fn bad_heads(text: &str) -> Vec<String> {
    let (head, rest) = text.split_once('\n').unwrap();
    let mut texts = vec![String::new(), head.to_string(), text.replace('\t', " ")];
    for head in tabbed(BAD_HEADS).split('|') {
        texts.push(format!("{head}\n"));
        texts.push(format!("{head}\n{rest}"));
    }
    texts
}

/// What no field may be; a volume may be -1 and more than 2^32.
fn bad_numbers(kept: &str, volume: bool) -> Vec<String> {
    let mut forms: Vec<String> = "+1 00 01 -0 --1 - + a 1.0 1e3 0x1 \u{0661} 18446744073709551616 \
        99999999999999999999999999"
        .split(' ')
        .map(String::from)
        .collect();
    forms.extend(["", "- 1", "-\t1"].map(String::from));
    forms.extend(
        [" ", "\r", "\0", "\t", "0", "+", "\u{b}", ","].map(|byte| format!("{byte}{kept}")),
    );
    forms.extend([" ", "\r", "\0", "\t", "."].map(|byte| format!("{kept}{byte}")));
    if !volume {
        forms.extend(["-1", "4294967296", "4294967297"].map(String::from));
    }
    forms
}

/// The text with a field that is no number, and the line that is bad for it. An LF after a field leaves an empty line if the field is its line's last.
pub fn bad_fields(text: &str) -> Vec<(String, usize)> {
    let mut texts = Vec::new();
    for at @ (line, field) in number_fields(text) {
        let kept = line_of(text, line)[field];
        for form in bad_numbers(kept, is_volume(text, at)) {
            texts.push((with_field(text, line, field, &form), line));
        }
        let ended = with_field(text, line, field, &format!("{kept}\n"));
        let last = field + 1 == line_of(text, line).len();
        texts.push((ended, line + usize::from(last)));
    }
    texts
}

/// What is left of a line that has another letter, or fields too few or too many, or bytes that do not belong there.
fn bad_forms(kept: &[&str]) -> Vec<String> {
    let whole = kept.join("\t");
    let letters = [
        "M", "V", "T", "S", "R", "G", "", "v", "t", "s", "VV", " ", "0",
    ];
    let mut forms: Vec<String> = (letters.iter().filter(|&&letter| letter != kept[0]))
        .map(|letter| [&[*letter], &kept[1..]].concat().join("\t"))
        .collect();
    forms.extend([
        String::new(),
        kept[0].to_string(),
        kept[1..].join("\t"),
        kept[..kept.len() - 1].join("\t"),
        format!("\t{whole}"),
        format!("\u{feff}{whole}"),
        whole.replacen('\t', "\t\t", 1),
        whole.replacen('\t', " ", 1),
        whole.replacen('\t', "", 1),
    ]);
    forms.extend(["\t0", "\t", "\r", "\0", " "].map(|tail| whole.clone() + tail));
    forms
}

/// The text with a line from line 2 on that is bad as a whole, and its number.
pub fn bad_lines(text: &str) -> Vec<(String, usize)> {
    let spoiled = |line: usize| {
        let forms = bad_forms(&line_of(text, line)).into_iter();
        forms.map(move |form| (with_line(text, line, &form), line))
    };
    (2..=text.lines().count()).flat_map(spoiled).collect()
}

/// The text that stops before a line, before its LF or one byte sooner; and the text with bytes after its last line. With each the number of the line that
/// is bad.
pub fn lost_lines(text: &str) -> Vec<(String, usize)> {
    let lines: Vec<&str> = text.split_inclusive('\n').collect();
    let mut texts = Vec::new();
    for count in 1..lines.len() {
        texts.push((lines[..count].concat(), count + 1));
        let whole = lines[..=count].concat();
        for cut in [1, 2] {
            texts.push((whole[..whole.len() - cut].to_string(), count + 1));
        }
    }
    let [first, last] = [lines[0], lines[lines.len() - 1]];
    for tail in ["\n", last, first, "0", "\t", "\0", " \n", "\r", "S"] {
        texts.push((format!("{text}{tail}"), lines.len() + 1));
    }
    texts
}

/// Volumes that are well formed.
pub const GOOD_VOLUMES: &str = "4195092529152000000 -4195092529152000000 4195092529151999999 \
    -4195092529151999999 4294967296 -4294967296 1 -1 10 -10";

/// Volumes that are bad form.
pub const BAD_VOLUMES: &str = "4195092529152000001 -4195092529152000001 9223372036854775807 \
    -9223372036854775808 9223372036854775808 -9223372036854775809 18446744073709551615 \
    18446744073709551616 -18446744073709551617 41950925291520000000 -0 +0 +1 -00 -01 00 01 - --1 \
    -+1 1-";

/// One spoiling of a text by numbers made up below a bound: a byte changed, dropped, doubled or cut at; two lines swapped; a number one off, in line 1 or in
/// any line.
pub fn spoil(below: &mut dyn FnMut(u32) -> u32, text: &mut Vec<u8>) {
    let at = below(text.len() as u32) as usize;
    match below(8) {
        0 => text[at] = b"0123456789\t\n -+MVTS\r\0\xff"[below(22) as usize],
        1 => drop(text.remove(at)),
        2 => text.insert(at, text[at]),
        3 if below(4) == 0 => text.truncate(at),
        4 => swap_lines(below, text),
        5 => one_off(below, text, 1),
        _ => {
            let lines = text.iter().filter(|&&byte| byte == b'\n').count() as u32;
            let line = 1 + below(lines.max(1)) as usize;
            one_off(below, text, line);
        }
    }
}

fn swap_lines(below: &mut dyn FnMut(u32) -> u32, text: &mut Vec<u8>) {
    let mut lines: Vec<&[u8]> = text.split_inclusive(|&byte| byte == b'\n').collect();
    let first = below(lines.len() as u32) as usize;
    let second = match below(2) {
        0 => (first + 1) % lines.len(),
        _ => below(lines.len() as u32) as usize,
    };
    lines.swap(first, second);
    *text = lines.concat();
}

/// One number of a line one more or one less, where there is one.
fn one_off(below: &mut dyn FnMut(u32) -> u32, text: &mut Vec<u8>, line: usize) {
    let Ok(whole) = std::str::from_utf8(text) else {
        return;
    };
    let Some(fields) = whole.lines().nth(line - 1).map(|l| l.split('\t').count()) else {
        return;
    };
    let field = below(fields as u32) as usize;
    let by = i128::from(below(2)) * 2 - 1;
    if let Ok(number) = line_of(whole, line)[field].parse::<i128>() {
        *text = with_field(whole, line, field, &(number + by).to_string()).into_bytes();
    }
}
