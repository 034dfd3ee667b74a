//! One call of the reader on both sides: rooms full of guard values and what is around them, the same answer, and the same content of every place.

use crate::tools::{held, plain, Lengths, Rooms};
use viewer::{Counted, Read, Shell, Surface, MOST_POINTS};

/// The lengths of the six rooms of a call.
#[derive(Clone, Copy, PartialEq, Eq, Debug)]
pub struct Lent {
    pub rooms: Lengths,
    pub records: usize,
}

impl Lent {
    /// Room for so many points, triangles and shells, and no more.
    pub fn exact([points, triangles, shells]: [usize; 3]) -> Lent {
        Lent {
            rooms: Lengths {
                points: 3 * points,
                edges: points,
                marks: points,
                triangles: 3 * triangles,
                work: 6 * points + 3 * triangles,
            },
            records: shells,
        }
    }

    pub fn of(surface: &Surface, records: &[Shell]) -> Lent {
        let (points, triangles) = (surface.marks.len(), surface.triangles.len() / 3);
        Lent::exact([points, triangles, records.len()])
    }

    fn with(mut self, change: impl FnOnce(&mut Lent)) -> Lent {
        change(&mut self);
        self
    }

    /// Result rooms with some to spare, each another number.
    pub fn long(self) -> Lent {
        self.with(|lent| {
            lent.rooms.points += 7;
            lent.rooms.edges += 3;
            lent.rooms.marks += 5;
            lent.rooms.triangles += 4;
            lent.records += 2;
        })
    }

    /// These exact rooms with one of them too short, or a work room that is one off, and the refusal of each. No room of length 0 is too short.
    pub fn one_off(self) -> Vec<(u32, Lent)> {
        let mut all = vec![(3, self.with(|lent| lent.rooms.work += 1))];
        if self.rooms.work > 0 {
            all.push((3, self.with(|lent| lent.rooms.work -= 1)));
        }
        if self.records > 0 {
            all.push((11, self.with(|lent| lent.records -= 1)));
        }
        for less in 1..=3 {
            if self.rooms.triangles > 0 {
                all.push((5, self.with(|lent| lent.rooms.triangles -= less)));
            }
            if self.rooms.points > 0 {
                all.push((4, self.with(|lent| lent.rooms.points -= less)));
            }
        }
        if self.rooms.edges > 0 {
            all.push((4, self.with(|lent| lent.rooms.edges -= 1)));
            all.push((4, self.with(|lent| lent.rooms.marks -= 1)));
        }
        all
    }
}

/// Places before and behind each lent room, which no call may write.
const AROUND: usize = 3;

/// The six rooms of a call with what is around them.
#[derive(Clone, PartialEq)]
pub struct Held {
    rooms: Rooms,
    records: Vec<Shell>,
}

/// What is lent of a room.
fn inner<T>(room: &mut [T]) -> &mut [T] {
    let end = room.len() - AROUND;
    &mut room[AROUND..end]
}

/// A record as the library has it.
fn record(shell: &reference::shells::Shell) -> Shell {
    let ([least_x, least_y, least_z], [greatest_x, greatest_y, greatest_z]) =
        (shell.least, shell.greatest);
    Shell {
        low: shell.low,
        points: shell.points,
        triangles: shell.triangles,
        touches: shell.touches,
        volume: shell.volume,
        least_x,
        greatest_x,
        least_y,
        greatest_y,
        least_z,
        greatest_z,
    }
}

impl Held {
    /// Rooms full of guard values, a different one at each place.
    pub fn guarded(lent: Lent) -> Held {
        let Lengths {
            points,
            edges,
            marks,
            triangles,
            work,
        } = lent.rooms;
        Held {
            rooms: Rooms::guarded(Lengths {
                points: points + 2 * AROUND,
                edges: edges + 2 * AROUND,
                marks: marks + 2 * AROUND,
                triangles: triangles + 2 * AROUND,
                work: work + 2 * AROUND,
            }),
            records: held(lent.records + 2 * AROUND),
        }
    }

    /// The library's call.
    fn read(&mut self, text: &[u8]) -> Read {
        let rooms = viewer::Rooms {
            points: inner(&mut self.rooms.points),
            edges: inner(&mut self.rooms.edges),
            marks: inner(&mut self.rooms.marks),
            triangles: inner(&mut self.rooms.triangles),
            work: inner(&mut self.rooms.work),
        };
        viewer::read(text, rooms, inner(&mut self.records))
    }

    /// The reference's call.
    fn read_plainly(&mut self, text: &[u8]) -> Read {
        let mut records: Vec<_> = inner(&mut self.records).iter().map(plain).collect();
        let found = reference::read::read_mesh(
            text,
            inner(&mut self.rooms.points),
            inner(&mut self.rooms.edges),
            inner(&mut self.rooms.marks),
            inner(&mut self.rooms.triangles),
            &mut records,
            inner(&mut self.rooms.work),
        );
        for (place, shell) in inner(&mut self.records).iter_mut().zip(&records) {
            *place = record(shell);
        }
        Read {
            number: found.number,
            line: found.line as u64,
            points: found.points,
            triangles: found.triangles,
            shells: found.shells,
        }
    }

    /// The same rooms with the work room zero.
    fn cleared(mut self) -> Held {
        inner(&mut self.rooms.work).fill(0);
        self
    }

    /// These rooms with a mesh in front and the work room zero.
    pub fn filled(self, surface: &Surface, records: &[Shell]) -> Held {
        fn put<T: Copy>(room: &mut [T], list: &[T]) {
            inner(room)[..list.len()].copy_from_slice(list);
        }
        let mut held = self.cleared();
        put(&mut held.rooms.points, &surface.points);
        put(&mut held.rooms.edges, &surface.edges);
        put(&mut held.rooms.marks, &surface.marks);
        put(&mut held.rooms.triangles, &surface.triangles);
        put(&mut held.records, records);
        held
    }
}

/// The front of a text, to be shown.
fn shown(text: &[u8]) -> String {
    text[..text.len().min(400)].escape_ascii().to_string()
}

/// What line 1 says, on both sides.
fn same_counts(text: &[u8]) -> Counted {
    let counts = reference::read::read_counts(text);
    let [points, triangles, shells] = counts.map_or([0; 3], |counts| {
        [counts.points, counts.triangles, counts.shells]
    });
    let expected = Counted {
        number: if counts.is_some() { 0 } else { 15 },
        points,
        triangles,
        shells,
    };
    assert_eq!(viewer::read_counts(text), expected, "{}", shown(text));
    expected
}

/// One call on both sides, on equal rooms of these lengths: the same answer, and the same content of every place. A refusal gives no counts, leaves the
/// result rooms, and the work room as it was up to 3 and zero after it. What line 1 says is asked for too.
pub fn same_in(text: &[u8], lent: Lent) -> (Read, Held) {
    same_counts(text);
    let before = Held::guarded(lent);
    let (mut proved, mut expected) = (before.clone(), before.clone());
    let found = proved.read(text);
    assert_eq!(found, expected.read_plainly(text), "{}", shown(text));
    assert!(proved == expected, "the rooms, {}", shown(text));
    let Read { number, line, .. } = found;
    assert_eq!(number == 15, line > 0);
    if number > 0 {
        assert_eq!([found.points, found.triangles, found.shells], [0; 3]);
        let early = line == 1 || [4, 5, 11, 3].contains(&number);
        assert!(proved == if early { before } else { before.cleared() });
    }
    (found, proved)
}

/// What the owned call answers, as the reference has it. It lends no more records than a mesh can have points.
fn owned(text: &[u8]) -> Result<(Surface, Vec<Shell>), (u32, u64)> {
    let counted = same_counts(text);
    let mesh = match reference::read::read_text(text) {
        Err((number, _)) if number != 4 && number != 5 && counted.shells as usize > MOST_POINTS => {
            return Err((11, 0))
        }
        Err((number, line)) => return Err((number, line as u64)),
        Ok(mesh) => mesh,
    };
    let surface = Surface {
        points: mesh.points,
        edges: mesh.edges,
        marks: mesh.marks,
        triangles: mesh.triangles,
    };
    Ok((surface, mesh.records.iter().map(record).collect()))
}

/// The owned call on both sides. What is granted is written as the same bytes.
pub fn same_owned(text: &[u8]) {
    let found = Surface::read(text).map_err(|(refusal, line)| (refusal.number(), line));
    assert!(found == owned(text), "owned, {}", shown(text));
    if let Ok((surface, records)) = found {
        assert!(surface.write(&records).unwrap() == text, "{}", shown(text));
    }
}
