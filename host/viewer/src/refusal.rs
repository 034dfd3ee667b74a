//! The numbers that refuse.

/// One list of names, numbers and words, from which the enum is made.
macro_rules! refusals {
    ($($name:ident = $number:literal, $words:literal;)*) => {
        /// A refusal, with its number and words: document 01's up to 14, and in the words of 3 and 6 what the writer of a text refuses; from 15 on they are
        /// document 02's.
        #[derive(Clone, Copy, PartialEq, Eq, Debug)]
        #[repr(u32)]
        pub enum Refusal {
            $(#[doc = $words] $name = $number,)*
        }

        impl Refusal {
            /// All of them, by rising number.
            pub const ALL: &'static [Refusal] = &[$(Refusal::$name),*];

            /// Its words.
            pub fn words(self) -> &'static str {
                match self {
                    $(Refusal::$name => $words,)*
                }
            }
        }
    };
}

refusals! {
    Sides = 1, "a side is below 2 or above 64";
    Samples = 2, "samples are not nx·ny·nz";
    Room = 3, "a work or result room of fixed length has another length, or a text is longer than its room";
    Points = 4, "points exceed 250,000 or the least of the point, edge and mark rooms";
    Triangles = 5, "triangles exceed 500,000 or their room";
    Lengths = 6, "mesh lengths don't fit (points not 3V, edge numbers not V, triangles not in threes) or exceed the bounds";
    Corners = 7, "a triangle names a point at or above V, or one point twice";
    Coordinate = 8, "a coordinate is over 16,128";
    Mark = 9, "a mark is over 1";
    Settings = 10, "rounds or weight too large";
    Records = 11, "more shells than records lent";
    Line = 12, "text line malformed";
    SmallGrid = 13, "the program gets more than 512 samples";
    Point = 14, "a point asked for is not below V";
    MeshLine = 15, "a line of a mesh's text is malformed or missing, bytes follow the last line, or an edge number doesn't rise";
    Shells = 16, "the S lines or the shell count of a mesh's text differ from the mesh's own";
    Layer = 17, "a layer is not nx·ny samples long, or is one too many";
    Closing = 18, "a run of layers is closed early, or a second time";
    Summary = 19, "a lent summary isn't that of the samples: its length or a number in it differs";
}

impl Refusal {
    /// Its number.
    pub fn number(self) -> u32 {
        self as u32
    }

    /// The number that a call answers, as a result: 0 is granted.
    ///
    /// # Panics
    ///
    /// If the number is over 19, which no call answers.
    pub fn check(number: u32) -> Result<(), Refusal> {
        match number {
            0 => Ok(()),
            number => Err(Refusal::ALL[number as usize - 1]),
        }
    }
}

impl std::fmt::Display for Refusal {
    fn fmt(&self, f: &mut std::fmt::Formatter<'_>) -> std::fmt::Result {
        write!(f, "refused with number {}: {}", self.number(), self.words())
    }
}

impl std::error::Error for Refusal {}

#[cfg(test)]
mod tests {
    use super::Refusal;

    #[test]
    fn each_number_gives_its_refusal() {
        assert_eq!(Refusal::check(0), Ok(()));
        for number in 1..=19 {
            let refusal = Refusal::check(number).unwrap_err();
            assert_eq!(refusal.number(), number);
        }
        assert_eq!(Refusal::ALL.len(), 19);
    }
}
