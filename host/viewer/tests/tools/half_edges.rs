//! The half edges of a mesh, as a meshing program builds them: one for each side of each triangle, with its twin, which runs back.

/// The half edges of a mesh. Number 3t + i leaves corner i of triangle t for its next corner.
pub struct HalfEdges {
    sides: Vec<(u32, u32)>,
    twins: Vec<Option<usize>>,
}

/// Why a mesh has no half edges: more than one side runs from the first point to the second.
#[derive(Clone, Copy, PartialEq, Eq, Debug)]
pub struct Twice(pub (u32, u32));

impl HalfEdges {
    /// The half edges of triangles of three point numbers each.
    pub fn of(triangles: &[u32]) -> Result<HalfEdges, Twice> {
        let sides: Vec<(u32, u32)> = triangles
            .chunks_exact(3)
            .flat_map(|t| [(t[0], t[1]), (t[1], t[2]), (t[2], t[0])])
            .collect();
        let mut sorted: Vec<((u32, u32), usize)> = sides.iter().copied().zip(0..).collect();
        sorted.sort_unstable();
        for pair in sorted.windows(2) {
            if pair[0].0 == pair[1].0 {
                return Err(Twice(pair[0].0));
            }
        }
        let twin = |&(from, to): &(u32, u32)| {
            let at = sorted.binary_search_by_key(&(to, from), |&(side, _)| side);
            at.ok().map(|at| sorted[at].1)
        };
        let twins = sides.iter().map(twin).collect();
        Ok(HalfEdges { sides, twins })
    }

    /// The points that each half edge runs from and to, with the number of its twin.
    pub fn all(&self) -> impl Iterator<Item = ((u32, u32), Option<usize>)> + '_ {
        self.sides.iter().copied().zip(self.twins.iter().copied())
    }

    /// The next half edge round the point that a half edge leaves: the twin of the one that comes to that point in the same triangle.
    fn next_round(&self, half_edge: usize) -> Option<usize> {
        self.twins[half_edge - half_edge % 3 + (half_edge + 2) % 3]
    }

    /// How many turns about each of so many points the half edges make that leave it: 1 where all follow one another.
    pub fn turns(&self, points: usize) -> Vec<usize> {
        let mut turns = vec![0; points];
        let mut met = vec![false; self.sides.len()];
        // a turn that does not close begins with the half edge that has no twin
        let lone = (0..self.sides.len()).filter(|&half_edge| self.twins[half_edge].is_none());
        for first in lone.chain(0..self.sides.len()) {
            if !met[first] {
                turns[self.sides[first].0 as usize] += 1;
            }
            let mut next = Some(first);
            while let Some(half_edge) = next.filter(|&half_edge| !met[half_edge]) {
                met[half_edge] = true;
                next = self.next_round(half_edge);
            }
        }
        turns
    }

    /// The points of each half edge without a twin.
    pub fn lone(&self) -> impl Iterator<Item = (u32, u32)> + '_ {
        self.all()
            .filter(|(_, twin)| twin.is_none())
            .map(|(side, _)| side)
    }
}
