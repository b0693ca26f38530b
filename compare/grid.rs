//! A grid of numbers with three indices, and de Casteljau's rule along each of them.

/// What de Casteljau's rule needs of its numbers.
pub trait Mean: Clone {
    fn mean(&self, other: &Self) -> Self;
}

/// Rows of numbers have means too, so one rule halves along every index.
impl<T: Mean> Mean for Vec<T> {
    fn mean(&self, other: &Self) -> Self {
        self.iter().zip(other).map(|(a, b)| a.mean(b)).collect()
    }
}

#[derive(Clone)]
pub struct Grid<T>(Vec<Vec<Vec<T>>>);

impl<T> Grid<T> {
    /// One number for each index up to the degrees.
    pub fn new(degrees: [u32; 3], number: impl Fn([u32; 3]) -> T) -> Grid<T> {
        let row = |i, j| (0..=degrees[2]).map(|k| number([i, j, k])).collect();
        let plane = |i| (0..=degrees[1]).map(|j| row(i, j)).collect();
        Grid((0..=degrees[0]).map(plane).collect())
    }

    pub fn numbers(&self) -> impl Iterator<Item = &T> {
        self.0.iter().flatten().flatten()
    }

    pub fn get(&self, [i, j, k]: [u32; 3]) -> &T {
        &self.0[i as usize][j as usize][k as usize]
    }
}

impl<T: Mean> Grid<T> {
    /// Halves every row along an index, counted from 0.
    pub fn half(&self, index: usize, upper: bool) -> Grid<T> {
        match index {
            0 => Grid(half_row(&self.0, upper)),
            1 => Grid(self.0.iter().map(|plane| half_row(plane, upper)).collect()),
            _ => {
                let halve_plane =
                    |plane: &Vec<Vec<T>>| plane.iter().map(|row| half_row(row, upper)).collect();
                Grid(self.0.iter().map(halve_plane).collect())
            }
        }
    }
}

/// The first numbers of the rounds in their order, or the last ones in reverse order.
fn half_row<T: Mean>(row: &[T], upper: bool) -> Vec<T> {
    let mut kept = Vec::with_capacity(row.len());
    let mut round = row.to_vec();
    while let (Some(first), Some(last)) = (round.first(), round.last()) {
        kept.push(if upper { last.clone() } else { first.clone() });
        round = round
            .windows(2)
            .map(|pair| pair[0].mean(&pair[1]))
            .collect();
    }
    if upper {
        kept.reverse();
    }
    kept
}
