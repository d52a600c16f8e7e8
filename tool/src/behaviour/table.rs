//! A table of cells, one for each combination of its axes that is possible, and which of them were seen.

/// One axis: how its values are called.
pub type Axis = Vec<String>;

/// An axis of names.
pub fn names(names: &[&str]) -> Axis {
    names.iter().map(|name| name.to_string()).collect()
}

/// An axis of numbers from 0 on, with a word before each.
pub fn numbers(word: &str, count: usize) -> Axis {
    (0..count).map(|n| format!("{word}{n}")).collect()
}

#[derive(Clone)]
pub struct Table {
    pub name: &'static str,
    axes: Vec<Axis>,
    seen: Vec<bool>,
    possible: Vec<bool>,
}

impl Table {
    pub fn new(name: &'static str, axes: Vec<Axis>) -> Table {
        let count = axes.iter().map(Vec::len).product();
        Table { name, axes, seen: vec![false; count], possible: vec![true; count] }
    }

    /// Leaves out the combinations that nothing can show.
    pub fn without(mut self, impossible: impl Fn(&[usize]) -> bool) -> Table {
        for cell in 0..self.possible.len() {
            self.possible[cell] = !impossible(&self.place(cell));
        }
        self
    }

    /// A cell's place on each axis.
    fn place(&self, mut cell: usize) -> Vec<usize> {
        let mut place = vec![0; self.axes.len()];
        for (n, axis) in self.axes.iter().enumerate().rev() {
            place[n] = cell % axis.len();
            cell /= axis.len();
        }
        place
    }

    #[inline]
    pub fn mark(&mut self, place: &[usize]) {
        let mut cell = 0;
        for (axis, at) in self.axes.iter().zip(place) {
            cell = cell * axis.len() + at;
        }
        self.seen[cell] = true;
    }

    /// Cells that the same table saw elsewhere are seen here.
    pub fn join(&mut self, other: &Table) {
        self.seen.iter_mut().zip(&other.seen).for_each(|(own, other)| *own |= other);
    }

    /// Each possible cell's name, and whether it was seen.
    pub fn cells(&self) -> impl Iterator<Item = (String, bool)> + '_ {
        let possible = (0..self.seen.len()).filter(|&cell| self.possible[cell]);
        possible.map(|cell| {
            let place = self.place(cell);
            let words = self.axes.iter().zip(place).map(|(axis, at)| axis[at].as_str());
            (words.collect::<Vec<_>>().join(", "), self.seen[cell])
        })
    }

    /// How many cells there are, and how many of them were seen.
    pub fn counts(&self) -> (usize, usize) {
        let possible = || self.possible.iter().zip(&self.seen).filter(|(possible, _)| **possible);
        (possible().count(), possible().filter(|(_, seen)| **seen).count())
    }
}

#[cfg(test)]
mod tests {
    use super::{names, numbers, Table};

    #[test]
    fn a_cell_that_is_impossible_is_not_counted() {
        let axes = vec![names(&["ADD", "OR"]), numbers("OV ", 2)];
        let mut table = Table::new("flags", axes).without(|place| place == [1, 1]);
        table.mark(&[0, 1]);
        table.mark(&[1, 1]);
        assert_eq!(table.counts(), (3, 1));
        let empty: Vec<String> =
            table.cells().filter(|(_, seen)| !seen).map(|(name, _)| name).collect();
        assert_eq!(empty, ["ADD, OV 0", "OR, OV 0"]);
    }
}
