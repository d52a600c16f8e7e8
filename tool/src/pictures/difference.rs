//! Where a capture differs from the model's picture.

use serde::{Deserialize, Serialize};
use vb::{COLUMNS, ROWS};

use crate::pictures::picture::Picture;

/// A pixel that differs.
#[derive(Clone, Copy, Debug, Deserialize, PartialEq, Eq, Serialize)]
pub struct Difference {
    #[serde(rename = "column")]
    pub x: usize,
    #[serde(rename = "row")]
    pub y: usize,
    pub expected: u8,
    pub seen: u8,
}

/// The smallest part of the picture that holds all that differs.
#[derive(Clone, Copy, Debug, Deserialize, PartialEq, Eq, Serialize)]
pub struct Bounds {
    pub left: usize,
    pub top: usize,
    pub right: usize,
    pub bottom: usize,
}

/// Row by row, from the upper left.
pub fn differences(expected: &Picture, seen: &Picture) -> Vec<Difference> {
    if expected == seen {
        return Vec::new();
    }
    let all = (0..ROWS).flat_map(|y| (0..COLUMNS).map(move |x| (x, y)));
    let pairs = all.map(|(x, y)| Difference {
        x,
        y,
        expected: expected.value(x, y),
        seen: seen.value(x, y),
    });
    pairs.filter(|pixel| pixel.expected != pixel.seen).collect()
}

impl Bounds {
    /// None where nothing differs.
    pub fn of(found: &[Difference]) -> Option<Bounds> {
        let (first, last) = (found.first()?, found.last()?);
        Some(Bounds {
            left: found.iter().map(|pixel| pixel.x).min()?,
            top: first.y,
            right: found.iter().map(|pixel| pixel.x).max()?,
            bottom: last.y,
        })
    }

    pub fn text(&self) -> String {
        let span = |what: &str, first: usize, last: usize| match first == last {
            true => format!("{what} {first}"),
            false => format!("{what}s {first} to {last}"),
        };
        let columns = span("column", self.left, self.right);
        format!("{columns}, {}", span("row", self.top, self.bottom))
    }
}

#[cfg(test)]
mod tests {
    use super::*;

    #[test]
    fn bounds_hold_all_that_differs() {
        let expected = Picture::of_values(vec![1; COLUMNS * ROWS]);
        let mut values = vec![1; COLUMNS * ROWS];
        (values[5 * COLUMNS + 9], values[7 * COLUMNS + 3]) = (0, 3);
        let found = differences(&expected, &Picture::of_values(values));
        let bounds = Bounds::of(&found).unwrap();
        assert_eq!((found.len(), bounds.text().as_str()), (2, "columns 3 to 9, rows 5 to 7"));
        assert_eq!(Bounds::of(&found[..1]).unwrap().text(), "column 9, row 5");
        assert_eq!(Bounds::of(&[]), None);
    }
}
