//! Prefix trees.

/// A cell of a prefix tree.
pub trait Cell: Copy {
    /// How many trees follow the cell as its parts.
    fn parts(&self) -> usize;
}

/// One past the tree that starts at `at`, or nothing where the cells end first.
pub fn reach<T: Cell>(cells: &[T], at: usize) -> Option<usize> {
    let mut due: usize = 1;
    let mut end = at;
    while due > 0 {
        if end >= cells.len() {
            return None;
        }
        due = (due - 1).checked_add(cells[end].parts())?;
        end += 1;
    }
    Some(end)
}

/// Copies the tree at `at` to the front of a table, whose rest stays, and answers its number of cells;
/// nothing is copied where the cells end first or the table is too short.
pub fn copy<T: Cell>(cells: &[T], at: usize, to: &mut [T]) -> Option<usize> {
    let len = reach(cells, at)? - at;
    if len > to.len() {
        return None;
    }
    to[..len].copy_from_slice(&cells[at..at + len]);
    Some(len)
}

/// How many whole trees the cells are, one after the other, or nothing where one is unfinished.
pub fn count<T: Cell>(cells: &[T]) -> Option<usize> {
    let mut trees: usize = 0;
    for i in (0..cells.len()).rev() {
        let parts = cells[i].parts();
        if parts > trees {
            return None;
        }
        trees = trees - parts + 1;
    }
    Some(trees)
}
