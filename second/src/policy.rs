//! What a policy says at each session of a whole history: the table of
//! document 01, line by line, with no step from one row to the next.

use crate::tables::{has, Tables};

/// The truth of every node at every session: one column a node, in which
/// place i - 1 belongs to session i.
pub struct Truths {
    columns: Vec<Vec<bool>>,
}

impl Truths {
    /// The truths of a sound sheet's nodes over these sessions.
    pub fn of(tables: &Tables, sessions: &[u32]) -> Truths {
        let mut columns: Vec<Vec<bool>> = Vec::new();
        for node in 0..tables.nodes as usize {
            let truth = |i| holds(tables, &columns, sessions, node, i);
            let column = (0..sessions.len()).map(truth).collect();
            columns.push(column);
        }
        Truths { columns }
    }

    /// "A row of truths is one bit a node, node 0 lowest; bits beyond the
    /// nodes are 0." Session 0 stands before the first and has the row 0.
    pub fn row(&self, session: usize) -> u64 {
        let Some(place) = session.checked_sub(1) else {
            return 0;
        };
        let bits = self.columns.iter().enumerate();
        bits.fold(0, |row, (node, column)| row | u64::from(column[place]) << node)
    }
}

/// Whether a node holds at place i, given the columns of the earlier nodes.
fn holds(t: &Tables, columns: &[Vec<bool>], sessions: &[u32], node: usize, i: usize) -> bool {
    let node = t.node(node);
    let a = |place: usize| columns[usize::from(node.left)][place];
    let b = |place: usize| columns[usize::from(node.right)][place];
    match node.kind {
        0 => true,
        1 => has(sessions[i], usize::from(node.left)),
        2 => t.possible(sessions[i], node.left),
        3 => !a(i),
        4 => a(i) && b(i),
        5 => a(i) || b(i),
        // "i > 1 and a holds at i-1": place 0 belongs to session 1.
        6 => i > 0 && a(i - 1),
        // "b holds at some j <= i, and a at every k with j < k <= i".
        _ => (0..=i).rev().any(|j| b(j) && (j + 1..=i).rev().all(a)),
    }
}
