//! A stored state that no call made: "judged by its stored sets and rows as
//! they stand". Each row is worked out from the row before it.

use crate::image::{Image, MOST_KEPT};
use crate::tables::{has, Tables};
use crate::Refusal;

#[derive(Clone)]
pub struct Stored {
    pub tables: Tables,
    pub total: u32,
    pub let_go: u32,
    pub kept: u64,
    /// The row carried past the sessions let go.
    pub carried: u64,
    pub sets: [u32; MOST_KEPT],
    pub rows: [u64; MOST_KEPT],
}

impl Stored {
    /// A monitor of which nothing is kept and every place holds 0.
    pub fn fresh(tables: Tables) -> Stored {
        Stored {
            tables,
            total: 0,
            let_go: 0,
            kept: 0,
            carried: 0,
            sets: [0; MOST_KEPT],
            rows: [0; MOST_KEPT],
        }
    }

    /// The state that restoring an accepted image gives: rows worked out from
    /// the header's row on, unused places 0.
    pub fn restored(tables: Tables, image: &Image) -> Stored {
        let mut state = Stored::fresh(tables);
        state.total = image.total;
        state.let_go = image.let_go;
        state.kept = image.sets.len() as u64;
        state.carried = image.row;
        for (place, set) in state.sets.iter_mut().zip(&image.sets) {
            *place = *set;
        }
        state.refresh_rows(0);
        state
    }

    /// 20: "kept > 64, let go + kept differs from total, or a number of its
    /// loaded sheet that 11, 13, 15 or 16 would refuse".
    pub fn test(&self) -> Result<(), Refusal> {
        let sum = u128::from(self.let_go) + u128::from(self.kept);
        let counted = self.kept <= MOST_KEPT as u64 && sum == u128::from(self.total);
        if counted && self.tables.sound() {
            Ok(())
        } else {
            Err(20)
        }
    }

    pub fn counts(&self) -> Result<(u32, u32, u64), Refusal> {
        self.test()?;
        Ok((self.total, self.let_go, self.kept))
    }

    pub fn begin(&mut self) -> Result<u32, Refusal> {
        self.test()?;
        if self.total == u32::MAX {
            return Err(28);
        }
        if self.kept == MOST_KEPT as u64 {
            return Err(27);
        }
        let place = self.kept as usize;
        self.sets[place] = 0;
        self.kept += 1;
        self.total += 1;
        self.refresh_rows(place);
        let number = self.total;
        self.let_go_closed();
        Ok(number)
    }

    pub fn record(&mut self, session: u32, event: u32) -> Result<(), Refusal> {
        self.test()?;
        if session == 0 || session > self.total {
            return Err(21);
        }
        if u64::from(event) >= self.tables.events {
            return Err(22);
        }
        if session <= self.let_go {
            return Err(23);
        }
        let place = (session - self.let_go - 1) as usize;
        self.tables.may_record(self.sets[place], event as usize)?;
        self.sets[place] |= 1 << event;
        self.refresh_rows(place);
        self.let_go_closed();
        Ok(())
    }

    /// The row at the last session, as it is stored. "The empty history counts
    /// as one empty session."
    pub fn row(&self) -> Result<u64, Refusal> {
        self.test()?;
        if self.total == 0 {
            return Ok(next_row(&self.tables, self.carried, 0));
        }
        Ok(self.row_before(self.kept as usize))
    }

    pub fn image(&self) -> Result<Image, Refusal> {
        self.test()?;
        Ok(Image {
            total: self.total,
            let_go: self.let_go,
            row: self.carried,
            sets: self.sets[..self.kept as usize].to_vec(),
        })
    }

    /// The row that stands before a place.
    fn row_before(&self, place: usize) -> u64 {
        match place.checked_sub(1) {
            Some(before) => self.rows[before],
            None => self.carried,
        }
    }

    /// Works the rows of the kept sessions out afresh from a place on.
    fn refresh_rows(&mut self, from: usize) {
        for place in from..self.kept as usize {
            self.rows[place] = next_row(&self.tables, self.row_before(place), self.sets[place]);
        }
    }

    /// "After each accepted begin or record, the oldest kept session is let go
    /// while it is closed." The other kept ones move up. Then "unused places
    /// of a monitor hold 0", whatever stood in them before the call.
    fn let_go_closed(&mut self) {
        while self.kept > 0 && self.tables.closed(self.sets[0]) {
            self.carried = self.rows[0];
            self.sets.copy_within(1.., 0);
            self.rows.copy_within(1.., 0);
            self.kept -= 1;
            self.let_go += 1;
        }
        let kept = self.kept as usize;
        self.sets[kept..].fill(0);
        self.rows[kept..].fill(0);
    }
}

/// The row of a session, from the row before it: `previous` reads that row,
/// and "a since b" holds when b does, or when a does and it held there.
fn next_row(tables: &Tables, before: u64, set: u32) -> u64 {
    let mut row: u64 = 0;
    for place in 0..tables.nodes as usize {
        let node = tables.node(place);
        let a = row >> (node.left & 63) & 1 == 1;
        let b = row >> (node.right & 63) & 1 == 1;
        let holds = match node.kind {
            0 => true,
            1 => has(set, usize::from(node.left)),
            2 => tables.possible(set, node.left),
            3 => !a,
            4 => a && b,
            5 => a || b,
            6 => before >> (node.left & 63) & 1 == 1,
            _ => b || a && before >> place & 1 == 1,
        };
        row |= u64::from(holds) << place;
    }
    row
}
