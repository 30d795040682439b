//! A history: every session ever begun, in order, nothing dropped. Each
//! answer is worked out afresh from it by the written meaning.
//!
//! The sheet of a history was accepted and its counts are those of its
//! sessions, so 20 never applies here.

use crate::image::{Image, MOST_KEPT};
use crate::policy::Truths;
use crate::stored::Stored;
use crate::tables::Tables;
use crate::Refusal;

#[derive(Clone, Default)]
pub struct History {
    sessions: Vec<u32>,
}

impl History {
    /// "Let go = length of the longest front run of closed sessions".
    pub fn let_go(&self, tables: &Tables) -> usize {
        self.sessions.iter().take_while(|&&set| tables.closed(set)).count()
    }

    /// "kept = the sessions behind it".
    pub fn kept(&self, tables: &Tables) -> &[u32] {
        &self.sessions[self.let_go(tables)..]
    }

    /// Total, let go and kept.
    pub fn counts(&self, tables: &Tables) -> (u32, u32, u64) {
        let let_go = self.let_go(tables);
        let kept = self.sessions.len() - let_go;
        (self.sessions.len() as u32, let_go as u32, kept as u64)
    }

    /// A new session is empty. 28 stands before 27 in the table.
    pub fn begin(&mut self, tables: &Tables) -> Result<u32, Refusal> {
        if self.sessions.len() >= u32::MAX as usize {
            return Err(28);
        }
        if self.kept(tables).len() >= MOST_KEPT {
            return Err(27);
        }
        self.sessions.push(0);
        Ok(self.sessions.len() as u32)
    }

    /// "An event may be recorded in any session, old or new." A session let
    /// go is closed, so 23 needs no word about it.
    pub fn record(&mut self, tables: &Tables, session: u32, event: u32) -> Result<(), Refusal> {
        if session == 0 || session as usize > self.sessions.len() {
            return Err(21);
        }
        if u64::from(event) >= tables.events {
            return Err(22);
        }
        let set = &mut self.sessions[session as usize - 1];
        tables.may_record(*set, event as usize)?;
        *set |= 1 << event;
        Ok(())
    }

    /// The row of truths at the last session. "The empty history counts as
    /// one empty session."
    pub fn row(&self, tables: &Tables) -> u64 {
        if self.sessions.is_empty() {
            return Truths::of(tables, &[0]).row(1);
        }
        Truths::of(tables, &self.sessions).row(self.sessions.len())
    }

    pub fn image(&self, tables: &Tables) -> Image {
        let let_go = self.let_go(tables);
        // The past alone settles a row, so the sessions let go suffice here.
        let past = &self.sessions[..let_go];
        Image {
            total: self.sessions.len() as u32,
            let_go: let_go as u32,
            row: Truths::of(tables, past).row(let_go),
            sets: self.sessions[let_go..].to_vec(),
        }
    }

    /// The state that a monitor with this history stores: the row at the last
    /// session let go, the kept sessions with their rows, and 0 elsewhere.
    pub fn stored(&self, tables: &Tables) -> Stored {
        let let_go = self.let_go(tables);
        let truths = Truths::of(tables, &self.sessions);
        let mut state = Stored::fresh(tables.clone());
        state.total = self.sessions.len() as u32;
        state.let_go = let_go as u32;
        state.kept = (self.sessions.len() - let_go) as u64;
        state.carried = truths.row(let_go);
        for (place, set) in self.sessions[let_go..].iter().enumerate() {
            state.sets[place] = *set;
            state.rows[place] = truths.row(let_go + place + 1);
        }
        state
    }
}
