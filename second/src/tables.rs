//! A loaded sheet as a monitor holds it, and what it says of one session. A
//! session is a set of events, one bit an event, event 0 lowest.

use crate::sheet::{Node, Sheet};
use crate::Refusal;

#[derive(Clone, PartialEq)]
pub struct Tables {
    pub events: u64,
    pub nodes: u64,
    /// For each event the set of all events that it needs, over chains too.
    pub needs: [u32; 32],
    /// For each event the set of events that it conflicts with.
    pub conflicts: [u32; 32],
    pub kind: [u8; 64],
    pub left: [u8; 64],
    pub right: [u8; 64],
}

impl Tables {
    /// The tables of no sheet: every number 0.
    pub fn zero() -> Tables {
        Tables {
            events: 0,
            nodes: 0,
            needs: [0; 32],
            conflicts: [0; 32],
            kind: [0; 64],
            left: [0; 64],
            right: [0; 64],
        }
    }

    pub fn of(sheet: &Sheet) -> Tables {
        let mut tables = Tables::zero();
        tables.events = u64::from(sheet.events);
        tables.nodes = sheet.nodes.len() as u64;
        tables.needs = closed_over_chains(&sheet.causes);
        // "Conflict is symmetric and is taken as listed."
        for &(a, b) in &sheet.conflicts {
            tables.conflicts[usize::from(a)] |= 1 << b;
            tables.conflicts[usize::from(b)] |= 1 << a;
        }
        for (place, node) in sheet.nodes.iter().enumerate() {
            tables.kind[place] = node.kind;
            tables.left[place] = node.left;
            tables.right[place] = node.right;
        }
        tables
    }

    pub fn node(&self, place: usize) -> Node {
        Node { kind: self.kind[place], left: self.left[place], right: self.right[place] }
    }

    /// Whether 20 has nothing against the stored sheet: "a number of its
    /// loaded sheet that 11, 13, 15 or 16 would refuse". Places beyond the
    /// counts and operands that a kind does not take are not looked at.
    pub fn sound(&self) -> bool {
        (1..=32).contains(&self.events)
            && (1..=64).contains(&self.nodes)
            && self.each_event().all(|event| self.sound_event(event))
            && (0..self.nodes as usize).all(|place| self.node(place).fits(self.events, place))
    }

    /// What a cause (a, b) and a conflict (a, b) with a < b, both events of
    /// the sheet, leave at an event: needs below it, conflicts with others.
    /// Needs not closed over chains and conflicts on one side pass.
    fn sound_event(&self, event: usize) -> bool {
        let conflicts = u64::from(self.conflicts[event]);
        u64::from(self.needs[event]) < 1 << event
            && conflicts < 1 << self.events
            && conflicts & 1 << event == 0
    }

    fn each_event(&self) -> std::ops::Range<usize> {
        0..self.events.min(32) as usize
    }

    /// The policy is the last node.
    pub fn verdict(&self, row: u64) -> bool {
        row >> ((self.nodes - 1) & 63) & 1 == 1
    }

    fn conflict_free(&self, set: u32, event: usize) -> bool {
        self.conflicts[event] & set == 0
    }

    fn has_causes(&self, set: u32, event: usize) -> bool {
        self.needs[event] & !set == 0
    }

    /// "possible e: e conflicts with no member of session i".
    pub fn possible(&self, set: u32, event: u8) -> bool {
        self.conflict_free(set, usize::from(event))
    }

    fn addable(&self, set: u32, event: usize) -> bool {
        !has(set, event) && self.conflict_free(set, event) && self.has_causes(set, event)
    }

    /// The events that could be added to a session now.
    pub fn addable_events(&self, set: u32) -> Vec<u32> {
        let addable = self.each_event().filter(|&event| self.addable(set, event));
        addable.map(|event| event as u32).collect()
    }

    /// "It is closed when no further event can be added."
    pub fn closed(&self, set: u32) -> bool {
        !self.each_event().any(|event| self.addable(set, event))
    }

    /// "a set of events that is conflict-free and holds every cause of each
    /// member".
    pub fn allowed(&self, set: u32) -> bool {
        let mut members = self.each_event().filter(|&event| has(set, event));
        members.all(|event| self.conflict_free(set, event) && self.has_causes(set, event))
    }

    /// Numbers 23 to 26 for an event of the sheet, in their order.
    pub fn may_record(&self, set: u32, event: usize) -> Result<(), Refusal> {
        if self.closed(set) {
            return Err(23);
        }
        if has(set, event) {
            return Err(24);
        }
        if !self.conflict_free(set, event) {
            return Err(25);
        }
        if !self.has_causes(set, event) {
            return Err(26);
        }
        Ok(())
    }
}

pub fn has(set: u32, event: usize) -> bool {
    set >> event & 1 == 1
}

/// "A listed cause (a, b) says that b needs a; "needs" is closed over chains":
/// what a needs, b needs too, until nothing is added any more.
fn closed_over_chains(causes: &[(u8, u8)]) -> [u32; 32] {
    let mut needs = [0; 32];
    loop {
        let before = needs;
        for &(a, b) in causes {
            needs[usize::from(b)] |= 1 << a | needs[usize::from(a)];
        }
        if needs == before {
            return needs;
        }
    }
}
