//! The fields of a stored state that a hand can write into.

use crate::stored::Stored;

#[derive(Clone, Copy, PartialEq)]
pub enum Field {
    Total,
    LetGo,
    Kept,
    Row,
    Set,
    Events,
    Nodes,
    Kind,
    Left,
    Right,
    Needs,
    Conflicts,
}

/// The place of the row carried past the sessions let go; those before it are
/// the rows of the kept sessions.
pub const CARRIED: usize = 64;

impl Field {
    pub const ALL: [Field; 12] = [
        Field::Total,
        Field::LetGo,
        Field::Kept,
        Field::Row,
        Field::Set,
        Field::Events,
        Field::Nodes,
        Field::Kind,
        Field::Left,
        Field::Right,
        Field::Needs,
        Field::Conflicts,
    ];

    pub fn name(self) -> &'static str {
        match self {
            Field::Total => "total",
            Field::LetGo => "letgo",
            Field::Kept => "kept",
            Field::Row => "row",
            Field::Set => "set",
            Field::Events => "events",
            Field::Nodes => "nodes",
            Field::Kind => "kind",
            Field::Left => "left",
            Field::Right => "right",
            Field::Needs => "needs",
            Field::Conflicts => "conflicts",
        }
    }

    /// How many places the field has.
    pub fn places(self) -> usize {
        match self {
            Field::Total | Field::LetGo | Field::Kept | Field::Events | Field::Nodes => 1,
            Field::Row => CARRIED + 1,
            Field::Set | Field::Kind | Field::Left | Field::Right => 64,
            Field::Needs | Field::Conflicts => 32,
        }
    }

    /// Puts a value, cut to the field's width, at a place that it has.
    pub fn put(self, state: &mut Stored, place: usize, value: u64) {
        match self {
            Field::Total => state.total = value as u32,
            Field::LetGo => state.let_go = value as u32,
            Field::Kept => state.kept = value,
            Field::Row if place == CARRIED => state.carried = value,
            Field::Row => state.rows[place] = value,
            Field::Set => state.sets[place] = value as u32,
            Field::Events => state.tables.events = value,
            Field::Nodes => state.tables.nodes = value,
            Field::Kind => state.tables.kind[place] = value as u8,
            Field::Left => state.tables.left[place] = value as u8,
            Field::Right => state.tables.right[place] = value as u8,
            Field::Needs => state.tables.needs[place] = value as u32,
            Field::Conflicts => state.tables.conflicts[place] = value as u32,
        }
    }

    /// The value at a place that it has.
    pub fn get(self, state: &Stored, place: usize) -> u64 {
        match self {
            Field::Total => u64::from(state.total),
            Field::LetGo => u64::from(state.let_go),
            Field::Kept => state.kept,
            Field::Row if place == CARRIED => state.carried,
            Field::Row => state.rows[place],
            Field::Set => u64::from(state.sets[place]),
            Field::Events => state.tables.events,
            Field::Nodes => state.tables.nodes,
            Field::Kind => u64::from(state.tables.kind[place]),
            Field::Left => u64::from(state.tables.left[place]),
            Field::Right => u64::from(state.tables.right[place]),
            Field::Needs => u64::from(state.tables.needs[place]),
            Field::Conflicts => u64::from(state.tables.conflicts[place]),
        }
    }
}
