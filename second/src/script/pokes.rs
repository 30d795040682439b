//! States that no call made: fields of the stored state changed by hand.

use crate::field::{Field, CARRIED};
use crate::image::MOST_KEPT;
use crate::sheet::Node;

use super::images::{any_allowed, any_closed};
use super::Script;

type Change = (Field, usize, u64);

/// The fields of the loaded sheet.
const SHEET: [Field; 7] = [
    Field::Events,
    Field::Nodes,
    Field::Kind,
    Field::Left,
    Field::Right,
    Field::Needs,
    Field::Conflicts,
];

impl Script {
    pub(super) fn poke_burst(&mut self) {
        self.save_a_way_back();
        for _ in 0..self.random.between(2, 5) {
            match self.random.weighted(&[40, 45, 20]) {
                0 => self.poke_unsound(),
                1 => self.poke_places(),
                _ => self.poke_sheet(),
            }
        }
        self.mend();
        self.back_to_history();
    }

    fn poke(&mut self, (field, place, value): Change) {
        self.say(format!("poke {} {place} {value}", field.name()));
    }

    /// Pokes, calls, and pokes the old values back.
    fn poke_for_a_while(&mut self, changes: &[Change]) {
        let before = self.monitor.snapshot();
        for &change in changes {
            self.poke(change);
        }
        for _ in 0..self.random.between(1, 3) {
            self.any_call();
        }
        // What a call has altered meanwhile is left alone.
        if self.monitor.window().is_none() {
            for &(field, place, _) in changes {
                self.poke((field, place, field.get(&before, place)));
            }
        }
    }

    /// 20 by each of its causes, and by some that come close to one.
    fn poke_unsound(&mut self) {
        let changes = match self.random.weighted(&[6, 8, 6]) {
            0 => self.counts_off(),
            1 => self.nodes_off(),
            _ => vec![self.pairs_off()],
        };
        self.poke_for_a_while(&changes);
    }

    /// Counts that are too large, or do not add up.
    fn counts_off(&mut self) -> Vec<Change> {
        let state = self.monitor.snapshot();
        let total = u64::from(state.total);
        match self.random.below(6) {
            0 => vec![(Field::Kept, 0, self.random.pick(&[65, 66, 1 << 32, u64::MAX]))],
            1 => vec![(Field::Kept, 0, 65), (Field::Total, 0, u64::from(state.let_go) + 65)],
            2 => vec![(Field::Kept, 0, state.kept ^ 1)],
            3 => vec![(Field::Total, 0, total.wrapping_add(self.random.pick(&[1, u64::MAX])))],
            4 => vec![(Field::LetGo, 0, self.random.pick(&[total + 1, u64::MAX, 1 << 31]))],
            _ => vec![(Field::LetGo, 0, u64::MAX), (Field::Kept, 0, 1), (Field::Total, 0, 0)],
        }
    }

    /// Numbers of events and nodes, kinds and operands.
    fn nodes_off(&mut self) -> Vec<Change> {
        let tables = self.monitor.tables().clone();
        let nodes = tables.nodes.clamp(1, 64) as usize;
        let node = self.random.below(nodes);
        let two = (0..nodes).filter(|&node| matches!(tables.kind[node], 4 | 5 | 7));
        let two = self.random.pick(&two.chain([node]).collect::<Vec<_>>());
        let events = tables.events;
        let below = self.random.below(events.min(32) as usize) as u64;
        let wide = self.random.pick(&[33, 64, 255, 1 << 32 | 4, u64::MAX]);
        match self.random.below(8) {
            0 => vec![(Field::Events, 0, self.random.pick(&[0, wide]))],
            1 => vec![(Field::Events, 0, below)],
            2 => vec![(Field::Nodes, 0, self.random.pick(&[0, 65, 1 << 32 | 1, u64::MAX]))],
            3 => vec![(Field::Kind, node, self.random.pick(&[8, 9, 128, 255, 256 + 8]))],
            4 => vec![(Field::Left, node, self.random.pick(&[node as u64, 255, events, 300]))],
            5 => vec![(Field::Right, two, self.random.pick(&[two as u64, 63, 64, 255]))],
            6 => vec![(Field::Kind, node, self.random.below(8) as u64)],
            _ => vec![(Field::Nodes, 0, self.random.between(nodes, 64) as u64)],
        }
    }

    /// A need that is not below its event, a conflict outside the sheet or of
    /// an event with itself; now and then one that is harmless.
    fn pairs_off(&mut self) -> Change {
        let tables = self.monitor.tables();
        let events = tables.events.clamp(1, 32) as usize;
        let event = self.random.below(events);
        let needs = u64::from(tables.needs[event]);
        let conflicts = u64::from(tables.conflicts[event]);
        match self.random.below(7) {
            0 => (Field::Needs, event, needs | 1 << event),
            1 => (Field::Needs, event, needs | 1 << self.random.between(event, 31)),
            2 => (Field::Conflicts, event, conflicts | 1 << event),
            3 => (Field::Conflicts, event, conflicts | 1 << events.min(31)),
            4 => (Field::Conflicts, event, conflicts | 1 << self.random.between(events, 32)),
            5 => (Field::Needs, self.random.below(32), self.random.word()),
            _ => (Field::Conflicts, self.random.below(32), self.random.word()),
        }
    }

    /// Sets, rows and counts that 20 has nothing against.
    fn poke_places(&mut self) {
        for _ in 0..self.random.between(1, 3) {
            match self.random.weighted(&[45, 35, 12, 12, 8, 30]) {
                0 => self.poke_set(),
                1 => self.poke_row(),
                2 => self.poke_kept(),
                3 => self.poke_let_go(),
                4 => self.poke_empty(),
                _ => self.poke_gap(),
            }
        }
        for _ in 0..self.random.between(2, 8) {
            self.step();
        }
        if self.random.percent(30) {
            self.poke_all_in_use();
        }
    }

    /// No session at all, but a row that is carried nevertheless.
    fn poke_empty(&mut self) {
        for field in [Field::Total, Field::LetGo, Field::Kept] {
            self.poke((field, 0, 0));
        }
        let row = self.random.word();
        self.poke((Field::Row, CARRIED, row));
        self.check();
    }

    /// Takes all 64 places into use, which shows what the unused ones held,
    /// and then some of them, which shows a row.
    fn poke_all_in_use(&mut self) {
        let state = self.monitor.snapshot();
        let let_go = u64::from(state.let_go);
        if let_go + 64 <= u64::from(u32::MAX) {
            let some = self.random.between(state.kept.min(64) as usize, 64);
            for kept in [64, some as u64] {
                self.poke((Field::Kept, 0, kept));
                self.poke((Field::Total, 0, let_go + kept));
                self.check();
            }
            self.say("save 467");
        }
    }

    fn poke_gap(&mut self) {
        let events = self.monitor.tables().events.clamp(1, 32) as usize;
        let event = self.random.below(events);
        self.poke_gap_for(event);
    }

    /// A set that lacks one thing that an event needs, over a chain perhaps,
    /// or holds what it conflicts with, or the event itself; and the event.
    fn poke_gap_for(&mut self, event: usize) {
        let Some((let_go, kept)) = self.monitor.window() else {
            return;
        };
        let place = self.random.below(kept.len());
        if kept.is_empty() || self.random.percent(10) {
            self.say("begin");
            return;
        }
        let tables = self.monitor.tables();
        let (needs, conflicts) = (tables.needs[event], tables.conflicts[event]);
        let missing: Vec<u32> = (0..32).filter(|&cause| needs >> cause & 1 == 1).collect();
        let set = match self.random.below(5) {
            0 => needs | 1 << event | conflicts,
            1 => needs | conflicts & self.random.word() as u32,
            _ if missing.is_empty() => conflicts & self.random.word() as u32,
            _ => needs & !(1 << self.random.pick(&missing)),
        };
        self.poke((Field::Set, place, u64::from(set)));
        self.say(format!("record {} {event}", let_go + place as u32 + 1));
    }

    /// A place, mostly one in use or the first behind those.
    fn some_place(&mut self) -> usize {
        let kept = self.monitor.window().map_or(0, |(_, kept)| kept.len());
        match self.random.percent(80) {
            true => self.random.between(0, kept).min(MOST_KEPT - 1),
            false => self.random.below(MOST_KEPT),
        }
    }

    fn poke_set(&mut self) {
        let tables = self.monitor.tables();
        let events = tables.events.min(32);
        let set = match self.random.below(5) {
            0 => u64::from(any_closed(&mut self.random, tables)),
            1 => u64::from(any_allowed(&mut self.random, tables)),
            2 => self.random.word() & ((1 << events) - 1),
            3 => 1 << self.random.below(events as usize),
            _ => self.random.word(),
        };
        let place = if self.random.percent(30) { 0 } else { self.some_place() };
        self.poke((Field::Set, place, set));
    }

    fn poke_row(&mut self) {
        let place = if self.random.percent(35) { CARRIED } else { self.some_place() };
        let row = match self.random.below(3) {
            0 => self.random.below(16) as u64,
            1 => u64::MAX,
            _ => self.random.word(),
        };
        self.poke((Field::Row, place, row));
        // What the next accepted call makes of a row that is stale.
        if self.random.percent(40) {
            self.step();
            self.check();
        }
    }

    /// More or fewer sessions kept, with a total that fits.
    fn poke_kept(&mut self) {
        let state = self.monitor.snapshot();
        let kept = match self.random.below(4) {
            0 => 0,
            1 => self.random.pick(&[63, 64]),
            _ => self.random.below(10) as u64,
        };
        let total = u64::from(state.let_go) + kept;
        if total <= u64::from(u32::MAX) {
            self.poke((Field::Kept, 0, kept));
            self.poke((Field::Total, 0, total));
        }
    }

    /// Another number let go, now and then one near the end of the numbers.
    fn poke_let_go(&mut self) {
        let kept = self.monitor.snapshot().kept.min(64);
        let most = u64::from(u32::MAX) - kept;
        let let_go = match self.random.below(3) {
            0 => 0,
            1 => self.random.below(6) as u64,
            _ => most - self.random.below(3) as u64,
        };
        self.poke((Field::LetGo, 0, let_go));
        self.poke((Field::Total, 0, let_go + kept));
    }

    /// Another sheet under the same sessions, sound most of the time.
    fn poke_sheet(&mut self) {
        match self.random.below(2) {
            0 => self.poke_nodes(),
            _ => self.poke_pairs(),
        }
        for _ in 0..self.random.between(2, 7) {
            self.step();
        }
        if self.monitor.window().is_none() {
            self.mend();
        }
    }

    /// Other numbers of events and nodes, and other nodes.
    fn poke_nodes(&mut self) {
        let tables = self.monitor.tables().clone();
        let nodes = tables.nodes.clamp(1, 64) as usize;
        let place = self.random.below(nodes);
        match self.random.below(4) {
            0 => {
                let most = if self.random.percent(70) { nodes } else { 64 };
                let count = self.random.between(1, most) as u64;
                self.poke((Field::Nodes, 0, count));
            }
            1 => {
                let least = if self.random.percent(70) { tables.events.min(32) } else { 1 };
                let count = self.random.between(least as usize, 32) as u64;
                self.poke((Field::Events, 0, count));
            }
            2 => {
                let beyond = self.random.between(nodes, 63.max(nodes)).min(63);
                let field = self.random.pick(&[Field::Kind, Field::Left, Field::Right]);
                let value = self.random.word();
                self.poke((field, beyond, value));
            }
            _ => {
                let node = self.fitting_node(tables.events, place);
                self.poke((Field::Kind, place, u64::from(node.kind)));
                self.poke((Field::Left, place, u64::from(node.left)));
                self.poke((Field::Right, place, u64::from(node.right)));
            }
        }
    }

    /// Other needs and conflicts that 20 has nothing against: fewer, more, not
    /// closed over chains, on one side only; and the events that they touch.
    fn poke_pairs(&mut self) {
        let tables = self.monitor.tables().clone();
        let events = tables.events.clamp(1, 32) as usize;
        let (event, other) = (self.random.below(events), self.random.below(events));
        let word = self.random.word();
        let lower = (1u64 << event) - 1;
        let others = ((1u64 << events) - 1) & !(1 << event);
        let needs = u64::from(tables.needs[event]);
        let conflicts = u64::from(tables.conflicts[event]);
        let changes: Vec<Change> = match self.random.below(8) {
            0 => vec![(Field::Needs, event, 0)],
            1 => vec![(Field::Needs, event, needs & word)],
            2 => vec![(Field::Needs, event, word & lower)],
            3 => vec![(Field::Needs, event, needs | 1 << other & lower)],
            4 => vec![(Field::Conflicts, event, conflicts & word)],
            5 => vec![(Field::Conflicts, event, conflicts | 1 << other & others)],
            6 => vec![(Field::Conflicts, event, 0), (Field::Conflicts, other, 0)],
            _ => {
                let field = self.random.pick(&[Field::Needs, Field::Conflicts]);
                vec![(field, self.random.between(events.min(31), 31), word)]
            }
        };
        for &change in &changes {
            self.poke(change);
        }
        for aim in [event, other] {
            self.poke_gap_for(aim);
        }
    }

    /// A node that is sound at a place; an operand not taken is anything.
    fn fitting_node(&mut self, events: u64, place: usize) -> Node {
        loop {
            let kind = self.random.below(8) as u8;
            let end = if kind < 3 { events.min(32) as usize } else { place };
            let left = self.random.below(end) as u8;
            let right = if self.random.percent(50) { self.random.below(end) as u8 } else { 200 };
            let node = Node { kind, left, right };
            if node.fits(events, place) || events == 0 {
                return node;
            }
        }
    }

    /// Pokes the loaded sheet back, and counts that 20 has nothing against.
    fn mend(&mut self) {
        let state = self.monitor.snapshot();
        let mut loaded = state.clone();
        loaded.tables = self.monitor.loaded().clone();
        for field in SHEET {
            for place in 0..field.places() {
                let value = field.get(&loaded, place);
                if field.get(&state, place) != value {
                    self.poke((field, place, value));
                }
            }
        }
        if self.monitor.window().is_none() {
            for field in [Field::Total, Field::LetGo, Field::Kept] {
                self.poke((field, 0, 0));
            }
        }
    }

    /// A sheet of atoms poked into the state of all zeros.
    pub(super) fn poke_zeros(&mut self) {
        let events = self.random.between(1, 4);
        let nodes = self.random.between(1, 3);
        self.poke((Field::Events, 0, events as u64));
        self.poke((Field::Nodes, 0, nodes as u64));
        for place in 0..nodes {
            let node = self.fitting_node(events as u64, place);
            self.poke((Field::Kind, place, u64::from(node.kind)));
            self.poke((Field::Left, place, u64::from(node.left)));
            self.poke((Field::Right, place, u64::from(node.right)));
        }
        for _ in 0..self.random.below(3) {
            self.poke_pairs();
        }
        for _ in 0..self.random.between(5, 20) {
            self.step();
        }
    }
}
