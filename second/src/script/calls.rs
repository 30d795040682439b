//! Calls on the monitor: histories that grow long, fill up and are freed.

use crate::image::MOST_KEPT;
use crate::random::Random;
use crate::text;

use super::Script;

/// More saved images than this are not remembered.
const MOST_IMAGES: usize = 40;

#[derive(Clone, Copy)]
enum Focus {
    Oldest,
    Newest,
    Any,
}

/// How the calls of an episode lean: how readily a session is begun, which
/// sessions are written to, how often a change is followed by a check, and
/// how readily an earlier moment is gone back to.
pub struct Habit {
    begin: usize,
    focus: Focus,
    check: usize,
    restore: usize,
}

impl Habit {
    pub fn any(random: &mut Random) -> Habit {
        Habit {
            begin: random.between(8, 40),
            focus: random.pick(&[Focus::Oldest, Focus::Oldest, Focus::Newest, Focus::Any]),
            check: random.between(10, 70),
            restore: random.pick(&[0, 0, 2, 5]),
        }
    }
}

impl Script {
    pub(super) fn history_burst(&mut self) {
        if !self.monitor.is_history() {
            self.back_to_history();
        }
        for _ in 0..self.random.between(15, 60) {
            self.step();
        }
    }

    /// Many sessions begun and closed one behind the other, so that far more
    /// are let go than can be kept; on small sheets, where that takes few calls.
    pub(super) fn march(&mut self) {
        if !self.monitor.is_history() {
            self.back_to_history();
        }
        if self.monitor.tables().events > 4 {
            return self.history_burst();
        }
        for _ in 0..self.random.between(40, 160) {
            self.begin();
            let (let_go, _) = self.counts();
            self.close(let_go.saturating_add(1));
        }
        self.save();
    }

    /// One call of a history's daily life.
    pub(super) fn step(&mut self) {
        match self.random.weighted(&[self.habit.begin, 46, 12, 3, 3, 6, 4, 5, self.habit.restore]) {
            0 => self.begin(),
            1 => self.record_something(),
            2 => self.record_anything(),
            3 => self.record_in_vain(),
            4 => self.record_nonsense(),
            5 => self.check(),
            6 => drop(self.say("counts")),
            7 => self.save(),
            _ => self.restore_saved(),
        }
    }

    /// Any call at all, for states in which one is as good as another.
    pub(super) fn any_call(&mut self) {
        match self.random.below(8) {
            0 => drop(self.say("begin")),
            1 => self.record_anything(),
            2 => self.check(),
            3 => drop(self.say("counts")),
            4 => self.save(),
            5 => self.record_nonsense(),
            6 if self.monitor.window().is_none() => drop(self.restore_crafted(50)),
            _ if self.images.is_empty() => drop(self.say(format!("restore b44d08{:032}", 0))),
            _ => self.restore_saved(),
        }
    }

    pub(super) fn check(&mut self) {
        self.say("check");
    }

    fn begin(&mut self) {
        self.say("begin");
        self.maybe_check();
    }

    fn maybe_check(&mut self) {
        if self.random.percent(self.habit.check) {
            self.check();
        }
    }

    fn record(&mut self, session: u32, event: u32) {
        self.say(format!("record {session} {event}"));
        self.maybe_check();
    }

    /// The numbers let go and kept; no kept ones where 20 applies.
    fn counts(&self) -> (u32, usize) {
        let window = self.monitor.window();
        window.map_or((0, 0), |(let_go, kept)| (let_go, kept.len()))
    }

    /// An event that can be added to a kept session.
    fn record_something(&mut self) {
        let (let_go, kept) = self.counts();
        if kept == 0 {
            return self.begin();
        }
        let place = match self.habit.focus {
            Focus::Oldest if self.random.percent(75) => 0,
            Focus::Newest if self.random.percent(75) => kept - 1 - self.random.below(kept.min(3)),
            _ => self.random.below(kept),
        };
        let session = let_go + place as u32 + 1;
        match self.addable(session) {
            events if events.is_empty() => self.record_anything(),
            events => {
                let event = self.random.pick(&events);
                self.record(session, event);
            }
        }
    }

    /// What can be added to a session now; nothing if it is not kept.
    fn addable(&self, session: u32) -> Vec<u32> {
        let Some((let_go, kept)) = self.monitor.window() else {
            return Vec::new();
        };
        let place = session.checked_sub(let_go).and_then(|above| above.checked_sub(1));
        match place.and_then(|place| kept.get(place as usize)) {
            Some(&set) => self.monitor.tables().addable_events(set),
            None => Vec::new(),
        }
    }

    /// Any event of the sheet in any session, mostly one that is kept.
    pub(super) fn record_anything(&mut self) {
        let (let_go, kept) = self.counts();
        let total = let_go.saturating_add(kept as u32);
        let first = match self.random.below(10) {
            0 => 0,
            1 | 2 => let_go.saturating_sub(2),
            _ => total.min(let_go.saturating_add(1)),
        };
        let session = self.random.between(first as usize, total as usize) as u32;
        let events = self.monitor.tables().events.min(40) as usize;
        let event = self.random.below(events) as u32;
        self.record(session.max(1), event);
    }

    /// A member again, or what conflicts with a member, in a session that
    /// holds something.
    fn record_in_vain(&mut self) {
        let Some((let_go, kept)) = self.monitor.window() else {
            return self.record_anything();
        };
        let used: Vec<usize> = (0..kept.len()).filter(|&place| kept[place] != 0).collect();
        if used.is_empty() {
            return self.record_anything();
        }
        let place = self.random.pick(&used);
        let tables = self.monitor.tables();
        let members = kept[place];
        let against = (0..32).filter(|&event| tables.conflicts[event] & members != 0);
        let against = against.fold(0, |set, event| set | 1 << event);
        let chosen = if against != 0 && self.random.percent(60) { against } else { members };
        let events: Vec<u32> = (0..32).filter(|&event| chosen >> event & 1 == 1).collect();
        let event = self.random.pick(&events);
        self.record(let_go + place as u32 + 1, event);
    }

    /// Session numbers and events that are not there, each alone and both.
    fn record_nonsense(&mut self) {
        let (let_go, kept) = self.counts();
        let total = let_go.saturating_add(kept as u32);
        let events = self.monitor.tables().events as u32;
        let above = total.saturating_add(1);
        let session = self.random.pick(&[0, above, above.saturating_add(1), u32::MAX, total, 1]);
        let strange = [0, 0, events, events.saturating_add(1), 31, 32, 64, 255, u32::MAX];
        let event = self.random.pick(&strange);
        self.record(session, event);
    }

    /// Saves into a buffer that is too short, exact or longer.
    pub(super) fn save(&mut self) {
        let exact = 19 + 7 * self.counts().1;
        let room = match self.random.below(40) {
            0..=17 => exact,
            18..=23 => 467,
            24..=29 => exact + self.random.between(1, 20),
            30..=32 => exact - 1,
            33..=36 => self.random.below(exact),
            37 => exact - 7,
            38 => 0,
            _ if self.random.percent(15) => 4096,
            _ => exact + 40,
        };
        self.save_into(room);
    }

    fn save_into(&mut self, room: usize) {
        let answer = self.say(format!("save {room}"));
        if let Some(image) = saved_image(&answer) {
            if self.monitor.is_history() {
                self.remember(image);
            }
        }
    }

    fn remember(&mut self, image: Vec<u8>) {
        if self.images.len() >= MOST_IMAGES {
            self.images.remove(self.random.below(MOST_IMAGES));
        }
        self.images.push(image);
    }

    /// Saves the history at hand, before the state leaves the histories.
    pub(super) fn save_a_way_back(&mut self) {
        if self.monitor.is_history() {
            self.save_into(19 + 7 * self.counts().1);
        }
    }

    /// Restores an image that was saved of a history, if there is one, mostly
    /// the last, so that the history goes on growing.
    pub(super) fn back_to_history(&mut self) {
        match self.images.last().cloned() {
            Some(image) if self.random.percent(80) => drop(self.say_hex("restore", &image)),
            Some(_) => self.restore_saved(),
            None => {}
        }
    }

    /// An image saved of some history, mostly a late one.
    fn restore_saved(&mut self) {
        let count = self.images.len();
        if count == 0 {
            return self.save();
        }
        let place = match self.random.percent(60) {
            true => count - 1 - self.random.below(count.min(3)),
            false => self.random.below(count),
        };
        let image = self.images[place].clone();
        self.say_hex("restore", &image);
        self.maybe_check();
    }

    /// Begins until 64 are kept and the next is refused, then frees room.
    pub(super) fn full_burst(&mut self) {
        for _ in 0..MOST_KEPT + 2 {
            if self.counts().1 == MOST_KEPT {
                break;
            }
            self.say("begin");
            if self.random.percent(12) {
                self.step();
            }
        }
        for _ in 0..self.random.between(3, 8) {
            self.say("begin");
            let (let_go, kept) = self.counts();
            let place = if self.random.percent(60) { 0 } else { self.random.below(kept.max(1)) };
            self.close(let_go.saturating_add(place as u32 + 1));
            self.say("counts");
            self.check();
        }
        for _ in 0..self.random.below(30) {
            let (let_go, _) = self.counts();
            self.close(let_go.saturating_add(1));
        }
    }

    /// Adds events to a kept session until it is closed.
    fn close(&mut self, session: u32) {
        loop {
            let events = self.addable(session);
            if events.is_empty() {
                return;
            }
            let event = self.random.pick(&events);
            self.say(format!("record {session} {event}"));
        }
    }
}

/// The image in the answer to a save: `iLEN HEX`, its first LEN bytes.
fn saved_image(answer: &[u8]) -> Option<Vec<u8>> {
    let space = answer.iter().position(|&byte| byte == b' ')?;
    let length = text::number(answer[..space].strip_prefix(b"i")?, 4096)? as usize;
    text::bytes(answer[space + 1..].get(..2 * length)?)
}
