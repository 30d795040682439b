//! The monitor at hand: a history as long as calls alone made its state, a
//! stored state otherwise.

use std::collections::HashMap;

use crate::history::History;
use crate::image::{self, Image};
use crate::sheet;
use crate::stored::Stored;
use crate::tables::Tables;
use crate::Refusal;

enum State {
    History(History),
    Stored(Box<Stored>),
}

pub struct Monitor {
    /// The last sheet lent, accepted or not, for path questions.
    sheet_bytes: Vec<u8>,
    /// The tables of the last accepted sheet.
    loaded: Tables,
    state: State,
    /// Every image saved of a history under the accepted sheet, branches
    /// left since then included, with the history at that moment.
    saved: HashMap<Vec<u8>, History>,
}

impl Default for Monitor {
    /// Before any sheet was accepted the state is all zeros.
    fn default() -> Monitor {
        Monitor {
            sheet_bytes: Vec::new(),
            loaded: Tables::zero(),
            state: State::Stored(Box::new(Stored::fresh(Tables::zero()))),
            saved: HashMap::new(),
        }
    }
}

impl Monitor {
    /// An accepted sheet gives a fresh monitor; a refused one leaves the
    /// monitor as it was.
    pub fn sheet(&mut self, bytes: Vec<u8>) -> Result<(), Refusal> {
        let tables = sheet::read(&bytes).map(|sheet| Tables::of(&sheet));
        self.sheet_bytes = bytes;
        let tables = tables?;
        // After a power cut the same sheet is loaded anew: what was saved
        // before still stands for its history.
        if tables != self.loaded {
            self.saved.clear();
        }
        self.loaded = tables;
        self.state = State::History(History::default());
        Ok(())
    }

    pub fn sheet_bytes(&self) -> &[u8] {
        &self.sheet_bytes
    }

    pub fn begin(&mut self) -> Result<u32, Refusal> {
        match &mut self.state {
            State::History(history) => history.begin(&self.loaded),
            State::Stored(state) => state.begin(),
        }
    }

    pub fn record(&mut self, session: u32, event: u32) -> Result<(), Refusal> {
        match &mut self.state {
            State::History(history) => history.record(&self.loaded, session, event),
            State::Stored(state) => state.record(session, event),
        }
    }

    /// The verdict and the row of truths at the last session.
    pub fn check(&self) -> Result<(bool, u64), Refusal> {
        let row = match &self.state {
            State::History(history) => history.row(&self.loaded),
            State::Stored(state) => state.row()?,
        };
        Ok((self.tables().verdict(row), row))
    }

    pub fn counts(&self) -> Result<(u32, u32, u64), Refusal> {
        match &self.state {
            State::History(history) => Ok(history.counts(&self.loaded)),
            State::Stored(state) => state.counts(),
        }
    }

    pub fn save(&mut self, buffer: &mut [u8]) -> Result<usize, Refusal> {
        let bytes = self.image()?.bytes();
        let length = image::write(&bytes, buffer)?;
        if let State::History(history) = &self.state {
            self.saved.entry(bytes).or_insert_with(|| history.clone());
        }
        Ok(length)
    }

    fn image(&self) -> Result<Image, Refusal> {
        match &self.state {
            State::History(history) => Ok(history.image(&self.loaded)),
            State::Stored(state) => state.image(),
        }
    }

    /// "Restoring takes a monitor, whose loaded sheet judges the image".
    pub fn restore(&mut self, bytes: &[u8]) -> Result<(), Refusal> {
        if let State::Stored(state) = &self.state {
            state.test()?;
        }
        let tables = self.tables();
        let image = Image::read(bytes)?;
        image.judge(tables)?;
        let untouched = *tables == self.loaded;
        self.state = match self.saved.get(bytes) {
            Some(history) if untouched => State::History(history.clone()),
            _ => State::Stored(Box::new(Stored::restored(tables.clone(), &image))),
        };
        Ok(())
    }

    /// Lets a hand write into the stored state. From then on the state is one
    /// that no call made.
    pub fn poke(&mut self, change: impl FnOnce(&mut Stored)) {
        let mut state = self.snapshot();
        change(&mut state);
        self.state = State::Stored(Box::new(state));
    }

    /// The sheet that judges now.
    pub fn tables(&self) -> &Tables {
        match &self.state {
            State::History(_) => &self.loaded,
            State::Stored(state) => &state.tables,
        }
    }

    /// The tables of the last accepted sheet.
    pub fn loaded(&self) -> &Tables {
        &self.loaded
    }

    pub fn is_history(&self) -> bool {
        matches!(self.state, State::History(_))
    }

    /// The number let go and the kept sets, where the state passes 20.
    pub fn window(&self) -> Option<(u32, &[u32])> {
        match &self.state {
            State::History(history) => {
                let kept = history.kept(&self.loaded);
                Some((history.let_go(&self.loaded) as u32, kept))
            }
            State::Stored(state) => {
                state.test().ok()?;
                Some((state.let_go, &state.sets[..state.kept as usize]))
            }
        }
    }

    /// The state as a monitor stores it.
    pub fn snapshot(&self) -> Stored {
        match &self.state {
            State::History(history) => history.stored(&self.loaded),
            State::Stored(state) => (**state).clone(),
        }
    }
}
