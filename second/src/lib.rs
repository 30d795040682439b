//! A second implementation of document 01, to be held line by line against
//! the first. It favours the written meaning over speed: it keeps the whole
//! history and works every answer out afresh from it.
//!
//! * `sheet`, `path`: what is asked of bytes alone.
//! * `tables`: a loaded sheet, and what it says of one session.
//! * `policy`, `history`: the written meaning over whole histories.
//! * `image`: the saved bytes.
//! * `stored`: states that no call made, judged as they stand.
//! * `monitor`: the monitor at hand, of either sort.
//! * `text`, `field`, `commands`: the command language.
//! * `random`, `script`, `tally`: random scripts, and what occurred in them.
//! * `compare`: another program's answers beside our own.

#![forbid(unsafe_code)]

pub mod commands;
pub mod compare;
pub mod field;
pub mod history;
pub mod image;
pub mod monitor;
pub mod path;
pub mod policy;
pub mod random;
pub mod script;
pub mod sheet;
pub mod stored;
pub mod tables;
pub mod tally;
pub mod text;

/// A refusal number of document 01.
pub type Refusal = u8;
