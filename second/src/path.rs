//! Paths: their form, and which root decides.

use crate::sheet::{self, Root};
use crate::Refusal;

/// "one or more segments, each preceded by one "/", none empty, none "." or
/// "..", no zero byte, nothing after the last segment". The length is judged
/// elsewhere, for roots and for paths have limits of their own.
pub fn well_formed(path: &[u8]) -> bool {
    let Some((b'/', segments)) = path.split_first() else {
        return false;
    };
    segments.split(|&byte| byte == b'/').all(good_segment)
}

fn good_segment(segment: &[u8]) -> bool {
    !segment.is_empty() && segment != b"." && segment != b".." && !segment.contains(&0)
}

/// "A root covers a path that equals it or continues it with "/"."
fn covers(root: &[u8], path: &[u8]) -> bool {
    match path.strip_prefix(root) {
        Some(rest) => rest.is_empty() || rest[0] == b'/',
        None => false,
    }
}

/// What a path question answers: parts of the lent bytes.
pub struct Match<'a> {
    pub event: u8,
    pub root: &'a [u8],
    pub rest: &'a [u8],
}

/// "A path question judges the sheet first", then 34, 31, 32, 33 in the order
/// in which their line lists them.
pub fn question<'a>(sheet: &'a [u8], access: u32, path: &'a [u8]) -> Result<Match<'a>, Refusal> {
    let sheet = sheet::read(sheet)?;
    if access > 1 {
        return Err(34);
    }
    if path.is_empty() || path.len() > 255 {
        return Err(31);
    }
    if !well_formed(path) {
        return Err(32);
    }
    // "The longest covering root of that access decides."
    let covering = |root: &&Root| u32::from(root.access) == access && covers(root.path, path);
    let longest = sheet.roots.iter().filter(covering).max_by_key(|root| root.path.len());
    let root = longest.ok_or(33)?;
    Ok(Match { event: root.event, root: root.path, rest: &path[root.path.len()..] })
}
