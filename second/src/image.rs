//! The saved image: its bytes, and the numbers 41 to 43.

use crate::sheet::MARK;
use crate::tables::Tables;
use crate::Refusal;

pub const MOST_KEPT: usize = 64;

const HEADER: usize = 19;
const SESSION: usize = 7;

pub struct Image {
    pub total: u32,
    pub let_go: u32,
    /// The row of truths at the last session let go; 0 if there is none.
    pub row: u64,
    /// The kept sessions, oldest first.
    pub sets: Vec<u32>,
}

impl Image {
    /// "Header: B4 4D 08, total (4 bytes), let go (4), the row (8). Then for
    /// each kept session B4 4D 09 and its event set (4). Lowest byte first."
    pub fn bytes(&self) -> Vec<u8> {
        let mut bytes = Vec::with_capacity(HEADER + SESSION * self.sets.len());
        bytes.extend(MARK);
        bytes.push(8);
        bytes.extend(self.total.to_le_bytes());
        bytes.extend(self.let_go.to_le_bytes());
        bytes.extend(self.row.to_le_bytes());
        for set in &self.sets {
            bytes.extend(MARK);
            bytes.push(9);
            bytes.extend(set.to_le_bytes());
        }
        bytes
    }

    /// 42: "length, mark or kind wrong, over 64 kept, total not let go +
    /// kept, or a row that isn't 0 with none let go".
    pub fn read(bytes: &[u8]) -> Result<Image, Refusal> {
        let Image { total, let_go, row, sets } = Image::cut(bytes).ok_or(42)?;
        let sum = u64::from(let_go) + sets.len() as u64;
        if sets.len() > MOST_KEPT || u64::from(total) != sum || let_go == 0 && row != 0 {
            return Err(42);
        }
        Ok(Image { total, let_go, row, sets })
    }

    /// The parts of the bytes, where length, marks and kinds are right.
    fn cut(bytes: &[u8]) -> Option<Image> {
        let (header, behind) = bytes.split_at_checked(HEADER)?;
        let header = header.strip_prefix(&MARK)?.strip_prefix(&[8])?;
        let mut sets = Vec::new();
        for session in behind.chunks(SESSION) {
            let set = session.strip_prefix(&MARK)?.strip_prefix(&[9])?;
            sets.push(u32::from_le_bytes(set.try_into().ok()?));
        }
        Some(Image {
            total: u32::from_le_bytes(header[0..4].try_into().ok()?),
            let_go: u32::from_le_bytes(header[4..8].try_into().ok()?),
            row: u64::from_le_bytes(header[8..16].try_into().ok()?),
            sets,
        })
    }

    /// 43: "event or row bits outside the sheet, a session not allowed, or
    /// the oldest kept one closed". The sheet has passed 20.
    pub fn judge(&self, tables: &Tables) -> Result<(), Refusal> {
        let inside = |set: &u32| u64::from(*set) < 1 << tables.events;
        let row_inside = u128::from(self.row) < 1 << tables.nodes;
        let allowed = self.sets.iter().all(|set| inside(set) && tables.allowed(*set));
        let open = self.sets.first().is_none_or(|set| !tables.closed(*set));
        if row_inside && allowed && open {
            Ok(())
        } else {
            Err(43)
        }
    }
}

/// "Saving writes these at the front of the lent buffer and nothing behind
/// them"; 41 when they don't fit. Answers the image's length.
pub fn write(image: &[u8], buffer: &mut [u8]) -> Result<usize, Refusal> {
    let front = buffer.get_mut(..image.len()).ok_or(41)?;
    front.copy_from_slice(image);
    Ok(image.len())
}
