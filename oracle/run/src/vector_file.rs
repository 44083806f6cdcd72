//! The files that `crates/replay` reads: sections, each with its checks. The format is in this folder's README.

/// The longest section that is taken.
pub const LONGEST_SECTION: usize = 1_400;
/// What the program has room for: a section, its checks, and the slices that they lend.
const ROOM_FOR_SECTION: usize = 4_096;
const ROOM_FOR_CHECKS: usize = 65_536;
pub const ROOM_FOR_PLACES: usize = 64;
pub const ROOM_FOR_NUMBERS: usize = 64;
pub const ROOM_FOR_BYTES: usize = 4_096;
pub const ROOM_FOR_ROWS: usize = 256;

/// A sample, as the program that replays it is given it, and what the program is to write of it.
pub struct Sample {
    /// The sections, and some of them with numbers changed, by the files' names.
    pub data: [(&'static str, Vec<u8>); 2],
    pub stdout: String,
    /// What the sample holds, so that a lack is seen.
    pub told: String,
}

/// One section with its checks.
#[derive(Clone)]
pub struct Vector<C> {
    pub family: &'static str,
    pub start: u64,
    pub section: Vec<u8>,
    pub checks: Vec<C>,
}

/// A check as it is written; `turn` counts the checks of its section.
pub trait Written {
    fn written(&self, turn: usize) -> Vec<u8>;
}

impl<C: Written> Vector<C> {
    pub fn bytes(&self) -> Vec<u8> {
        let checks: Vec<u8> = self.checks.iter().enumerate().flat_map(|(turn, check)| check.written(turn)).collect();
        assert!(self.section.len() <= ROOM_FOR_SECTION && checks.len() <= ROOM_FOR_CHECKS && !checks.is_empty());
        let mut out = self.start.to_le_bytes().to_vec();
        out.extend((self.section.len() as u32).to_le_bytes());
        out.extend((checks.len() as u32).to_le_bytes());
        out.extend(&self.section);
        out.extend(checks);
        out
    }
}

pub fn bytes<C: Written>(vectors: &[Vector<C>]) -> Vec<u8> {
    vectors.iter().flat_map(Vector::bytes).collect()
}

/// A number of two bytes.
pub fn u16_bytes(number: usize) -> [u8; 2] {
    u16::try_from(number).expect("16 bits").to_le_bytes()
}
