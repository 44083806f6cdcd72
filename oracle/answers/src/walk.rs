//! A walk over a section's items, written from document 01's tables and leaning on no reader. It tells where a section
//! ends or what stops it, with the place that the Rust does not give, and how much memory the Rust would reserve.

use mmd_anim_format::pmm::{
    PmmDocumentBoneKeyframeSummary, PmmDocumentBoneStateSummary, PmmDocumentKeyframeSummary,
    PmmDocumentModelKeyframeSummary, PmmDocumentMorphKeyframeSummary,
};

use crate::refusal::Refusal;

const LENGTH_LIMIT: usize = 16_777_215;
const TRACK_LIMIT: u64 = 65_535;
const ADDITIONAL_LIMIT: u64 = 65_534;

/// The Rust reserves memory for a count before it reads. No section that can be read within the limits makes it reserve
/// as much as this at once: where it would, the records counted do not fit in the bytes.
const MOST_RESERVED: u64 = 1 << 28;

pub struct Walked {
    /// The offset behind the section, or 1 or 2, as if there were no limits: the Rust reads just where this is an offset.
    pub end: Result<u64, Refusal>,
    /// 16 or the first 20 on the way there.
    pub limit: Option<Refusal>,
    /// The most bytes that the Rust would reserve at once.
    pub reserved: u64,
    /// Offset and length of each text: name, English name, bone names, morph names.
    pub texts: Vec<(u64, u64)>,
}

impl Walked {
    /// What document 01 says of reading this section.
    pub fn answer(&self) -> Result<u64, Refusal> {
        match &self.limit {
            Some(refusal) => Err(refusal.clone()),
            None => self.end.clone(),
        }
    }

    pub fn reserves_too_much(&self) -> bool {
        self.reserved >= MOST_RESERVED
    }
}

/// Whether the Rust might abort on this model section for want of memory.
pub fn would_reserve_too_much(section: &[u8], start: u64) -> bool {
    model(section, start).reserves_too_much()
}

pub fn model(section: &[u8], start: u64) -> Walked {
    walk(section, start, |walk| walk.model())
}

pub fn camera(section: &[u8], start: u64) -> Walked {
    walk(section, start, |walk| walk.track(&CAMERA, 37))
}

pub fn light(section: &[u8], start: u64) -> Walked {
    walk(section, start, |walk| walk.track(&LIGHT, 24))
}

// The widths of the items behind the base of a record, and of those of a state.
const BONE: [u64; 10] = [16, 4, 4, 4, 4, 4, 4, 4, 1, 1];
const MORPH: [u64; 2] = [4, 1];
const CAMERA: [u64; 13] = [4, 4, 4, 4, 4, 4, 4, 4, 4, 24, 1, 4, 1];
const LIGHT: [u64; 7] = [4, 4, 4, 4, 4, 4, 1];
const BONE_STATE: [u64; 10] = [4, 4, 4, 4, 4, 4, 4, 1, 1, 1];

type Step<T> = Result<T, Refusal>;

struct Walk<'a> {
    section: &'a [u8],
    at: u64,
    limit: Option<Refusal>,
    reserved: u64,
    texts: Vec<(u64, u64)>,
}

fn walk(section: &[u8], start: u64, way: impl Fn(&mut Walk) -> Step<()>) -> Walked {
    let too_long = section.len() > LENGTH_LIMIT;
    let limit = too_long.then(|| Refusal { number: 16, kind: None, values: Vec::new() });
    let mut walk = Walk { section, at: start, limit, reserved: 0, texts: Vec::new() };
    let end = way(&mut walk).map(|()| walk.at);
    Walked { end, limit: walk.limit, reserved: walk.reserved, texts: walk.texts }
}

impl<'a> Walk<'a> {
    /// One number, byte, string body or block.
    fn item(&mut self, width: u64) -> Step<&'a [u8]> {
        let left = (self.section.len() as u64).checked_sub(self.at);
        if left.is_none_or(|left| left < width) {
            return Err(Refusal::at(1, self.at));
        }
        let from = self.at as usize;
        self.at += width;
        Ok(&self.section[from..self.at as usize])
    }

    fn items(&mut self, widths: &[u64]) -> Step<()> {
        widths.iter().try_for_each(|width| self.item(*width).map(drop))
    }

    fn byte(&mut self) -> Step<u64> {
        Ok(u64::from(self.item(1)?[0]))
    }

    fn string(&mut self) -> Step<()> {
        let length = self.byte()?;
        self.texts.push((self.at, length));
        self.item(length).map(drop)
    }

    fn count(&mut self, limit: u64) -> Step<u64> {
        let place = self.at;
        let bytes = self.item(4)?.try_into().expect("four bytes");
        let count = u64::try_from(i32::from_le_bytes(bytes)).map_err(|_| Refusal::at(2, place))?;
        if count > limit && self.limit.is_none() {
            self.limit = Some(Refusal::at(20, place));
        }
        Ok(count)
    }

    fn reserve<T>(&mut self, count: u64) {
        self.reserved = self.reserved.max(count * size_of::<T>() as u64);
    }

    /// Records of which `base` numbers come first: three in initial ones, four in additional ones.
    fn records<T>(&mut self, count: u64, base: usize, widths: &[u64]) -> Step<()> {
        self.reserve::<T>(count);
        (0..count).try_for_each(|_| self.items(&[4; 4][..base]).and_then(|()| self.items(widths)))
    }

    fn names(&mut self) -> Step<u64> {
        let count = self.count(TRACK_LIMIT)?;
        (0..count).try_for_each(|_| self.string())?;
        Ok(count)
    }

    fn entries(&mut self) -> Step<u64> {
        let count = self.count(u64::MAX)?;
        self.item(4 * count)?;
        Ok(count)
    }

    fn model(&mut self) -> Step<()> {
        self.byte()?;
        self.string()?;
        self.string()?;
        self.items(&[256, 1])?;
        let bones = self.names()?;
        let morphs = self.names()?;
        let constraints = self.entries()?;
        let parents = self.entries()?;
        self.items(&[1, 1, 4, 4, 4, 4, 4])?;
        let expansion = self.byte()?;
        self.items(&[expansion, 4, 4])?;

        self.records::<PmmDocumentBoneKeyframeSummary>(bones, 3, &BONE)?;
        let additional = self.count(ADDITIONAL_LIMIT)?;
        self.records::<PmmDocumentBoneKeyframeSummary>(additional, 4, &BONE)?;
        self.records::<PmmDocumentMorphKeyframeSummary>(morphs, 3, &MORPH)?;
        let additional = self.count(ADDITIONAL_LIMIT)?;
        self.records::<PmmDocumentMorphKeyframeSummary>(additional, 4, &MORPH)?;
        let bools = vec![1; constraints as usize];
        let pairs = vec![4; 2 * parents as usize];
        let record = [vec![1], bools, pairs, vec![1]].concat();
        self.records::<PmmDocumentModelKeyframeSummary>(1, 3, &record)?;
        let additional = self.count(u64::MAX)?;
        self.records::<PmmDocumentModelKeyframeSummary>(additional, 4, &record)?;

        self.reserve::<PmmDocumentBoneStateSummary>(bones);
        (0..bones).try_for_each(|_| self.items(&BONE_STATE))?;
        (0..morphs).try_for_each(|_| self.items(&[4]))?;
        (0..constraints).try_for_each(|_| self.items(&[1]))?;
        (0..parents).try_for_each(|_| self.items(&[4; 4]))?;
        self.items(&[1, 4, 1, 1])
    }

    fn track(&mut self, widths: &[u64], state: u64) -> Step<()> {
        self.records::<PmmDocumentKeyframeSummary>(1, 3, widths)?;
        let additional = self.count(u64::MAX)?;
        self.records::<PmmDocumentKeyframeSummary>(additional, 4, widths)?;
        self.item(state).map(drop)
    }
}

#[cfg(test)]
mod tests {
    use super::*;

    /// What [`MOST_RESERVED`] says: the smallest records of each list, filling a section.
    #[test]
    fn sections_within_the_limits_reserve_less() {
        let fill = |width: u64| LENGTH_LIMIT as u64 / width;
        let counted = TRACK_LIMIT.max(ADDITIONAL_LIMIT) as usize;
        let reserved = [
            counted * size_of::<PmmDocumentBoneKeyframeSummary>(),
            counted * size_of::<PmmDocumentMorphKeyframeSummary>(),
            fill(18) as usize * size_of::<PmmDocumentModelKeyframeSummary>(),
            fill(41) as usize * size_of::<PmmDocumentKeyframeSummary>(),
        ];
        assert!(reserved.iter().all(|bytes| (*bytes as u64) < MOST_RESERVED));
    }
}
