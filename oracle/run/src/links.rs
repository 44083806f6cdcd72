//! One plain walk along the next links of all tracks, for comparison: what it costs to meet the records in the order of their chains.

use std::hint::black_box;

use answers::model;

/// Where the next link stands in an additional record.
const NEXT: usize = 12;
/// And in an initial one.
const INITIAL_NEXT: usize = 8;

/// The chains of the one kind that a shape has.
pub struct Links {
    /// The offsets of the initial records.
    initials: Vec<usize>,
    /// The offset of the record that bears an index.
    by_index: Vec<Option<u32>>,
    records: usize,
}

impl Links {
    pub fn of(morphs: bool, section: &[u8]) -> Self {
        let summary = model::summary(section, 0).expect("read");
        let (initials, records): (Vec<usize>, Vec<(i32, usize)>) = if morphs {
            let (initials, records) = (&summary.initial_morph_keyframe_summaries, &summary.morph_keyframe_summaries);
            (
                initials.iter().map(|r| r.offset).collect(),
                records.iter().map(|r| (r.index.unwrap_or(0), r.offset)).collect(),
            )
        } else {
            let (initials, records) = (&summary.initial_bone_keyframe_summaries, &summary.bone_keyframe_summaries);
            (
                initials.iter().map(|r| r.offset).collect(),
                records.iter().map(|r| (r.index.unwrap_or(0), r.offset)).collect(),
            )
        };
        let greatest = records.iter().map(|(index, _)| *index).max().unwrap_or(0);
        let mut by_index = vec![None; greatest as usize + 1];
        records.iter().for_each(|(index, offset)| by_index[*index as usize] = Some(*offset as u32));
        Self { initials, by_index, records: records.len() }
    }

    /// At most as many links as there are records, so that a cycle ends.
    pub fn walk(&self, section: &[u8]) {
        let section = black_box(section);
        let mut left = self.records;
        let mut sum = 0u64;
        for initial in &self.initials {
            let mut link = read(section, initial + INITIAL_NEXT);
            while let Some(Some(offset)) = self.by_index.get(link as usize).filter(|_| link != 0 && left != 0) {
                left -= 1;
                link = read(section, *offset as usize + NEXT);
                sum += u64::from(link);
            }
        }
        black_box(sum);
    }
}

fn read(section: &[u8], at: usize) -> u32 {
    u32::from_le_bytes(section[at..at + 4].try_into().expect("four bytes"))
}
