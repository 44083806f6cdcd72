//! Sections at document 01's limits, and one step above them.

use crate::damage::{damaged, miscounted, misplaced};
use crate::prng::Prng;
use crate::sound::{self, Sizes};
use crate::{Case, Kind, lent};

const LENGTH_LIMIT: usize = 16_777_215;

const KINDS: u64 = 14;

pub fn large(prng: &Prng, _: u64, turn: u64) -> Case {
    let few = Sizes { bones: 2, morphs: 2, additional_bones: 9, additional_morphs: 9, loose_in: 6, ..Sizes::default() };
    let (label, sizes) = match turn % KINDS {
        0 => ("65535 bones", Sizes { bones: 65_535, ..few }),
        1 => ("65536 bones", Sizes { bones: 65_536, ..few }),
        2 => ("65535 morphs", Sizes { morphs: 65_535, ..few }),
        3 => ("65536 morphs", Sizes { morphs: 65_536, ..few }),
        4 => ("65534 additional bones", Sizes { additional_bones: 65_534, ..few }),
        5 => ("65535 additional bones", Sizes { additional_bones: 65_535, ..few }),
        6 => ("65534 additional morphs", Sizes { additional_morphs: 65_534, ..few }),
        7 => ("65535 additional morphs", Sizes { additional_morphs: 65_535, ..few }),
        8 => ("65535 keys in a track", Sizes { morphs: 1, additional_morphs: 65_534, loose_in: 1 << 40, ..few }),
        9 => ("many constraints and parents", Sizes { constraints: 70_000, parents: 70_000, ..few }),
        10 => ("many model records", Sizes { constraints: 1, additional_models: 70_000, ..few }),
        11 => return long(prng, LENGTH_LIMIT),
        12 => return long(prng, LENGTH_LIMIT + 1),
        _ => ("16777215 bytes, most before the start", few),
    };
    let mut model = sound::model(prng, sizes, |_| Vec::new());
    if prng.one_in(2) {
        prng.shuffle(&mut model.bones.additional);
        prng.shuffle(&mut model.morphs.additional);
    }
    let bytes = model.write().bytes;
    if turn % KINDS != 13 {
        return lent(prng, Kind::Model, label.into(), bytes);
    }
    let before = vec![1; LENGTH_LIMIT - bytes.len()];
    let start = before.len() as u64;
    Case { kind: Kind::Model, label: label.into(), section: [before, bytes].concat(), start }
}

/// Any small section, whole or not, and bytes behind it.
fn long(prng: &Prng, length: usize) -> Case {
    let mut case = [damaged, misplaced, miscounted][prng.below(3)](prng, prng.next(), prng.next() >> 1);
    case.section.resize(length, 1);
    case.label = format!("{length} bytes, {}", case.label);
    case
}
