//! Strips written key by key, after document 01, "The strip".

use limdroven::{BoneKey, MorphKey, StripKey, StripRow, TrackIndex};

pub const PLAIN_CURVE: [u8; 4] = [20, 20, 107, 107];

/// A key's bytes: its fields, each as it is to stand, behind its frame and map.
pub fn key(frame: u32, map: u8, fields: &[&[u8]]) -> Vec<u8> {
    [&frame.to_le_bytes(), &[map][..], &fields.concat()].concat()
}

pub fn floats<const N: usize>(floats: [f32; N]) -> Vec<u8> {
    floats.map(f32::to_le_bytes).concat()
}

/// One track's keys behind their number.
pub fn track(keys: &[Vec<u8>]) -> Vec<u8> {
    [&count(keys.len()), &keys.concat()[..]].concat()
}

pub fn strip(bones: &[Vec<u8>], morphs: &[Vec<u8>]) -> Vec<u8> {
    [&count(bones.len()), &count(morphs.len()), &bones.concat()[..], &morphs.concat()].concat()
}

fn count(number: usize) -> [u8; 2] {
    u16::try_from(number).expect("a count").to_le_bytes()
}

/// A key with the fields that are not plain, whatever its map says.
pub fn written(key: &StripKey) -> Vec<u8> {
    match key {
        StripKey::Bone(BoneKey { frame, translation, orientation, curves, .. }) => of_groups(
            *frame,
            [
                (*translation != [0.0; 3]).then(|| floats(*translation)),
                (*orientation != [0.0, 0.0, 0.0, 1.0]).then(|| floats(*orientation)),
                (curves[..3] != [PLAIN_CURVE; 3]).then(|| curves[..3].concat()),
                (curves[3] != PLAIN_CURVE).then(|| curves[3].to_vec()),
            ],
        ),
        StripKey::Morph(MorphKey { frame, weight, .. }) => {
            of_groups(*frame, [(*weight != 0.0).then(|| floats([*weight]))])
        }
    }
}

fn of_groups<const N: usize>(frame: u32, groups: [Option<Vec<u8>>; N]) -> Vec<u8> {
    let map = groups.iter().enumerate().map(|(bit, group)| u8::from(group.is_some()) << bit).sum();
    key(frame, map, &groups.iter().flatten().map(Vec::as_slice).collect::<Vec<_>>())
}

/// The strip that has these keys, each track of which has at least one.
pub fn of_rows(rows: &[StripRow]) -> Vec<u8> {
    let (mut bones, mut morphs) = (Vec::new(), Vec::new());
    for rows in rows.chunk_by(|one, next| one.track == next.track) {
        let keys: Vec<_> = rows.iter().map(|row| written(&row.key)).collect();
        match rows[0].track {
            TrackIndex::Bone(_) => bones.push(track(&keys)),
            TrackIndex::Morph(_) => morphs.push(track(&keys)),
        }
    }
    strip(&bones, &morphs)
}
