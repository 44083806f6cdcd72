//! Sections described and written, after document 01's tables. Floats are given by their bits; bools by any byte.

#[derive(Debug, Clone)]
pub struct Model {
    pub number: u8,
    pub name: Vec<u8>,
    pub english_name: Vec<u8>,
    pub path: [u8; 256],
    pub ignored: u8,
    pub bone_names: Vec<Vec<u8>>,
    pub morph_names: Vec<Vec<u8>>,
    pub constraint_bones: Vec<i32>,
    pub outside_parents: Vec<i32>,
    /// Draw order, visible, selected bone, four selected morphs.
    pub display: [u8; 22],
    pub expansion: Vec<u8>,
    /// Vertical scroll and last frame.
    pub scroll: [u8; 8],
    pub bones: Tracks<Bone>,
    pub morphs: Tracks<Morph>,
    pub models: Tracks<Vec<u8>>,
    /// 31 bytes a bone, 4 a morph, 1 a constraint, 16 an outside parent.
    pub states: Vec<u8>,
    /// Blend, edge width, self shadow, transform order.
    pub ending: [u8; 7],
}

/// A camera or a light section: its records' bytes behind the base, and its state.
#[derive(Debug, Clone)]
pub struct Track {
    pub records: Tracks<Vec<u8>>,
    pub state: Vec<u8>,
}

/// The records of one kind; those of bones and morphs have one initial record for each track.
#[derive(Debug, Clone)]
pub struct Tracks<P> {
    pub initial: Vec<Record<P>>,
    pub additional: Vec<Record<P>>,
}

/// An initial record's index is not written.
#[derive(Debug, Clone)]
pub struct Record<P> {
    pub index: i32,
    pub frame: i32,
    pub previous: i32,
    pub next: i32,
    pub payload: P,
}

#[derive(Debug, Clone)]
pub struct Bone {
    pub interpolation: [u8; 16],
    pub translation: [u32; 3],
    pub orientation: [u32; 4],
    pub flags: [u8; 2],
}

#[derive(Debug, Clone)]
pub struct Morph {
    pub weight: u32,
    pub selected: u8,
}

pub trait Payload {
    fn write(&self, out: &mut Vec<u8>);
}

impl Payload for Bone {
    fn write(&self, out: &mut Vec<u8>) {
        out.extend(self.interpolation);
        let floats = self.translation.iter().chain(&self.orientation);
        floats.for_each(|bits| out.extend(bits.to_le_bytes()));
        out.extend(self.flags);
    }
}

impl Payload for Morph {
    fn write(&self, out: &mut Vec<u8>) {
        out.extend(self.weight.to_le_bytes());
        out.push(self.selected);
    }
}

impl Payload for Vec<u8> {
    fn write(&self, out: &mut Vec<u8>) {
        out.extend(self);
    }
}

/// A section's bytes, and where its counts stand.
#[derive(Debug, Clone, Default)]
pub struct Written {
    pub bytes: Vec<u8>,
    pub counts: Vec<(&'static str, usize)>,
}

impl Written {
    fn count(&mut self, name: &'static str, count: usize) {
        self.counts.push((name, self.bytes.len()));
        self.number(count as i32);
    }

    fn number(&mut self, number: i32) {
        self.bytes.extend(number.to_le_bytes());
    }

    fn string(&mut self, string: &[u8]) {
        self.bytes.push(u8::try_from(string.len()).expect("names of at most 255 bytes"));
        self.bytes.extend(string);
    }

    fn names(&mut self, count: &'static str, names: &[Vec<u8>]) {
        self.count(count, names.len());
        names.iter().for_each(|name| self.string(name));
    }

    fn entries(&mut self, count: &'static str, entries: &[i32]) {
        self.count(count, entries.len());
        entries.iter().for_each(|entry| self.number(*entry));
    }

    fn records<P: Payload>(&mut self, count: &'static str, tracks: &Tracks<P>) {
        tracks.initial.iter().for_each(|record| self.record(record));
        self.count(count, tracks.additional.len());
        for record in &tracks.additional {
            self.number(record.index);
            self.record(record);
        }
    }

    fn record<P: Payload>(&mut self, record: &Record<P>) {
        [record.frame, record.previous, record.next].into_iter().for_each(|number| self.number(number));
        record.payload.write(&mut self.bytes);
    }
}

impl Model {
    pub fn write(&self) -> Written {
        let mut out = Written::default();
        out.bytes.push(self.number);
        out.string(&self.name);
        out.string(&self.english_name);
        out.bytes.extend(self.path);
        out.bytes.push(self.ignored);
        out.names("bone count", &self.bone_names);
        out.names("morph count", &self.morph_names);
        out.entries("constraint count", &self.constraint_bones);
        out.entries("outside parent count", &self.outside_parents);
        out.bytes.extend(self.display);
        out.string(&self.expansion);
        out.bytes.extend(self.scroll);
        out.records("additional bone count", &self.bones);
        out.records("additional morph count", &self.morphs);
        out.records("additional model count", &self.models);
        out.bytes.extend(&self.states);
        out.bytes.extend(self.ending);
        out
    }
}

impl Track {
    pub fn write(&self) -> Written {
        let mut out = Written::default();
        out.records("additional count", &self.records);
        out.bytes.extend(&self.state);
        out
    }
}
