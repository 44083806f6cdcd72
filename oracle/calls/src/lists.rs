//! The checks of a section that is read: each list's entries by number, and the numbers that no entry has.

use answers::flat::Flat;
use answers::{Model, Record, Refusal, Track};

use crate::call::{Arguments, Call};
use crate::checks::{Answer, Check, Span, refused_by};

pub struct Lists<'a, S, H> {
    pub section: &'a [u8],
    pub sampled: S,
    pub hand: H,
    /// Counts the lists, so that each asks for another of the huge numbers.
    pub turn: usize,
}

/// All numbers of a record but its interpolation, which a call of its own answers. Floats are the section's own bits.
fn numbers(flat: &Flat) -> Vec<u64> {
    flat.iter().filter(|(name, _)| *name != "interpolation").map(|(_, value)| *value).collect()
}

fn interpolation(flat: &Flat) -> Vec<u8> {
    flat.iter().filter(|(name, _)| *name == "interpolation").map(|(_, value)| *value as u8).collect()
}

/// Huge numbers: some wrap when they are multiplied by a width (58, 62, 31), cut to 32 bits, or added to.
const HUGE: [u64; 7] =
    [u64::MAX, u64::MAX / 58 + 1, 1 << 32, u64::MAX / 62 + 1, 1 << 63, u64::MAX / 31 + 1, u64::MAX - 1];

/// One list of records, and the calls for it.
struct Records<'r> {
    keyframe: Call,
    payload: Call,
    interpolation: Option<Call>,
    include_index: bool,
    records: &'r [Record],
}

impl<S: Fn(usize) -> Vec<usize>, H: FnMut(Check)> Lists<'_, S, H> {
    fn read(&mut self, call: Call, arguments: Arguments, numbers: Vec<u64>) {
        (self.hand)(Check { call, arguments, answer: Answer::Numbers(0, numbers) });
    }

    fn bytes(&mut self, call: Call, arguments: Arguments, bytes: Vec<u8>) {
        (self.hand)(Check { call, arguments, answer: Answer::Bytes(bytes) });
    }

    fn absent(&mut self, call: Call, arguments: Arguments) {
        let refusal = Refusal { number: 19, kind: None, values: Vec::new() };
        (self.hand)(Check { call, arguments, answer: refused_by(call, &refusal) });
    }

    /// Two numbers that a list of this length does not have: the first, and a huge one.
    fn beyond(&mut self, length: usize) -> [u64; 2] {
        self.turn += 1;
        [length as u64, HUGE[self.turn % HUGE.len()]]
    }

    pub fn model(&mut self, m: &Model, spans: &[Span]) {
        self.read(Call::ModelSummary, Arguments::default(), [numbers(&m.scalars), numbers(&m.sections)].concat());
        self.texts(m, spans);
        self.records_of(
            [Call::BoneKeyframe, Call::BonePayload],
            Some(Call::BoneInterpolation),
            [&m.initial_bone_keyframe_summaries, &m.bone_keyframe_summaries],
        );
        self.records_of(
            [Call::MorphKeyframe, Call::MorphPayload],
            None,
            [&m.initial_morph_keyframe_summaries, &m.morph_keyframe_summaries],
        );
        let initial = std::slice::from_ref(&m.initial_model_keyframe);
        self.records_of([Call::ModelKeyframe, Call::ModelPayload], None, [initial, &m.model_keyframe_summaries]);
        self.entries(false, initial);
        self.entries(true, &m.model_keyframe_summaries);
        self.states(Call::BoneState, &m.bone_state_summaries);
        self.states(Call::MorphState, &m.morph_state_summaries);
        self.states(Call::ConstraintState, &m.constraint_state_summaries);
        self.states(Call::OutsideParentState, &m.outside_parent_state_summaries);
    }

    pub fn camera(&mut self, track: &Track) {
        let calls = [Call::CameraKeyframe, Call::CameraPayload];
        self.track(Call::CameraSummary, calls, Some(Call::CameraInterpolation), track);
    }

    pub fn light(&mut self, track: &Track) {
        self.track(Call::LightSummary, [Call::LightKeyframe, Call::LightPayload], None, track);
    }

    fn track(&mut self, summary: Call, calls: [Call; 2], interpolation: Option<Call>, track: &Track) {
        self.read(summary, Arguments::default(), numbers(&track.scalars));
        let initial = std::slice::from_ref(&track.initial_keyframe);
        self.records_of(calls, interpolation, [initial, &track.keyframe_summaries]);
    }

    fn records_of(&mut self, calls: [Call; 2], interpolation: Option<Call>, lists: [&[Record]; 2]) {
        let [keyframe, payload] = calls;
        for (include_index, records) in [(false, lists[0]), (true, lists[1])] {
            self.records(&Records { keyframe, payload, interpolation, include_index, records });
        }
    }

    fn records(&mut self, list: &Records) {
        let arguments = |number| Arguments { include_index: list.include_index, number, entry: 0 };
        for number in (self.sampled)(list.records.len()) {
            let record = &list.records[number];
            let arguments = arguments(number as u64);
            self.read(list.keyframe, arguments, numbers(&record.scalars));
            self.bytes(list.payload, arguments, record.payload_bytes.clone());
            if let Some(call) = list.interpolation {
                self.bytes(call, arguments, interpolation(&record.scalars));
            }
        }
        for number in self.beyond(list.records.len()) {
            let calls = [Some(list.keyframe), Some(list.payload), list.interpolation];
            calls.into_iter().flatten().for_each(|call| self.absent(call, arguments(number)));
        }
    }

    /// A model record's bools and pairs.
    fn entries(&mut self, include_index: bool, records: &[Record]) {
        for number in (self.sampled)(records.len()) {
            let record = &records[number];
            let arguments = |entry| Arguments { include_index, number: number as u64, entry };
            for entry in (self.sampled)(record.constraint_states.len()) {
                let bool = u64::from(record.constraint_states[entry]);
                self.read(Call::ModelKeyframeConstraintState, arguments(entry as u64), vec![bool]);
            }
            for entry in (self.sampled)(record.outside_parent_indices.len()) {
                let pair = record.outside_parent_indices[entry].map(u64::from);
                self.read(Call::ModelKeyframeOutsideParent, arguments(entry as u64), pair.to_vec());
            }
            for entry in self.beyond(record.constraint_states.len()) {
                self.absent(Call::ModelKeyframeConstraintState, arguments(entry));
            }
            for entry in self.beyond(record.outside_parent_indices.len()) {
                self.absent(Call::ModelKeyframeOutsideParent, arguments(entry));
            }
        }
        for number in self.beyond(records.len()) {
            let arguments = Arguments { include_index, number, entry: 0 };
            self.absent(Call::ModelKeyframeConstraintState, arguments);
            self.absent(Call::ModelKeyframeOutsideParent, arguments);
        }
    }

    fn states(&mut self, call: Call, states: &[Flat]) {
        let arguments = |number| Arguments { number, ..Arguments::default() };
        for number in (self.sampled)(states.len()) {
            self.read(call, arguments(number as u64), numbers(&states[number]));
        }
        for number in self.beyond(states.len()) {
            self.absent(call, arguments(number));
        }
    }

    fn texts(&mut self, m: &Model, spans: &[Span]) {
        let whole = Arguments::default();
        let (own, lists) = spans.split_at(2);
        let (bones, morphs) = lists.split_at(m.bone_names.len());
        self.text([Call::NameSpan, Call::Name], whole, own[0]);
        self.text([Call::EnglishNameSpan, Call::EnglishName], whole, own[1]);
        let path_offset = m.scalars.iter().find(|(name, _)| *name == "path_offset").expect("a scalar").1;
        self.read(Call::PathSpan, whole, vec![path_offset, m.path.len() as u64]);
        self.bytes(Call::Path, whole, m.path.clone());
        for (calls, spans) in
            [([Call::BoneNameSpan, Call::BoneName], bones), ([Call::MorphNameSpan, Call::MorphName], morphs)]
        {
            let arguments = |number| Arguments { number, ..whole };
            for number in (self.sampled)(spans.len()) {
                self.text(calls, arguments(number as u64), spans[number]);
            }
            for number in self.beyond(spans.len()) {
                calls.into_iter().for_each(|call| self.absent(call, arguments(number)));
            }
        }
    }

    fn text(&mut self, [span, text]: [Call; 2], arguments: Arguments, (offset, length): Span) {
        self.read(span, arguments, vec![offset, length]);
        let bytes = &self.section[offset as usize..(offset + length) as usize];
        self.bytes(text, arguments, bytes.to_vec());
    }
}
