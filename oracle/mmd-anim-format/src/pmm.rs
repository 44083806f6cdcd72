//! `pmm.rs` as it stands, and the doors to its private readers.

include!(concat!(env!("MMD_ANIM_FORMAT"), "/pmm.rs"));

fn cursor(section: &[u8], start: usize) -> PmmDocumentCursor<'_> {
    let mut cursor = PmmDocumentCursor::new(section);
    cursor.inner.pos = start;
    cursor
}

/// `read_document_model_summary` at a start, for slot 0 and with no asset references.
pub fn oracle_model(section: &[u8], start: usize) -> Option<PmmDocumentModelSummary> {
    read_document_model_summary(&mut cursor(section, start), 0, &[])
}

/// `read_document_camera_summary` at a start.
pub fn oracle_camera(section: &[u8], start: usize) -> Option<PmmDocumentTrackSummary> {
    read_document_camera_summary(&mut cursor(section, start))
}

/// `read_document_light_summary` at a start.
pub fn oracle_light(section: &[u8], start: usize) -> Option<PmmDocumentTrackSummary> {
    read_document_light_summary(&mut cursor(section, start))
}

/// `normalize_path`.
pub fn oracle_normalize_path(path: &str) -> String {
    normalize_path(path)
}

/// A reference with what `asset_reference_index_for_path` looks at: its kind, and its text as the normalised path.
pub fn oracle_reference(kind: &'static str, text: &str) -> PmmAssetReference {
    PmmAssetReference {
        path: String::new(),
        normalized_path: text.to_owned(),
        file_name: String::new(),
        extension: String::new(),
        kind,
        offset: 0,
        offset_end: 0,
        confidence: "",
    }
}

/// `asset_reference_index_for_path`.
pub fn oracle_asset_reference_index(references: &[PmmAssetReference], kind: &str, path: &str) -> Option<usize> {
    asset_reference_index_for_path(references, kind, path)
}
