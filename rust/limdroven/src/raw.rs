//! The library's calls as C declares them (crates/exports/include/limdroven.h, crates/strip_export/include/limdroven_strip.h),
//! each taking slices. What is returned and written is the library's own. All `unsafe` of the crate is here.

/// Calls that are lent bytes and numbers, and a slice that they write.
macro_rules! declared {
    ($($symbol:ident $name:ident($lent:ident $(, $argument:ident: $type:ty)*; $slice:ident: $item:ty) -> $result:ty;)*) => {
        unsafe extern "C" {
            $(fn $symbol(
                $lent: *const u8,
                lent_length: usize,
                $($argument: $type,)*
                $slice: *mut $item,
                length: usize,
            ) -> $result;)*
        }

        $(pub fn $name($lent: &[u8], $($argument: $type,)* $slice: &mut [$item]) -> $result {
            // SAFETY: both pointers are those of slices with these lengths, which live through the call and, as one of them
            // is borrowed mutably, do not overlap; the library reads and writes nothing outside them.
            unsafe { $symbol($lent.as_ptr(), $lent.len(), $($argument,)* $slice.as_mut_ptr(), $slice.len()) }
        })*
    };
}

/// Those that are lent a section, which begins at an offset of the bytes.
macro_rules! of_section {
    ($($symbol:ident $name:ident($($argument:ident: $type:ty),*; $slice:ident: $item:ty) -> $result:ty;)*) => {
        declared! { $($symbol $name(section, start: usize $(, $argument: $type)*; $slice: $item) -> $result;)* }
    };
}

of_section! {
    limdroven_model_summary model_summary(; values: u64) -> u32;
    limdroven_bone_keyframe bone_keyframe(include_index: bool, number: usize; values: u64) -> u32;
    limdroven_morph_keyframe morph_keyframe(include_index: bool, number: usize; values: u64) -> u32;
    limdroven_model_keyframe model_keyframe(include_index: bool, number: usize; values: u64) -> u32;
    limdroven_model_keyframe_constraint_state model_keyframe_constraint_state(
        include_index: bool, number: usize, entry: usize; values: u64) -> u32;
    limdroven_model_keyframe_outside_parent model_keyframe_outside_parent(
        include_index: bool, number: usize, entry: usize; values: u64) -> u32;
    limdroven_bone_state bone_state(number: usize; values: u64) -> u32;
    limdroven_morph_state morph_state(number: usize; values: u64) -> u32;
    limdroven_constraint_state constraint_state(number: usize; values: u64) -> u32;
    limdroven_outside_parent_state outside_parent_state(number: usize; values: u64) -> u32;
    limdroven_name_span name_span(; values: u64) -> u32;
    limdroven_english_name_span english_name_span(; values: u64) -> u32;
    limdroven_path_span path_span(; values: u64) -> u32;
    limdroven_bone_name_span bone_name_span(number: usize; values: u64) -> u32;
    limdroven_morph_name_span morph_name_span(number: usize; values: u64) -> u32;
    limdroven_camera_summary camera_summary(; values: u64) -> u32;
    limdroven_light_summary light_summary(; values: u64) -> u32;
    limdroven_camera_keyframe camera_keyframe(include_index: bool, number: usize; values: u64) -> u32;
    limdroven_light_keyframe light_keyframe(include_index: bool, number: usize; values: u64) -> u32;
    limdroven_name name(; output: u8) -> usize;
    limdroven_english_name english_name(; output: u8) -> usize;
    limdroven_path path(; output: u8) -> usize;
    limdroven_bone_name bone_name(number: usize; output: u8) -> usize;
    limdroven_morph_name morph_name(number: usize; output: u8) -> usize;
    limdroven_bone_payload bone_payload(include_index: bool, number: usize; output: u8) -> usize;
    limdroven_morph_payload morph_payload(include_index: bool, number: usize; output: u8) -> usize;
    limdroven_model_payload model_payload(include_index: bool, number: usize; output: u8) -> usize;
    limdroven_camera_payload camera_payload(include_index: bool, number: usize; output: u8) -> usize;
    limdroven_light_payload light_payload(include_index: bool, number: usize; output: u8) -> usize;
    limdroven_camera_interpolation camera_interpolation(include_index: bool, number: usize; output: u8) -> usize;
    limdroven_bone_interpolation bone_interpolation(include_index: bool, number: usize; output: u8) -> usize;
}

declared! {
    limdroven_strip_counts strip_counts(strip; values: u64) -> u32;
    limdroven_strip_key_count strip_key_count(strip, kind: u32, track: u32; values: u64) -> u32;
    limdroven_strip_key strip_key(strip, kind: u32, track: u32, place: usize; values: u64) -> u32;
}

unsafe extern "C" {
    fn limdroven_strip_keys(
        strip: *const u8,
        strip_length: usize,
        first: usize,
        rows: *mut u32,
        rows_length: usize,
        values: *mut u64,
        values_length: usize,
    ) -> u32;
}

pub fn strip_keys(strip: &[u8], first: usize, rows: &mut [u32], values: &mut [u64]) -> u32 {
    // SAFETY: the pointers are those of slices with these lengths, which live through the call and, as all but the strip
    // are borrowed mutably, do not overlap; the library reads and writes nothing outside them.
    unsafe {
        limdroven_strip_keys(
            strip.as_ptr(),
            strip.len(),
            first,
            rows.as_mut_ptr(),
            rows.len(),
            values.as_mut_ptr(),
            values.len(),
        )
    }
}

unsafe extern "C" {
    fn limdroven_asset_reference_index_for_path(
        path: *const u8,
        path_length: usize,
        list: *const u8,
        list_length: usize,
        values: *mut u64,
        values_length: usize,
    ) -> u32;
}

pub fn asset_reference_index_for_path(path: &[u8], list: &[u8], values: &mut [u64]) -> u32 {
    // SAFETY: the pointers are those of slices with these lengths, which live through the call and, as the values are
    // borrowed mutably, do not overlap them; the library reads and writes nothing outside them.
    unsafe {
        limdroven_asset_reference_index_for_path(
            path.as_ptr(),
            path.len(),
            list.as_ptr(),
            list.len(),
            values.as_mut_ptr(),
            values.len(),
        )
    }
}

unsafe extern "C" {
    fn limdroven_strip(
        section: *const u8,
        section_length: usize,
        start: usize,
        first: *mut u16,
        first_length: usize,
        second: *mut u16,
        second_length: usize,
        output: *mut u8,
        output_length: usize,
        values: *mut u64,
        values_length: usize,
    ) -> u32;
}

pub fn strip(
    section: &[u8],
    start: usize,
    first: &mut [u16],
    second: &mut [u16],
    output: &mut [u8],
    values: &mut [u64],
) -> u32 {
    // SAFETY: the pointers are those of slices with these lengths, which live through the call and, as all but the section
    // are borrowed mutably, do not overlap; the library reads and writes nothing outside them.
    unsafe {
        limdroven_strip(
            section.as_ptr(),
            section.len(),
            start,
            first.as_mut_ptr(),
            first.len(),
            second.as_mut_ptr(),
            second.len(),
            output.as_mut_ptr(),
            output.len(),
            values.as_mut_ptr(),
            values.len(),
        )
    }
}
