/* The calls of the static library libexports.a (tools/archives builds it), for C.

   A section is lent as a pointer and a length in bytes; `start` is the section's offset in them. A slice that a call writes is lent as
   a pointer and a length in elements. A pointer must be good for that many elements; with the length 0 it is not followed. A slice
   that is written may not overlap the section. `include_index` is 0 or 1: 0 for initial records, 1 for additional ones, which include
   an index. `number` and `entry` count from 0. Each call takes every other value of its arguments, and keeps nothing.

   Calls that answer numbers. They return 0, or the refusal's number:

      1   the bytes end inside a value, or the start is past the end          value: the offset of the item that is not whole
      2   a count is negative                                                 value: the offset of the count
     16   more than 16,777,215 bytes are lent                                 no value
     19   there is no record, name, state or entry of that number             no value
     20   more than 65,535 bones or morphs, or more than 65,534 additional    value: the offset of the count
          records of either (not in camera and light sections)

   The first refusal met is returned. 16 is tested first; then the section is read, and 1, 2 and 20 are met in file order, at a count
   in this order; 19 is tested after the whole section is read.

   The answer's numbers, or the refusal's value, are written into `values` from place 0 on as far as it reaches; later places
   stay as they were. An i32 is written as its 32-bit pattern (below 2^32), a bool as 0 or 1, an f32 as the section's own 32
   bits, those of a NaN too, the index of an initial record, which has none, as 2^64 - 1.

   A path looked up in a list of asset references is a call that answers a number, and has no section. It returns 0 or

     16   more than 16,777,215 bytes are lent, as path or as list             no value
     21   the list ends inside an entry                                       no value
     22   a byte above 127 stands in the path or in the text of an entry      no value

   in this order, each tested over all of the path and the list.

   Calls that answer bytes. They return the length of the part and write its bytes into `output` from place 0 on as far as
   it reaches; later places stay as they were. Where the call that answers numbers for the same arguments refuses, the part is empty.
*/
#ifndef LIMDROVEN_H
#define LIMDROVEN_H

#include <stdbool.h>
#include <stddef.h>
#include <stdint.h>

#ifdef __cplusplus
extern "C" {
#endif

/* The summary of a model section, 43 numbers: document_model_index, offset, offset_end, path_offset, bone_count, morph_count,
   constraint_bone_count, outside_parent_subject_bone_count, draw_order_index, transform_order_index, selected_bone_index,
   selected_morph_indices (4), vertical_scroll, initial_bone_keyframes, bone_keyframes, initial_morph_keyframes, morph_keyframes,
   initial_model_keyframes, model_keyframes, last_frame_index, visible, blend_enabled, edge_width, self_shadow_enabled; then the offsets
   initial_bone_keyframes, bone_keyframe_count, bone_keyframes, bone_keyframes_end, initial_morph_keyframes, morph_keyframe_count,
   morph_keyframes, morph_keyframes_end, initial_model_keyframe, model_keyframe_count, model_keyframes, model_keyframes_end,
   bone_states, morph_states, constraint_states, outside_parent_states. */
uint32_t limdroven_model_summary(const uint8_t *section, size_t section_len, size_t start, uint64_t *values, size_t values_len);

/* A bone record, 17 numbers: index, frame_index, previous_keyframe_index, next_keyframe_index, translation (3), orientation (4),
   physics_disabled, selected, offset, byte_length, payload_offset, payload_byte_length. */
uint32_t limdroven_bone_keyframe(const uint8_t *section, size_t section_len, size_t start, bool include_index, size_t number, uint64_t *values, size_t values_len);

/* A morph record, 10 numbers: index, frame_index, previous_keyframe_index, next_keyframe_index, weight, selected, offset, byte_length,
   payload_offset, payload_byte_length. */
uint32_t limdroven_morph_keyframe(const uint8_t *section, size_t section_len, size_t start, bool include_index, size_t number, uint64_t *values, size_t values_len);

/* A model record, 18 numbers: index, frame_index, previous_keyframe_index, next_keyframe_index, visible, self_shadow_enabled,
   visible_offset, constraint_state_count, constraint_states_offset, constraint_states_byte_length, outside_parent_index_count,
   outside_parent_indices_offset, outside_parent_indices_byte_length, self_shadow_enabled_offset, offset, byte_length, payload_offset,
   payload_byte_length. */
uint32_t limdroven_model_keyframe(const uint8_t *section, size_t section_len, size_t start, bool include_index, size_t number, uint64_t *values, size_t values_len);

/* Bool `entry` of model record `number`: the bool. */
uint32_t limdroven_model_keyframe_constraint_state(const uint8_t *section, size_t section_len, size_t start, bool include_index, size_t number, size_t entry, uint64_t *values, size_t values_len);

/* Pair `entry` of model record `number`: parent_model_index, parent_model_bone_index. */
uint32_t limdroven_model_keyframe_outside_parent(const uint8_t *section, size_t section_len, size_t start, bool include_index, size_t number, size_t entry, uint64_t *values, size_t values_len);

/* A bone's state, 10 numbers: translation (3), orientation (4), dirty, physics_disabled, selected. */
uint32_t limdroven_bone_state(const uint8_t *section, size_t section_len, size_t start, size_t number, uint64_t *values, size_t values_len);

/* A morph's state: the weight. */
uint32_t limdroven_morph_state(const uint8_t *section, size_t section_len, size_t start, size_t number, uint64_t *values, size_t values_len);

/* A constraint's state: the bool. */
uint32_t limdroven_constraint_state(const uint8_t *section, size_t section_len, size_t start, size_t number, uint64_t *values, size_t values_len);

/* An outside parent's state: parent_model_index, parent_model_bone_index, subject_bone_index, target_model_index. */
uint32_t limdroven_outside_parent_state(const uint8_t *section, size_t section_len, size_t start, size_t number, uint64_t *values, size_t values_len);

/* Where a text's own bytes stand in the lent bytes, a name's behind its length byte: offset, length. */
uint32_t limdroven_name_span(const uint8_t *section, size_t section_len, size_t start, uint64_t *values, size_t values_len);
uint32_t limdroven_english_name_span(const uint8_t *section, size_t section_len, size_t start, uint64_t *values, size_t values_len);
uint32_t limdroven_path_span(const uint8_t *section, size_t section_len, size_t start, uint64_t *values, size_t values_len);
uint32_t limdroven_bone_name_span(const uint8_t *section, size_t section_len, size_t start, size_t number, uint64_t *values, size_t values_len);
uint32_t limdroven_morph_name_span(const uint8_t *section, size_t section_len, size_t start, size_t number, uint64_t *values, size_t values_len);

/* The summary of a camera or light section, 9 numbers: offset, offset_end, initial_keyframes, keyframes, keyframe_count_offset,
   keyframes_offset, keyframes_end_offset, state_offset, state_end_offset. */
uint32_t limdroven_camera_summary(const uint8_t *section, size_t section_len, size_t start, uint64_t *values, size_t values_len);
uint32_t limdroven_light_summary(const uint8_t *section, size_t section_len, size_t start, uint64_t *values, size_t values_len);

/* A camera record, 32 numbers: index, frame_index, previous_keyframe_index, next_keyframe_index, distance, look_at (3), angle (3),
   parent_model_index, parent_model_bone_index, perspective_view, fov, selected, distance_offset, look_at_offset, look_at_byte_length,
   angle_offset, angle_byte_length, parent_model_index_offset, parent_model_bone_index_offset, interpolation_offset,
   interpolation_byte_length, perspective_view_offset, fov_offset, selected_offset, offset, byte_length, payload_offset,
   payload_byte_length. */
uint32_t limdroven_camera_keyframe(const uint8_t *section, size_t section_len, size_t start, bool include_index, size_t number, uint64_t *values, size_t values_len);

/* A light record, 20 numbers: index, frame_index, previous_keyframe_index, next_keyframe_index, color (3), direction (3), selected,
   color_offset, color_byte_length, direction_offset, direction_byte_length, selected_offset, offset, byte_length, payload_offset,
   payload_byte_length. */
uint32_t limdroven_light_keyframe(const uint8_t *section, size_t section_len, size_t start, bool include_index, size_t number, uint64_t *values, size_t values_len);

/* Which reference of a list a path is: the number, from 0, of the first model's entry whose text is the normalised path in any ASCII
   letter case, or 2^64 - 1 where none is. A list is entries one behind the other: a kind byte (1 a model; entries of every other kind are
   counted and passed over), a u16 length, its lower byte first, and that many bytes of text, which is already normalised. Of the path
   backslashes become slashes, then each two slashes one, in one pass from the left; it is then cut to start at its last `userfile/`, in any
   letter case, that opens it or follows a slash. The path is taken whole: a zero byte does not end it. `values` may overlap neither path
   nor list. */
uint32_t limdroven_asset_reference_index_for_path(const uint8_t *path, size_t path_len, const uint8_t *list, size_t list_len, uint64_t *values, size_t values_len);

/* The model's name, its English name, its path; a bone's or a morph's name: the bytes as they stand. */
size_t limdroven_name(const uint8_t *section, size_t section_len, size_t start, uint8_t *output, size_t output_len);
size_t limdroven_english_name(const uint8_t *section, size_t section_len, size_t start, uint8_t *output, size_t output_len);
size_t limdroven_path(const uint8_t *section, size_t section_len, size_t start, uint8_t *output, size_t output_len);
size_t limdroven_bone_name(const uint8_t *section, size_t section_len, size_t start, size_t number, uint8_t *output, size_t output_len);
size_t limdroven_morph_name(const uint8_t *section, size_t section_len, size_t start, size_t number, uint8_t *output, size_t output_len);

/* A record's payload: what follows its base. */
size_t limdroven_bone_payload(const uint8_t *section, size_t section_len, size_t start, bool include_index, size_t number, uint8_t *output, size_t output_len);
size_t limdroven_morph_payload(const uint8_t *section, size_t section_len, size_t start, bool include_index, size_t number, uint8_t *output, size_t output_len);
size_t limdroven_model_payload(const uint8_t *section, size_t section_len, size_t start, bool include_index, size_t number, uint8_t *output, size_t output_len);
size_t limdroven_camera_payload(const uint8_t *section, size_t section_len, size_t start, bool include_index, size_t number, uint8_t *output, size_t output_len);
size_t limdroven_light_payload(const uint8_t *section, size_t section_len, size_t start, bool include_index, size_t number, uint8_t *output, size_t output_len);

/* A camera record's interpolation: its 24 bytes. */
size_t limdroven_camera_interpolation(const uint8_t *section, size_t section_len, size_t start, bool include_index, size_t number, uint8_t *output, size_t output_len);

/* A bone record's interpolation, 16 bytes: the curves of x, y, z and rotation, four bytes each. */
size_t limdroven_bone_interpolation(const uint8_t *section, size_t section_len, size_t start, bool include_index, size_t number, uint8_t *output, size_t output_len);

#ifdef __cplusplus
}
#endif

#endif
