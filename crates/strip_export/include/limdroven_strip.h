/* The calls of the static library libstrip_export.a (tools/archives builds it), for C: a section's strip, and a strip read back.

   A section or a strip is lent as a pointer and a length in bytes; `start` is a section's offset in them. Each slice that is written is
   lent as a pointer and a length in elements. A pointer must be good for that many elements; with the length 0 it is not followed. No slice
   that is written may overlap another slice. The calls take every other value of their arguments, and keep nothing.

   The strip call. With A additional bones and B additional morphs, `first` and `second` need A + B places each. It returns 0 and writes
   the strip into `output`; into `first` the positions of the bone records by rising index and behind them those of the morph records,
   both counted from 0; into `second`, for the bone records and behind them for the morph records, in file order, the record's track
   number plus 1, or 0 if it is loose; and the strip's length, reached and loose into `values`. Or it returns the refusal's number and
   writes its values into `values`:

      1   the bytes end inside a value, or the start is past the end           the offset of the item that is not whole
      2   a count is negative                                                  the offset of the count
      3   an additional record's index is negative                             kind, index
      4   an additional record's index is below its kind's number of tracks    kind, index, number of tracks
      5   two additional records of a kind have the same index                 kind, index
      6   no additional record of the kind has the index that a link names     kind, track, link
      7   a chain comes back to a record of its own                            kind, track, link
      8   a record's previous link is not the one it was reached from          kind, track, link, found, expected
     10   a key's frame is negative                                            kind, track, frame
     11   two keys of a track have the same frame                              kind, track, frame
     12   a bone key's translation is not finite                               track, frame
     13   a bone key's orientation is not finite, or its squared length        track, frame
          is not above 2^-23
     14   a morph key's weight is not finite                                   track, frame
     15   records that no chain reaches have a nonzero link                    kind, how many records
     16   more than 16,777,215 bytes are lent                                  none
     17   `first` or `second` has fewer than A + B places                      A + B
     18   `output` is shorter than the strip                                   the strip's length
     20   more than 65,535 bones or morphs, or more than 65,534 additional     the offset of the count
          records of either

   The first refusal met is returned. 16 is tested first; then the section is read, and 1, 2 and 20 are met in file order, at a count
   in this order; 17 is tested after reading. Then the bones: 3 to 5 record by record in file order; then track by track the whole
   chain, at each link 6, 7 and 8 in this order, and behind it each key, the initial one first, 10 to 13 in this order; then 15. Then
   the same for the morphs, with 14 in place of 12 and 13. 18 is tested last.

   The kind is 0 for a bone, 1 for a morph; 12 and 13 are always bones', 14 morphs'. A negative i32 is written as its 32-bit pattern
   (below 2^32). 9, a record in two tracks, is never met. `values` is written from place 0 on as far as it reaches. A refusal leaves
   `output` as it was; 3 to 15 and 18 leave the first A + B places of `first` and `second` 0, other refusals leave them as they were.
   Later places of every slice stay as they were.

   No strip is longer than the bytes lent, and A and B are at most 65,534 each: an output as long as all bytes that are lent is always
   enough and is filled the fastest, because the strip is then not measured before it is written.

   A strip read back. Each call judges the whole strip. It returns 0 and writes its answer's numbers into `values` from place 0 on as far as
   it reaches, later places staying as they were; or it returns the number of a refusal, which has no value, and writes nothing:

     16   more than 16,777,215 bytes are lent
     23   the strip ends early, or has bytes left over
     24   a bone's map is above 15, or a morph's above 1
     25   the strip has what the strip call never writes: a plain field present, a curve byte above 127, a float that is not finite, an
          orientation too short, a frame above 2,147,483,647 or repeated in its track, a track without keys, or more than 65,534 keys of
          one kind besides the first of each track
     19   there is no track or key of that number; a kind other than 0 and 1 is a track not there

   16 is tested first; then the strip is read from its front, and the first refusal met is returned: 23 at a count, a frame, a map or a
   field that is not whole, 24 at the map, 25 at the end of the key concerned, for a repeated frame at the later key, and at a track's
   end for no keys or the sum; 23 for bytes left over at the end; 19 last.

   A kind is 0 for bones, 1 for morphs; tracks and places count from 0. A key is 13 numbers: frame, map, then of a bone translation (3),
   orientation (4) and the curves of x, y, z and rotation (4), of a morph the weight and ten zeros. A float is its 32 bits, a curve the
   little-endian number of its four bytes, so that its first byte is the lowest. An absent field is its plain value: 0 0 0 of a translation,
   0 0 0 1 of an orientation, 20 20 107 107 of a curve, 0 of a weight.
*/
#ifndef LIMDROVEN_STRIP_H
#define LIMDROVEN_STRIP_H

#include <stddef.h>
#include <stdint.h>

#ifdef __cplusplus
extern "C" {
#endif

uint32_t limdroven_strip(const uint8_t *section, size_t section_length, size_t start, uint16_t *first, size_t first_length,
                         uint16_t *second, size_t second_length, uint8_t *output, size_t output_length, uint64_t *values,
                         size_t values_length);

/* How many tracks a strip has: of bones, of morphs. */
uint32_t limdroven_strip_counts(const uint8_t *strip, size_t strip_length, uint64_t *values, size_t values_length);

/* How many keys a track has. */
uint32_t limdroven_strip_key_count(const uint8_t *strip, size_t strip_length, uint32_t kind, uint32_t track, uint64_t *values,
                                   size_t values_length);

/* The key in a place of a track: 13 numbers. */
uint32_t limdroven_strip_key(const uint8_t *strip, size_t strip_length, uint32_t kind, uint32_t track, size_t place, uint64_t *values,
                             size_t values_length);

/* All keys in the strip's order, from number `first` on, in one reading: each is a row of 16 numbers: kind, track, place and the key's 13.
   Whole rows are written into `rows` as far as they fit; later places stay as they were, and where the strip is refused all places. The
   number in `values` is how many keys the strip has; 19 is not met. */
uint32_t limdroven_strip_keys(const uint8_t *strip, size_t strip_length, size_t first, uint32_t *rows, size_t rows_length, uint64_t *values,
                              size_t values_length);

#ifdef __cplusplus
}
#endif

#endif
