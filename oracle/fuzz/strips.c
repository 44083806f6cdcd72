/* The strip call, and what it must answer. */
#include "../../crates/strip_export/include/limdroven_strip.h"
#include "harness.h"

/* What the call must answer where the slices are long enough, and the places that the work slices need. */
struct asked {
    const struct answer *read;
    struct built built;
    size_t need;
};

/* How many places are lent. */
struct rooms {
    size_t first, second, output;
    bool behind; /* the output directly behind the section */
};

/* Document 01's order: the refusals of reading, 17, those of the build, 18. */
static void strip_call(const struct asked *asked, struct rooms lent) {
    static const uint16_t zeros[LONGEST];
    const struct built *built = &asked->built;
    size_t need = asked->need, cleared = 0, values_lent = header[5] % 10;
    struct answer expected = *asked->read;
    bool accepted = false;
    if (expected.status == 0 && (lent.first < need || lent.second < need)) {
        expected = (struct answer){17, 1, {need}};
    } else if (expected.status == 0) {
        cleared = 2 * need;
        expected = built->answer;
        accepted = expected.status == 0;
        if (accepted && lent.output < built->length) {
            expected = (struct answer){18, 1, {built->length}};
            accepted = false;
        }
    }
    struct slice first = lend_slice(2 * lent.first, 3), second = lend_slice(2 * lent.second, 4);
    struct slice output = lent.behind ? lend_behind(lent.output, 5) : lend_slice(lent.output, 5);
    struct slice values = lend_slice(8 * values_lent, 1);
    making = "strip";
    uint32_t status = limdroven_strip(output.section, length, start, first.at, lent.first, second.at, lent.second, output.at,
                                      lent.output, values.at, values_lent);
    same_status(status, &expected);
    take_back(&values, expected.values, 8 * expected.count);
    making = "strip, first slice";
    take_back(&first, accepted ? built->first : zeros, cleared);
    making = "strip, second slice";
    take_back(&second, accepted ? built->second : zeros, cleared);
    making = "strip, output";
    take_back(&output, built->strip, accepted ? built->length : 0);
}

static size_t longer(size_t need, uint8_t byte) {
    int8_t more = (int8_t)byte;
    return more < 0 && (size_t)-more > need ? 0 : need + more;
}

/* With the header's slices, with just enough, and with an output as long as the section, for which the strip need not be measured. */
const struct built *strip_calls(const struct answer *read, const struct model *m) {
    static uint16_t first[LONGEST], second[LONGEST];
    static uint8_t strip[4 * LONGEST];
    static struct asked asked;
    asked = (struct asked){read, {.first = first, .second = second, .strip = strip}, 0};
    size_t output = 0;
    if (read->status == 0) {
        asked.need = m->bone.additional.count + m->morph.additional.count;
        making = "build";
        build(copy, m, &asked.built);
        hold(asked.built.answer.status != 9, "9 is never met");
        output = asked.built.answer.status == 0 ? asked.built.length : 0;
    }
    size_t need = asked.need, counted = header[7] & 4 ? length : output;
    strip_call(&asked, (struct rooms){longer(need, header[2]), longer(need, header[3]), longer(counted, header[4]), header[7] & 8});
    strip_call(&asked, (struct rooms){need, need, output, false});
    strip_call(&asked, (struct rooms){need, need, length, false});
    return output > 0 ? &asked.built : NULL;
}
