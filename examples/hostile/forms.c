/* The two forms of a message. */
#include "hostile.h"

enum { LARGE_SHARE = 200 }; /* one trial of so many is in the large form, since it takes a hundred times as long */

static const struct sizes small = {
    .message = SARGACEU_SMALL_MESSAGE, .text = SARGACEU_SMALL_TEXT, .segments = SARGACEU_SMALL_SEGMENTS, .leaves = SARGACEU_SMALL_LEAVES,
    .output = SARGACEU_SMALL_OUTPUT, .values = SARGACEU_SMALL_VALUES, .segment_rows = 256, .leaf_rows = 2048
};

static const struct sizes large = {
    .message = SARGACEU_LARGE_MESSAGE, .text = SARGACEU_LARGE_TEXT, .segments = SARGACEU_LARGE_SEGMENTS, .leaves = SARGACEU_LARGE_LEAVES,
    .output = SARGACEU_LARGE_OUTPUT, .values = SARGACEU_LARGE_VALUES, .segment_rows = 4096, .leaf_rows = 65536
};

static size_t drawn;

uint8_t draw_form_of_two(void)
{
    if (!one_in(LARGE_SHARE))
        return SARGACEU_SMALL;
    drawn++;
    return SARGACEU_LARGE;
}

uint8_t draw_form(void)
{
    uint8_t form = draw_form_of_two(), other = (uint8_t)chance();
    return form == SARGACEU_SMALL && other != SARGACEU_LARGE && one_in(8) ? other : form;
}

size_t large_forms_drawn(void)
{
    size_t count = drawn;
    drawn = 0;
    return count;
}

const struct sizes *sizes_of(uint8_t form)
{
    return form == SARGACEU_LARGE ? &large : &small;
}
