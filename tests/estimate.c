/* examples/estimate.h: an estimator over a line, and the size that is found with it, also where the difference is unknown. Compiles as C11 and as
 * C++17; silent, exit 0, if all is as it should be. */
#include "expect.h"

#include "../examples/estimate.h"

enum { HASH = TANDAWIRE_HASH_BYTES, ELEMENTS = 60 };

static uint8_t table[ELEMENTS * HASH], far_table[ELEMENTS * HASH], bytes[ESTIMATE_MOST];

/* Puts a bucket that no peel takes behind what was written, in the last place. Answers the length. */
static size_t spoil(size_t length)
{
    estimate_put(bytes + length, 2, TANDAWIRE_ESTIMATOR_PLACES - 1);
    memset(bytes + length + 2, 0, 12);
    estimate_put(bytes + length + 14, 2, 6);
    return length + ESTIMATE_BUCKET;
}

int main(void)
{
    tandawire_estimation e = {7, 7, 7};
    uint32_t size = 0;
    test = "estimate";
    size_t length = put_table(table, 1, 40), far_length = put_table(far_table, 31, 20), written = estimate_write(far_table, far_length, bytes);

    expect("known, no fault", estimate_difference(table, length, bytes, written, 3, &e, &size) == NULL, 1);
    expect("known", e.known, 1);
    expect("known, the difference", (size_t)e.estimate, 40);
    expect("known, the size", size, 121);

    /* 40 and 20 elements, and the 2 that the last bucket's COUNT stands for, twice. */
    written = spoil(written);
    expect("unknown, no fault", estimate_difference(table, length, bytes, written, 3, &e, &size) == NULL, 1);
    expect("unknown", e.known, 0);
    expect("unknown, no number", (size_t)e.estimate, 0);
    expect("unknown, the size for both tables", size, 125);

    expect("half a bucket", estimate_difference(table, length, bytes, written - 1, 3, &e, &size) == NULL, 0);
    expect("a table that is none", estimate_difference(table, length - 1, bytes, written, 3, &e, &size) == NULL, 0);
    return 0;
}
