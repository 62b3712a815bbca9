/*
 * Tries, applies and measures one unit of a synthetic luma picture: an edge, and the same
 * with noise. filter.rs does the same and prints the same.
 */
#include "cdef.h"

#include <inttypes.h>
#include <stdio.h>
#include <string.h>

enum { SIDE = 64, SAMPLES = SIDE * SIDE, BLOCKS = SAMPLES / 64, TRIALS = 12 };
enum { DEPTH = 8, DAMPING = 5, UNSTATED = 0 };

static const uint8_t primaries[] = {0, 1, 2, 4};

static uint16_t original[SAMPLES], snapshot[SAMPLES], filtered[SAMPLES], scratch[SIDE * 8];
static uint8_t skip[BLOCKS], dirs[BLOCKS];
static uint32_t vars[BLOCKS];
static int64_t tried[TRIALS], measured;

/* The original is a slanted edge; the snapshot is the same with noise. */
static void make_picture(void)
{
    uint32_t state = 1;
    for (int i = 0; i < SAMPLES; i++) {
        int x = i % SIDE, y = i / SIDE;
        state = state * 1664525u + 1013904223u;
        original[i] = (uint16_t)(2 * x + y > 90 ? 170 : 80);
        snapshot[i] = (uint16_t)(original[i] + (state >> 24) % 7 - 3);
    }
}

/* 1 where a call was rejected; prints its error code. */
static int refused(const char *call, uint32_t number)
{
    if (number != 0)
        printf("%s: error code %" PRIu32 "\n", call, number);
    return number != 0;
}

static int find_directions(void)
{
    return refused("direction pass", quern_direction_pass(dirs, BLOCKS, vars, BLOCKS, snapshot,
                                                          SAMPLES, SIDE, SIDE, DEPTH));
}

static int try_pairs(void)
{
    return refused("trying", quern_try_luma(tried, TRIALS, snapshot, SAMPLES, original, SAMPLES,
                                            SIDE, SIDE, SIDE, SIDE, DEPTH, skip, BLOCKS, dirs,
                                            BLOCKS, vars, BLOCKS, DAMPING, UNSTATED));
}

/* Taps read the snapshot; the result is written into a copy of it. */
static int apply(uint8_t primary, uint8_t secondary)
{
    memcpy(filtered, snapshot, sizeof filtered);
    return refused("applying", quern_apply_luma(filtered, SAMPLES, snapshot, SAMPLES, SIDE, SIDE,
                                                DEPTH, skip, BLOCKS, dirs, BLOCKS, vars, BLOCKS,
                                                &primary, 1, &secondary, 1, DAMPING,
                                                UNSTATED));
}

/* With the pair 0, 0: the filtered plane as it stands. */
static int measure(void)
{
    return refused("measuring", quern_measure_luma(&measured, 1, scratch, SIDE * 8, filtered,
                                                   SAMPLES, original, SAMPLES, SIDE, SIDE, SIDE,
                                                   SIDE, DEPTH, skip, BLOCKS, dirs, BLOCKS, vars,
                                                   BLOCKS, 0, 0, DAMPING, UNSTATED));
}

int main(void)
{
    make_picture();
    if (find_directions() || try_pairs())
        return 1;
    int least = 0;
    for (int t = 0; t < TRIALS; t++) {
        printf("pair %d, %d: total %" PRId64 "\n", primaries[t % 4], t / 4, tried[t]);
        if (tried[t] < tried[least])
            least = t;
    }
    uint8_t primary = primaries[least % 4], secondary = (uint8_t)(least / 4);
    if (apply(primary, secondary) || measure())
        return 1;
    int agree = measured == tried[least];
    printf("least: pair %d, %d\n", primary, secondary);
    printf("measured: %" PRId64 ", %s\n", measured, agree ? "as tried" : "NOT as tried");
    return agree ? 0 : 1;
}
