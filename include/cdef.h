/*
 * The CDEF step of an AV1 encoder: the C entries of libcdef_c.a.
 *
 * Rules
 * - Every call but the last two validates its arguments by the questions below that concern
 *   it, in their order. It returns 0 when its work is done, or else the error code: the
 *   number of the first check that fails.
 * - On an error nothing of the caller's is modified. Where 0 is returned only what is named
 *   as written is modified.
 * - A list is a pointer and its length, counted in elements. The pointer is aligned, not
 *   null and valid for that length; not null also where the length is 0. A pointer
 *   without a length is to one number.
 * - What a call writes overlaps none of its other arguments.
 * - No call allocates memory or keeps state between calls.
 * - Sizes and positions are in samples. A plane is row after row, without gaps. Lists with
 *   one entry per block, or per unit, hold them row after row too.
 *
 * The nine questions
 * 1. Is the bit depth from 8 to 12?
 * 2. Are the plane's width and height from 1 to 4,096, and in frame calls, which are
 *    given luma's, multiples of 8?
 * 3. Is each chroma subsampling flag 0 or 1?
 * 4. Does every plane have exactly width x height samples? A chroma plane's sides are
 *    luma's, each shifted right by its flag.
 * 5. Is the block's corner on the plane (x < width, y < height), and each block side from
 *    1 to 8?
 * 6. Is the length of the block filter's destination a multiple of the plane width, y0 at
 *    most y, and y0 + its number of rows at least min(y + bh, plane height)?
 * 7. Has each list the right number of entries (a skip flag, a direction and, in luma, a
 *    variance per block; for applying a strength of each kind per unit; for trying 12
 *    totals per unit, for measuring one; 768 for the trial; plane width x block height for
 *    measuring's scratch), and is the visible size from 1 by 1 to the luma size?
 * 8. Is every skip flag, and the flag unstated, 0 or 1, every direction 0 to 7, every
 *    variance at most 860,160, and every strength, damping and quality index in its range?
 * 9. Is every examined sample below 2^depth? Block filter and trial also accept the mark
 *    16384, an unavailable sample; frame calls do not.
 *
 * Ranges of question 8
 * - Strengths. Frame calls: primary 0 to 15, secondary 0, 1, 2 or 4. The block filter:
 *   every working strength from 0 up to 15 (primary) or 4 (secondary) shifted left by
 *   depth - 8. quern_constrain and quern_adjust_pri: 0 to 240.
 * - Signalled damping 3 to 6 (frame calls where unstated is 0, quern_luma_damping,
 *   quern_chroma_damping). Working damping 0 to 31; the block filter and the trial take 0
 *   as 1, quern_constrain leaves it 0. Quality index (the frame header's
 *   base_q_idx) 0 to 255.
 *
 * Samples examined by question 9
 * - Direction and distances: the 8 by 8 block, cropped to the plane. Block filter and
 *   trial: the block extended by 2 on every side, cropped to the plane. Frame calls: the
 *   whole planes that are read. quern_constrain: a difference outside -4,095 to 4,095 is
 *   error code 9.
 */
#ifndef CDEF_H
#define CDEF_H

#include <stddef.h>
#include <stdint.h>

#ifdef __cplusplus
extern "C" {
#endif

/* ---- single numbers */

/* Constrains a difference with a strength and a working damping. Validates 8, 9.
 * Writes *out. */
uint32_t quern_constrain(int32_t difference, uint32_t strength, uint8_t damping, int32_t *out);

/* Adjusts a primary strength by a luma block's variance. Validates 8. Writes *out. */
uint32_t quern_adjust_pri(uint32_t strength, uint32_t variance, uint32_t *out);

/* The signalled damping of a quality index: 3 + min(index / 64, 3). Validates 8.
 * Writes *out. */
uint32_t quern_damping(uint32_t index, uint8_t *out);

/* The working damping of a luma plane: signalled + depth - 8. Validates 1, 8.
 * Writes *out. */
uint32_t quern_luma_damping(uint8_t signalled, uint8_t depth, uint8_t *out);

/* The working damping of a chroma plane: one less than luma's. Validates 1, 8.
 * Writes *out. */
uint32_t quern_chroma_damping(uint8_t signalled, uint8_t depth, uint8_t *out);

/* ---- one block of a plane */

/* Direction and variance of the 8 by 8 block at (x, y); past the right or bottom edge
 * the nearest sample repeats. Validates 1, 2, 4, 5, 9. Writes *direction and *variance. */
uint32_t quern_direction(const uint16_t *plane, size_t plane_len, size_t width, size_t height,
                         size_t x, size_t y, uint8_t depth, uint8_t *direction,
                         uint32_t *variance);

/* Filters the block at (x, y), bw by bh, with working strengths, a direction and a working
 * damping. A working strength is the signalled one << (depth - 8); luma's primary then goes
 * through quern_adjust_pri. The direction is used as given: to filter as quern_apply_luma and
 * quern_apply_chroma do, pass 0 where the signalled primary is 0; elsewhere map luma's 0..7
 * in 4:2:2 chroma (sx 1, sy 0) to 7, 0, 2, 4, 5, 6, 6, 6 and in 4:4:0 chroma (sx 0, sy 1)
 * to 1, 2, 2, 2, 3, 4, 6, 0.
 * dst holds whole rows, of which the first is the plane's row y0.
 * Validates 1, 2, 4, 5, 6, 8, 9. Writes the block's positions in dst, except those that are
 * marked or off the plane. */
uint32_t quern_filter_block(uint16_t *dst, size_t dst_len, size_t y0, const uint16_t *plane,
                            size_t plane_len, size_t width, size_t height, size_t x, size_t y,
                            size_t bw, size_t bh, uint32_t pri, uint32_t sec, uint8_t dir,
                            uint8_t damping, uint8_t depth);

/* The block at (x, y), bw by bh, of a luma plane filtered with twelve pairs of strengths:
 * trial number secondary index x 4 + primary index, over primaries 0, 1, 2, 4 and
 * secondaries 0, 1, 2. out holds 768 numbers, 64 per trial; a trial block has bw as its row
 * pitch, and a marked or off-plane position is reported as 16384. The damping is the working
 * damping. Validates 1, 2, 4, 5, 7, 8, 9. Writes the first bw x bh numbers of each trial. */
uint32_t quern_trial_luma(uint16_t *out, size_t out_len, const uint16_t *plane,
                          size_t plane_len, size_t width, size_t height, size_t x, size_t y,
                          size_t bw, size_t bh, uint32_t variance, uint8_t dir,
                          uint8_t damping, uint8_t depth);

/* The same of a chroma plane, whose primary strengths are not adjusted. dir is the chroma
 * direction: in 4:2:2 and 4:4:0 map luma's first, as for quern_filter_block.
 * Validates 1, 2, 4, 5, 7, 8, 9. Writes the first bw x bh numbers of each trial. */
uint32_t quern_trial_chroma(uint16_t *out, size_t out_len, const uint16_t *plane,
                            size_t plane_len, size_t width, size_t height, size_t x, size_t y,
                            size_t bw, size_t bh, uint8_t dir, uint8_t damping,
                            uint8_t depth);

/* The weighted distance of the 8 by 8 blocks at (x, y) of two planes; for a block that
 * crosses the right or bottom edge, the sum of squared differences as below.
 * Validates 1, 2, 4, 5, 9, of both planes. Writes *out. */
uint32_t quern_distance(const uint16_t *orig, size_t orig_len, const uint16_t *other,
                        size_t other_len, size_t width, size_t height, size_t x, size_t y,
                        uint8_t depth, int64_t *out);

/* The sum of squared differences (SSE) of the same blocks, cropped to the plane.
 * Validates 1, 2, 4, 5, 9, of both planes. Writes *out. */
uint32_t quern_squares(const uint16_t *orig, size_t orig_len, const uint16_t *other,
                       size_t other_len, size_t width, size_t height, size_t x, size_t y,
                       uint8_t depth, int64_t *out);

/*
 * ---- frame calls: one plane of a picture
 *
 * width and height are luma's; a chroma call is passed one chroma plane with its
 * subsampling flags, sx horizontal and sy vertical. A block is 8 by 8 luma samples, a unit
 * 64 by 64 as far as the luma plane reaches. skip, dirs and, in luma, vars hold one flag
 * (1: skipped), direction and variance per block, (width / 8) x (height / 8) entries. In
 * chroma too dirs are luma's, as quern_direction_pass wrote them; they are mapped inside.
 * There are ceil(width / 64) x ceil(height / 64) units; trying's total of unit u and trial
 * t is totals[12 * u + t]. Where unstated is 0, damping is the signalled damping, 3 to 6.
 * Where unstated is 1 no damping is stated: damping is ignored and 3 is used, the standard's
 * value where a frame header has no CDEF fields. Any other unstated fails question 8. For
 * the damping of a quality index pass what quern_damping wrote, with unstated 0. For
 * measured totals to equal the tried ones, pass to applying the damping that was tried.
 */

/* Direction and variance of each block of a luma plane. Validates 1, 2, 4, 7, 9.
 * Writes dirs and vars. */
uint32_t quern_direction_pass(uint8_t *dirs, size_t dirs_len, uint32_t *vars, size_t vars_len,
                              const uint16_t *plane, size_t plane_len, size_t width,
                              size_t height, uint8_t depth);

/* Trying in luma: for each unit twelve totals, by trial number, of the distances between
 * the original and the filtered snapshot, over blocks that are not skipped and begin inside
 * the visible area. Validates 1, 2, 4, 7, 8, 9. Writes totals, 12 per unit. */
uint32_t quern_try_luma(int64_t *totals, size_t totals_len, const uint16_t *snapshot,
                        size_t snapshot_len, const uint16_t *original, size_t original_len,
                        size_t width, size_t height, size_t visible_width,
                        size_t visible_height, uint8_t depth, const uint8_t *skip,
                        size_t skip_len, const uint8_t *dirs, size_t dirs_len,
                        const uint32_t *vars, size_t vars_len, uint8_t damping,
                        uint8_t unstated);

/* Trying in a chroma plane, by the sum of squared differences; the visible sides are luma's.
 * Validates 1, 2, 3, 4, 7, 8, 9. Writes totals, 12 per unit. */
uint32_t quern_try_chroma(int64_t *totals, size_t totals_len, const uint16_t *snapshot,
                          size_t snapshot_len, const uint16_t *original, size_t original_len,
                          size_t width, size_t height, uint8_t sx, uint8_t sy,
                          size_t visible_width, size_t visible_height, uint8_t depth,
                          const uint8_t *skip, size_t skip_len, const uint8_t *dirs,
                          size_t dirs_len, uint8_t damping, uint8_t unstated);

/* Measuring in luma: for each unit the total of the distances between the original and the
 * plane filtered with one pair; with 0, 0 the plane as it stands. scratch holds width x 8
 * samples. Validates 1, 2, 4, 7, 8, 9. Writes totals, one per unit, and sets scratch to
 * zero. */
uint32_t quern_measure_luma(int64_t *totals, size_t totals_len, uint16_t *scratch,
                            size_t scratch_len, const uint16_t *plane, size_t plane_len,
                            const uint16_t *original, size_t original_len, size_t width,
                            size_t height, size_t visible_width, size_t visible_height,
                            uint8_t depth, const uint8_t *skip, size_t skip_len,
                            const uint8_t *dirs, size_t dirs_len, const uint32_t *vars,
                            size_t vars_len, uint8_t primary, uint8_t secondary,
                            uint8_t damping, uint8_t unstated);

/* Measuring in a chroma plane, by the sum of squared differences. scratch holds the plane's
 * width x (8 >> sy) samples. Validates 1, 2, 3, 4, 7, 8, 9. Writes totals, one per unit, and
 * sets scratch to zero. */
uint32_t quern_measure_chroma(int64_t *totals, size_t totals_len, uint16_t *scratch,
                              size_t scratch_len, const uint16_t *plane, size_t plane_len,
                              const uint16_t *original, size_t original_len, size_t width,
                              size_t height, uint8_t sx, uint8_t sy, size_t visible_width,
                              size_t visible_height, uint8_t depth, const uint8_t *skip,
                              size_t skip_len, const uint8_t *dirs, size_t dirs_len,
                              uint8_t primary, uint8_t secondary, uint8_t damping,
                              uint8_t unstated);

/* Applying in luma: the snapshot filtered into dst, each unit with its pair of pris and
 * secs. Validates 1, 2, 4 (of dst too), 7, 8, 9. Writes the blocks of dst that are not
 * skipped and whose unit's pair is not 0, 0; the rest of dst is unchanged. */
uint32_t quern_apply_luma(uint16_t *dst, size_t dst_len, const uint16_t *snapshot,
                          size_t snapshot_len, size_t width, size_t height, uint8_t depth,
                          const uint8_t *skip, size_t skip_len, const uint8_t *dirs,
                          size_t dirs_len, const uint32_t *vars, size_t vars_len,
                          const uint8_t *pris, size_t pris_len, const uint8_t *secs,
                          size_t secs_len, uint8_t damping, uint8_t unstated);

/* Applying in a chroma plane. Validates 1, 2, 3, 4 (of dst too), 7, 8, 9. Writes as in
 * luma. */
uint32_t quern_apply_chroma(uint16_t *dst, size_t dst_len, const uint16_t *snapshot,
                            size_t snapshot_len, size_t width, size_t height, uint8_t sx,
                            uint8_t sy, uint8_t depth, const uint8_t *skip, size_t skip_len,
                            const uint8_t *dirs, size_t dirs_len, const uint8_t *pris,
                            size_t pris_len, const uint8_t *secs, size_t secs_len,
                            uint8_t damping, uint8_t unstated);

/* ---- calls that return their result: nothing is validated or rejected */

/* The position of the highest set bit of v; 0 for 0. */
uint32_t quern_log2_floor(uint32_t v);

/* The double nearest to the square root of v; v itself where v is not a finite number above
 * 0, or is subnormal. */
double quern_root(double v);

#ifdef __cplusplus
}
#endif

#endif
