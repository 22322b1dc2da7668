/* Sievemarl: judges the access sheet of a diagnostic gateway. The face for C.
 *
 * Tables in memory, with S subjects, O objects, R roles and N = S + O entities (subjects first, so object o is entity S + o):
 *   assignment   S x R bytes, 0 or 1, at s * R + r
 *   permission   R x O bytes, 0 to 3, at r * O + o (1 read, 2 write, 3 both)
 *   separations  two entity numbers each: data of the first must not reach the second; strictly ascending
 *   flow         N x N bytes, 0 or 1, at x * N + y
 *
 * Duties of the caller, which nothing here can check: each pointer is valid for the length beside it, and a buffer that is written
 * overlaps no other. A null pointer with length 0 is a buffer that is too short. All else is checked: a wrong number, length or byte
 * gets its answer number, and then no buffer is changed. The calls allocate nothing and keep nothing between them; each uses about
 * 16 KB of stack for its tables.
 */
#ifndef SIEVEMARL_H
#define SIEVEMARL_H

#include <stddef.h>
#include <stdint.h>

#ifdef __cplusplus
extern "C" {
#endif

/* Least lengths of the buffers, whatever the counts. */
#define SIEVEMARL_ASSIGNMENT_LEAST 2304
#define SIEVEMARL_PERMISSION_LEAST 3072
#define SIEVEMARL_SEPARATIONS_LEAST 128
#define SIEVEMARL_FLOW_LEAST 12544
#define SIEVEMARL_CHAIN_LEAST 112

/* Answers. */
#define SIEVEMARL_DONE 0
#define SIEVEMARL_SHORT 1                /* a buffer is shorter than its least length */
#define SIEVEMARL_OVER 5                 /* S is above 48, O above 64 or R above 48 */
#define SIEVEMARL_OUT_OF_RANGE 6         /* a separation names an entity that is not below N */
#define SIEVEMARL_NOT_ASCENDING 7        /* the separations do not ascend strictly */
#define SIEVEMARL_TOO_MANY 8             /* more than 64 separations */
#define SIEVEMARL_BAD_BYTE 11            /* an assignment byte above 1 or a permission byte above 3 */
#define SIEVEMARL_BROKEN 14              /* a separation is broken: a finding, no refusal */

/* Writes the flow table of a sheet: the byte at x * N + y is 1 if data can get from x to y, else 0. Bytes past N * N stay as they
 * are. Returns the answer: 0, or a refusal by 1, 5 or 11. */
uint32_t sievemarl_fill_flow(size_t subjects, size_t objects, size_t roles,
    const uint8_t *assignment, size_t assignment_len, const uint8_t *permission, size_t permission_len,
    uint8_t *flow, size_t flow_len);

/* Judges `count` separations in list order. Returns answer + 256 x position + 65,536 x chain count. Where all hold it is 0 and the
 * chain buffer stays as it is. Where one is broken the answer is 14, the position (from 0) is that of the first broken one, and the
 * chain buffer begins with the entities of its shortest chain, of several the smallest. A refusal is 1, 5, 11, 8, 6 or 7 alone. */
uint32_t sievemarl_judge(size_t subjects, size_t objects, size_t roles,
    const uint8_t *assignment, size_t assignment_len, const uint8_t *permission, size_t permission_len,
    size_t count, const uint8_t *separations, size_t separations_len,
    uint8_t *chain, size_t chain_len);

/* The three numbers of a verdict. */
#define SIEVEMARL_ANSWER(verdict) ((verdict) % 256)
#define SIEVEMARL_POSITION(verdict) ((verdict) / 256 % 256)
#define SIEVEMARL_CHAIN_COUNT(verdict) ((verdict) / 65536)

#ifdef __cplusplus
}
#endif

#endif
