/*
 * linkplan.h - transfer planning: networks of zones and one-way arcs.
 *
 * Six calls: read a network file, write one, say whether a network is strong,
 * say whether a zone reaches another, make the skeleton, make the plan. Link
 * with crates/clib/out/libclib.a, which `rt lib` in crates/clib makes.
 *
 * A network is a zone count, a list of tails, a list of heads and a list of
 * withdrawn numbers: arc i goes from zone tails[i] to zone heads[i], and the
 * zones are the numbers from 0 to the zone count less 1 that do not stand in
 * `gone`. Arcs may stand in any order and may be repeated; the withdrawn
 * numbers ascend, none twice. Where none is withdrawn, `gone_len` is 0. Zone a
 * reaches zone b if a is b or a run of arcs leads from a to b; a network is
 * strong if every zone reaches every zone.
 *
 * The calls test everything that they are given except the pointers and lengths
 * themselves, and take every input: each ends with its complete result or with
 * one refusal.
 *
 * WHAT THE CALLER MUST SEE TO, as C cannot test it:
 *
 *   - No pointer is null, not even where its length is 0. For an empty list
 *     give the address of any element of the right type.
 *   - A length is counted in elements, not in bytes, and the list has that
 *     many; a list to be written to can be written to.
 *   - No two lent lists overlap, the answer included.
 *
 * THE ANSWER is always eight numbers, all of them written by every call:
 *
 *   answer[0]    0 (LINKPLAN_DONE), or the number of the refusal
 *   answer[1]    0, or the place of the refusal
 *   answer[2..]  the call's values, as said at each call; 0 in what is left
 *
 * A REFUSAL has 0 in all values and changes no lent list. Its place is
 *
 *   in linkplan_read   the offset in the file of the first byte of the number
 *                      concerned; for LONG and LOOSE that of its offending
 *                      last byte; for SHORT the file's length; for EXTRA the
 *                      offset of the first extra byte; for ROOM that of the
 *                      arc count; for SELF that of the arc's head;
 *   in the others      for RANGE, HEAD, SELF and GONE the index of the arc, or,
 *                      for a zone of a reach question, the arc count; for LIST
 *                      the index in `gone`; otherwise 0.
 *
 * linkplan_read gives the first trouble from left to right. The others test in
 * this order: PAIR, ZONES, ARCS, LIST, NONE, then arc by arc RANGE, HEAD, SELF
 * and GONE, then the two zones of a reach question (RANGE for the first, which
 * counts as a tail, HEAD for the second, GONE for either), then ROOM.
 *
 * ON SUCCESS the elements of an output list after the result stay as they were.
 * Of the work memory, the first LINKPLAN_WORK(zones, arcs) elements hold zeros
 * and the rest stays as it was. It need not be cleared before a call.
 */
#ifndef LINKPLAN_H
#define LINKPLAN_H

#include <stddef.h>
#include <stdint.h>

#ifdef __cplusplus
extern "C" {
#endif

/* The most zones and arcs that a network may have; it has at least 1 zone. */
#define LINKPLAN_ZONES_MAX 1024
#define LINKPLAN_ARCS_MAX 4096

/* The longest network file, in bytes. */
#define LINKPLAN_FILE_MAX 16388

/* How many elements of work memory a call asks for, and the most. All are
 * asked for even where a call could do with fewer. */
#define LINKPLAN_WORK(zones, arcs) (16 * (size_t)(zones) + 3 * (size_t)(arcs))
#define LINKPLAN_WORK_MAX 28672

/* The numbers in answer[0]. */
enum linkplan_refusal {
    LINKPLAN_DONE = 0,   /* no refusal: the result is complete */
    LINKPLAN_SHORT = 1,  /* the file ends inside a number, or before one */
    LINKPLAN_LONG = 2,   /* the third byte of a number says another follows */
    LINKPLAN_LOOSE = 3,  /* the last of a number's several bytes is zero */
    LINKPLAN_ZONES = 4,  /* the zone count is 0 or above LINKPLAN_ZONES_MAX */
    LINKPLAN_ARCS = 5,   /* the arc count is above LINKPLAN_ARCS_MAX */
    LINKPLAN_RANGE = 6,  /* a tail is not below the zone count */
    LINKPLAN_SELF = 7,   /* an arc's tail is its head */
    LINKPLAN_EXTRA = 8,  /* bytes follow the last arc of the file */
    LINKPLAN_ROOM = 9,   /* an output list or the work memory is too short */
    LINKPLAN_PAIR = 10,  /* a network's tails_len and heads_len differ */
    LINKPLAN_HEAD = 11,  /* a head is not below the zone count */
    LINKPLAN_LIST = 12,  /* a withdrawn number is not below the zone count, or
                            not above the one before it */
    LINKPLAN_NONE = 13,  /* all zones are withdrawn */
    LINKPLAN_GONE = 14   /* an arc's tail or head is withdrawn, or a zone that
                            is asked about */
};

/* The numbers in the plan's list `why`. */
enum linkplan_why {
    LINKPLAN_RING = 0,
    LINKPLAN_CHAIN = 1,
    LINKPLAN_BACK = 2
};

/*
 * Reads a network file, which holds no withdrawn numbers. `tails` and `heads` must each hold as many elements as
 * the file has arcs; LINKPLAN_ARCS_MAX always suffice. They need not be of
 * equal length, and the elements after the last arc stay as they were.
 *
 * Values: answer[2] the zone count, answer[3] the arc count.
 * Refusals: SHORT to ROOM, and HEAD.
 */
void linkplan_read(const uint8_t *file, size_t file_len,
                   uint16_t *tails, size_t tails_len,
                   uint16_t *heads, size_t heads_len,
                   uint64_t answer[8]);

/*
 * Writes a network file. LINKPLAN_FILE_MAX bytes always suffice; it is refused
 * with ROOM exactly when the file is longer than `file_len`. The file holds no
 * withdrawn numbers: keep them beside it.
 *
 * Value: answer[2] the file's length in bytes.
 * Refusals: PAIR, ZONES, ARCS, RANGE, HEAD, SELF, LIST, NONE, GONE, ROOM, as for
 * all calls below.
 */
void linkplan_write(size_t zones,
                    const uint16_t *tails, size_t tails_len,
                    const uint16_t *heads, size_t heads_len,
                    const uint16_t *gone, size_t gone_len,
                    uint8_t *file, size_t file_len,
                    uint64_t answer[8]);

/*
 * Says whether the network is strong.
 *
 * `work` must hold LINKPLAN_WORK(zones, tails_len) elements.
 * Value: answer[2] 1 for yes, 0 for no. See answer[0] first: a refusal has 0
 * there too.
 */
void linkplan_strong(size_t zones,
                     const uint16_t *tails, size_t tails_len,
                     const uint16_t *heads, size_t heads_len,
                     const uint16_t *gone, size_t gone_len,
                     uint16_t *work, size_t work_len,
                     uint64_t answer[8]);

/*
 * Says whether zone `from` reaches zone `to`. A zone reaches itself.
 *
 * `work` must hold LINKPLAN_WORK(zones, tails_len) elements.
 * Value: answer[2] 1 for yes, 0 for no. See answer[0] first.
 */
void linkplan_reach(size_t zones,
                    const uint16_t *tails, size_t tails_len,
                    const uint16_t *heads, size_t heads_len,
                    const uint16_t *gone, size_t gone_len,
                    size_t from, size_t to,
                    uint16_t *work, size_t work_len,
                    uint64_t answer[8]);

/*
 * Makes the skeleton: the one reduced network in which the same zones reach the
 * same zones, its arcs each once, ascending by tail and then by head. It has
 * the same zone count and the same withdrawn zones, and never more arcs.
 *
 * `out_tails` and `out_heads` must each hold `tails_len` elements, even where
 * the skeleton turns out to have fewer arcs; `work` must hold
 * LINKPLAN_WORK(zones, tails_len) elements.
 * Value: answer[2] the skeleton's arc count.
 */
void linkplan_skeleton(size_t zones,
                       const uint16_t *tails, size_t tails_len,
                       const uint16_t *heads, size_t heads_len,
                       const uint16_t *gone, size_t gone_len,
                       uint16_t *out_tails, size_t out_tails_len,
                       uint16_t *out_heads, size_t out_heads_len,
                       uint16_t *work, size_t work_len,
                       uint64_t answer[8]);

/*
 * Makes the plan: the fewest links that, added to the network, make it strong.
 * Both ends of a link are zones, so never withdrawn.
 * Link i goes from zone from[i] to zone to[i]; why[i] is one of enum
 * linkplan_why. A strong network gets no link.
 *
 * `from`, `to` and `why` must each hold `zones` elements, withdrawn numbers
 * counted, even where there are fewer links; `work` must hold LINKPLAN_WORK(zones, tails_len) elements.
 * Values: answer[2] the number of sources, answer[3] of sinks, answer[4] of
 * components alone, answer[5] of pairs made, answer[6] of links.
 */
void linkplan_plan(size_t zones,
                   const uint16_t *tails, size_t tails_len,
                   const uint16_t *heads, size_t heads_len,
                   const uint16_t *gone, size_t gone_len,
                   uint16_t *from, size_t from_len,
                   uint16_t *to, size_t to_len,
                   uint16_t *why, size_t why_len,
                   uint16_t *work, size_t work_len,
                   uint64_t answer[8]);

#ifdef __cplusplus
}
#endif

#endif
