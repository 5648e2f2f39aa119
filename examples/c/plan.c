/*
 * plan.c - reads a network file from standard input and prints its plan, as
 * linkplan does; what the other calls say, and which byte of a file is bad, goes
 * to standard error. The arguments, if there are any, are the numbers of zones
 * that are withdrawn, ascending.
 *
 * Build, from this directory, once `rt lib` has been run in crates/clib:
 *
 *   cc -O2 -o plan plan.c ../../crates/clib/out/libclib.a
 *
 * Try:
 *
 *   printf '\6\5\0\2\2\3\0\4\1\4\4\5' | ./plan
 *   printf '\3\0' | ./plan 1
 */
#include <stdio.h>
#include <stdlib.h>
#include <string.h>

#include "../../include/linkplan.h"

/* One byte more than the longest good file: enough to decide any input. */
static uint8_t file[LINKPLAN_FILE_MAX + 1];
static uint8_t copy[LINKPLAN_FILE_MAX];
static uint16_t tails[LINKPLAN_ARCS_MAX], heads[LINKPLAN_ARCS_MAX];
/* One number more than there can be zones: LIST is said of it then at the latest. */
static uint16_t gone[LINKPLAN_ZONES_MAX + 1];
static size_t gone_len;
static uint16_t out_tails[LINKPLAN_ARCS_MAX], out_heads[LINKPLAN_ARCS_MAX];
static uint16_t from[LINKPLAN_ZONES_MAX], to[LINKPLAN_ZONES_MAX], why[LINKPLAN_ZONES_MAX];
static uint16_t work[LINKPLAN_WORK_MAX];
static uint64_t answer[8];

/* Prints a refusal, if there is one, and says whether there was. */
static int refused(void)
{
    if (answer[0] == LINKPLAN_DONE)
        return 0;
    printf("refused %lu at %lu\n", (unsigned long)answer[0], (unsigned long)answer[1]);
    return 1;
}

/* Says on standard error which byte of a refused file it is, and of which number:
 * as many numbers come before it as bytes below 128 do. */
static void where(size_t length)
{
    static const char *const names[] = { "DONE", "SHORT", "LONG", "LOOSE", "ZONES", "ARCS",
                                         "RANGE", "SELF", "EXTRA", "ROOM", "PAIR", "HEAD" };
    size_t place = (size_t)answer[1], number = 0, i;

    for (i = 0; i < place; i++)
        number += file[i] < 128;
    if (place < length)
        fprintf(stderr, "%s: byte %lu is %02x, ", names[answer[0]], (unsigned long)place, (unsigned)file[place]);
    else
        fprintf(stderr, "%s: the file ends at byte %lu, ", names[answer[0]], (unsigned long)place);
    if (answer[0] == LINKPLAN_EXTRA)
        fprintf(stderr, "after the last arc\n");
    else if (number < 2)
        fprintf(stderr, "in the %s count\n", number == 0 ? "zone" : "arc");
    else
        fprintf(stderr, "in the %s of arc %lu\n", number % 2 == 0 ? "tail" : "head", (unsigned long)(number / 2 - 1));
}

/* Takes the withdrawn zones from the arguments. A number that does not fit into
 * an element is no zone's, and neither is the largest that does. */
static void withdraw(int count, char **words)
{
    unsigned long number;

    for (; count > 0 && gone_len < LINKPLAN_ZONES_MAX + 1; count--, words++) {
        number = strtoul(*words, NULL, 10);
        gone[gone_len++] = (uint16_t)(number < 65535 ? number : 65535);
    }
}

/* Says whether a zone is withdrawn. */
static int withdrawn(size_t zone)
{
    size_t i;

    for (i = 0; i < gone_len; i++)
        if (gone[i] == zone)
            return 1;
    return 0;
}

/* Says on standard error what the calls other than read and plan answer. A
 * network whose plan was made is a good one, and the lists are as long as any
 * call can ask for, so none of these is refused; a caller that has not seen to
 * that looks at answer[0] each time, as main does. */
static void others(size_t length, size_t zones, size_t arcs)
{
    size_t first = 0, last = zones - 1, i;

    linkplan_write(zones, tails, arcs, heads, arcs, gone, gone_len, copy, sizeof copy, answer);
    fprintf(stderr, "written again: %s\n",
            answer[2] == length && memcmp(file, copy, length) == 0 ? "the same" : "not the same");

    linkplan_strong(zones, tails, arcs, heads, arcs, gone, gone_len, work, LINKPLAN_WORK_MAX, answer);
    fprintf(stderr, "strong: %s\n", answer[2] ? "yes" : "no");

    while (withdrawn(first))
        first++;
    while (withdrawn(last))
        last--;
    linkplan_reach(zones, tails, arcs, heads, arcs, gone, gone_len, first, last,
                   work, LINKPLAN_WORK_MAX, answer);
    fprintf(stderr, "the first zone reaches the last: %s\n", answer[2] ? "yes" : "no");

    linkplan_skeleton(zones, tails, arcs, heads, arcs, gone, gone_len, out_tails, LINKPLAN_ARCS_MAX,
                      out_heads, LINKPLAN_ARCS_MAX, work, LINKPLAN_WORK_MAX, answer);
    fprintf(stderr, "skeleton:");
    for (i = 0; i < answer[2]; i++)
        fprintf(stderr, " %u-%u", (unsigned)out_tails[i], (unsigned)out_heads[i]);
    fprintf(stderr, "\n");
}

int main(int argc, char **argv)
{
    static const char *const words[] = { "ring", "chain", "back" };
    size_t length, zones, arcs, need, i;

    withdraw(argc - 1, argv + 1);
    length = fread(file, 1, sizeof file, stdin);
    linkplan_read(file, length, tails, LINKPLAN_ARCS_MAX, heads, LINKPLAN_ARCS_MAX, answer);
    if (refused()) {
        where(length);
        return 0;
    }
    zones = (size_t)answer[2];
    arcs = (size_t)answer[3];

    linkplan_plan(zones, tails, arcs, heads, arcs, gone, gone_len, from, LINKPLAN_ZONES_MAX,
                  to, LINKPLAN_ZONES_MAX, why, LINKPLAN_ZONES_MAX, work, LINKPLAN_WORK_MAX, answer);
    if (refused())
        return 0;
    need = (size_t)answer[6];
    printf("zones %lu arcs %lu\n", (unsigned long)zones, (unsigned long)arcs);
    printf("sources %lu sinks %lu alone %lu pairs %lu\n", (unsigned long)answer[2],
           (unsigned long)answer[3], (unsigned long)answer[4], (unsigned long)answer[5]);
    printf("need %lu\n", (unsigned long)need);
    for (i = 0; i < need; i++)
        printf("%u %u %s\n", (unsigned)from[i], (unsigned)to[i], words[why[i]]);
    printf("done\n");
    others(length, zones, arcs);
    return 0;
}
