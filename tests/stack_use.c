/*
 * The stack that each function of the C interface takes, measured: the function runs on a stack of its own that was filled
 * with a mark, and the bytes that lost it are counted from the call on. The plan is a line: 256 stations, 255 slots, in slot
 * i station i - 1 sends and station i hears. Its one way from 0 to 255 has 255 legs, the most there can be, and is a least chain
 * for every h. Each function runs where every reading is kept and where it is dropped after one slot; the larger stack is printed.
 * Taking in runs before taking out, on one table. The record that is read back is one that drawn loads wrote.
 */
#define _XOPEN_SOURCE 600
#include <inttypes.h>
#include <stdio.h>
#include <string.h>
#include <ucontext.h>

#include "joftaki.h"

#define N JOFTAKI_MOST_STATIONS
#define T JOFTAKI_MOST_SLOTS
#define TABLE JOFTAKI_TABLE_LENGTH(N, T)
#define WORK JOFTAKI_WORK_LENGTH(N, T)
#define STACK 262144
#define MARK 0xa5

static uint8_t plan[T * JOFTAKI_RECORD_BYTES], set[N], records[JOFTAKI_DRAWN_LENGTH(N)];
static uint16_t hops_table[TABLE], near_hops[N], way[T], list[T], band[JOFTAKI_BAND_LENGTH];
static uint64_t counts[TABLE], near_counts[N], through[N], pairs[N], loads[N], work[WORK], count, load;
static int64_t changes[N];
static size_t keeping, offset, length, arrival, hops, station;
static uint32_t verdict;

static uint32_t run_check(void) { return joftaki_check(plan, sizeof plan, N, T); }
static uint32_t run_reach(void)
{
    return joftaki_reach(plan, sizeof plan, N, T, 1, keeping, 0, hops_table, TABLE, counts, TABLE, near_hops, N,
                         near_counts, N);
}
static uint32_t run_row(void) { return joftaki_row(counts, TABLE, N, T, 255, &offset, &length); }
static uint32_t run_row_number(void) { return joftaki_row_number(counts, TABLE, N, T, 255); }
static uint32_t run_pair(void)
{
    return joftaki_pair(plan, sizeof plan, N, T, 1, keeping, 0, 255, &hops, &count, through, N, work, WORK);
}
static uint32_t run_foremost(void)
{
    return joftaki_foremost(plan, sizeof plan, N, T, 1, 0, 255, &arrival, &hops, &count, through, N, work, WORK);
}
static uint32_t run_through_set(void)
{
    return joftaki_through_set(plan, sizeof plan, N, T, 1, keeping, 0, 255, &count, set, N, work, WORK);
}
static uint32_t run_loads(void)
{
    return joftaki_loads(plan, sizeof plan, N, T, 1, keeping, pairs, N, loads, N, work, WORK);
}
static uint32_t run_partial_loads(void)
{
    return joftaki_partial_loads(plan, sizeof plan, N, T, 1, keeping, N, pairs, N, loads, N, work, WORK);
}
static uint32_t run_busiest(void)
{
    return joftaki_busiest(plan, sizeof plan, N, T, 1, keeping, &station, work, WORK);
}
static uint32_t run_first_way(void)
{
    return joftaki_first_way(plan, sizeof plan, N, T, 1, keeping, 0, 255, &hops, way, T, work, WORK);
}
static uint32_t run_next_way(void)
{
    return joftaki_next_way(plan, sizeof plan, N, T, 1, keeping, 0, 255, &hops, way, T, work, WORK);
}
static uint32_t run_verdict(void)
{
    return joftaki_verdict(plan, sizeof plan, N, T, 1, keeping, 0, 255, &verdict, list, T, work, WORK);
}

static uint32_t run_take_in(void)
{
    return joftaki_take_in(plan, sizeof plan, N, T, 2, band, JOFTAKI_BAND_LENGTH);
}
static uint32_t run_take_out(void) { return joftaki_take_out(plan, sizeof plan, N, T, band, JOFTAKI_BAND_LENGTH); }

/* On the first three slots too, where the tallies of both plans do not fit in the work area. */
static uint32_t run_struck_out(void)
{
    uint32_t few = joftaki_struck_out(plan, 3 * JOFTAKI_RECORD_BYTES, N, 3, 1, keeping, 1, &count, changes, N, work,
                                      JOFTAKI_WORK_LENGTH(N, 3));
    uint32_t many = joftaki_struck_out(plan, sizeof plan, N, T, 1, keeping, 127, &count, changes, N, work, WORK);
    return few ? few : many;
}

static uint32_t run_drawn_loads(void)
{
    return joftaki_drawn_loads(plan, sizeof plan, N, T, 1, keeping, pairs, N, loads, N, records, sizeof records, work, WORK);
}
static uint32_t run_read_record(void)
{
    return joftaki_read_record(records + 127 * JOFTAKI_DRAWN_BYTES, JOFTAKI_DRAWN_BYTES, &station, &load, &count);
}

static const struct {
    const char *name;
    uint32_t (*run)(void);
    uint32_t expected;
} calls[] = {
    {"joftaki_check", run_check, 0},         {"joftaki_reach", run_reach, 0},
    {"joftaki_row", run_row, 0},             {"joftaki_row_number", run_row_number, 0},
    {"joftaki_pair", run_pair, 0},           {"joftaki_loads", run_loads, 0},
    {"joftaki_busiest", run_busiest, 0},     {"joftaki_first_way", run_first_way, 0},
    {"joftaki_next_way", run_next_way, JOFTAKI_LAST}, {"joftaki_through_set", run_through_set, 0},
    {"joftaki_foremost", run_foremost, 0},   {"joftaki_partial_loads", run_partial_loads, 0},
    {"joftaki_verdict", run_verdict, 0},    {"joftaki_take_in", run_take_in, 0},
    {"joftaki_take_out", run_take_out, 0},   {"joftaki_struck_out", run_struck_out, 0},
    {"joftaki_drawn_loads", run_drawn_loads, 0}, {"joftaki_read_record", run_read_record, 0},
};

static unsigned char stack[STACK];
static ucontext_t here, there;
static uint32_t (*chosen)(void);
static uint32_t answer;
static unsigned char *top;

/* Runs the chosen call, and notes where its caller's stack ends. */
static void call(void)
{
    volatile unsigned char end = 0;
    top = (unsigned char *)&end;
    answer = chosen();
}

/* The bytes of stack that the chosen call takes with an h. */
static long taken(size_t h)
{
    unsigned char *lowest = stack;
    keeping = h;
    memset(stack, MARK, sizeof stack);
    getcontext(&there);
    there.uc_stack.ss_sp = stack;
    there.uc_stack.ss_size = sizeof stack;
    there.uc_link = &here;
    makecontext(&there, call, 0);
    swapcontext(&here, &there);
    while (*lowest == MARK)
        lowest++;
    return (long)(top - lowest);
}

int main(void)
{
    size_t i;
    for (i = 0; i < T; i++) {
        unsigned char *record = plan + i * JOFTAKI_RECORD_BYTES;
        record[1] = (unsigned char)(i + 1);
        record[3] = (unsigned char)i;
        record[5] = (unsigned char)(i + 1);
        list[i] = (uint16_t)i;
    }
    for (i = 0; i < sizeof calls / sizeof calls[0]; i++) {
        static const size_t keepings[] = {JOFTAKI_MOST_KEEPING, 1};
        long most = 0;
        size_t k;
        chosen = calls[i].run;
        for (k = 0; k < sizeof keepings / sizeof keepings[0]; k++) {
            long bytes = taken(keepings[k]);
            if (answer != calls[i].expected) {
                printf("%s gives %" PRIu32 " with h %zu\n", calls[i].name, answer, keepings[k]);
                return 1;
            }
            if (bytes > most)
                most = bytes;
        }
        printf("%s %ld\n", calls[i].name, most);
    }
    return 0;
}
