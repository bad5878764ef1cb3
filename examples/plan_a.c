/*
 * Plan A of document 01, doubled, through the C interface: check, reach from 0, the row of station 3, the pairs 0 to 4 and 0
 * to 3 with their ways one by one, 0 to 3 again where stations need two slots between hearing and sending on, and where they drop
 * a reading one slot after hearing it, how many ways of 0 to 4 stations 2 and 3 touch together, verdicts on lists of these ways,
 * the earliest ways of 0 to 3, the loads source by source and as a whole, the busiest station, what the loss of a contact does to
 * the loads, and the records of the loads for the drawing program, read back. With 4 slots and a reading kept for 3 or more, least
 * chains are least ways. The callers lend all memory; the example stops at a refusal.
 */
#include <inttypes.h>
#include <stdio.h>
#include <stdlib.h>
#include <string.h>

#include "joftaki.h"

#define STATIONS 5
#define SLOTS 4
#define ONE_SLOT 1  /* the turnaround of units sold before, which send on in the slot after hearing */
#define TWO_SLOTS 2 /* the turnaround of units sold now, which need a slot more */
#define KEPT JOFTAKI_MOST_KEEPING /* for units that keep a reading until the plan ends */
#define DROPPED 1 /* for units that drop a reading one slot after hearing it */
#define CONTACTS 12
#define SOURCE 0
#define STATION_OF_ROW 3
#define STATION_OF_RECORD 3
#define LOW_PLACE 2   /* of the low double in a station's record, in bytes */
#define HIGH_PLACE 10 /* of the high double */

/* Each contact of plan A is two records, one in each direction. The first number of a comment is the record's position. */
static const uint8_t plan[CONTACTS * JOFTAKI_RECORD_BYTES] = {
    0, 1, 0, 0, 0, 1, /* 0: slot 1, 0 sends, 1 hears */
    0, 1, 0, 0, 0, 2, /* 1: slot 1, 0 sends, 2 hears */
    0, 1, 0, 1, 0, 0, /* 2: slot 1, 1 sends, 0 hears */
    0, 1, 0, 2, 0, 0, /* 3: slot 1, 2 sends, 0 hears */
    0, 2, 0, 1, 0, 3, /* 4: slot 2, 1 sends, 3 hears */
    0, 2, 0, 2, 0, 3, /* 5: slot 2, 2 sends, 3 hears */
    0, 2, 0, 3, 0, 1, /* 6: slot 2, 3 sends, 1 hears */
    0, 2, 0, 3, 0, 2, /* 7: slot 2, 3 sends, 2 hears */
    0, 3, 0, 2, 0, 3, /* 8: slot 3, 2 sends, 3 hears */
    0, 3, 0, 3, 0, 2, /* 9: slot 3, 3 sends, 2 hears */
    0, 4, 0, 3, 0, 4, /* 10: slot 4, 3 sends, 4 hears */
    0, 4, 0, 4, 0, 3, /* 11: slot 4, 4 sends, 3 hears */
};

/* Prints a refusal and ends the program; an accepted call goes on. */
static void accept_or_stop(uint32_t number)
{
    if (number != JOFTAKI_ACCEPTED) {
        printf("refused %" PRIu32 "\n", number);
        exit(1);
    }
}

/* Prints a word and a list of numbers in one line. */
static void print_counts(const char *word, const uint64_t *numbers, size_t length)
{
    size_t i;
    printf("%s", word);
    for (i = 0; i < length; i++)
        printf(" %" PRIu64, numbers[i]);
    printf("\n");
}

/* Operations 2 and 3: each station's hops and count from the source, and one row of the appearances' counts. */
static void print_reach(void)
{
    uint16_t hops[JOFTAKI_TABLE_LENGTH(STATIONS, SLOTS)];
    uint64_t counts[JOFTAKI_TABLE_LENGTH(STATIONS, SLOTS)];
    uint16_t station_hops[STATIONS];
    uint64_t station_counts[STATIONS];
    size_t offset;
    size_t length;
    size_t v;

    accept_or_stop(joftaki_reach(plan, sizeof plan, STATIONS, SLOTS, ONE_SLOT, KEPT, SOURCE,
                                 hops, JOFTAKI_TABLE_LENGTH(STATIONS, SLOTS),
                                 counts, JOFTAKI_TABLE_LENGTH(STATIONS, SLOTS),
                                 station_hops, STATIONS, station_counts, STATIONS));
    for (v = 0; v < STATIONS; v++)
        printf("station %zu hops %u count %" PRIu64 "\n", v, (unsigned)station_hops[v], station_counts[v]);

    accept_or_stop(joftaki_row(counts, JOFTAKI_TABLE_LENGTH(STATIONS, SLOTS), STATIONS, SLOTS, STATION_OF_ROW,
                               &offset, &length));
    printf("row %d", STATION_OF_ROW);
    print_counts("", counts + offset, length);
}

/* Operation 4: hops, count and through counts of a pair. */
static void print_pair(size_t turnaround, size_t keeping, size_t destination, uint64_t *work)
{
    size_t hops;
    uint64_t count;
    uint64_t through[STATIONS];

    accept_or_stop(joftaki_pair(plan, sizeof plan, STATIONS, SLOTS, turnaround, keeping, SOURCE, destination, &hops, &count,
                                through, STATIONS, work, JOFTAKI_WORK_LENGTH(STATIONS, SLOTS)));
    printf("hops %zu\ncount %" PRIu64 "\n", hops, count);
    print_counts("through", through, STATIONS);
}

/* Prints the positions of a way in one line. */
static void print_way(const uint16_t *way, size_t hops)
{
    size_t i;
    printf("path");
    for (i = 0; i < hops; i++)
        printf(" %u", (unsigned)way[i]);
    printf("\n");
}

/* Operations 7 and 8: every way of a pair, one a line. The way buffer alone says where the listing stands. */
static void print_ways(size_t turnaround, size_t keeping, size_t destination, uint64_t *work)
{
    uint16_t way[SLOTS];
    size_t hops;
    uint32_t number = joftaki_first_way(plan, sizeof plan, STATIONS, SLOTS, turnaround, keeping, SOURCE, destination, &hops,
                                        way, SLOTS, work, JOFTAKI_WORK_LENGTH(STATIONS, SLOTS));
    while (number == JOFTAKI_ACCEPTED) {
        print_way(way, hops);
        number = joftaki_next_way(plan, sizeof plan, STATIONS, SLOTS, turnaround, keeping, SOURCE, destination, &hops,
                                  way, SLOTS, work, JOFTAKI_WORK_LENGTH(STATIONS, SLOTS));
    }
    if (number != JOFTAKI_NONE && number != JOFTAKI_LAST)
        accept_or_stop(number);
}

/* Through a set: how many ways of a pair have station 2 or 3 inside, those with both once. */
static void print_set(size_t destination, uint64_t *work)
{
    static const uint8_t set[STATIONS] = {0, 0, 1, 1, 0};
    uint64_t count;

    accept_or_stop(joftaki_through_set(plan, sizeof plan, STATIONS, SLOTS, ONE_SLOT, KEPT, SOURCE, destination, &count,
                                       set, STATIONS, work, JOFTAKI_WORK_LENGTH(STATIONS, SLOTS)));
    printf("set 2 3 count %" PRIu64 "\n", count);
}

/* The word of a verdict. */
static const char *verdict_word(uint32_t verdict)
{
    switch (verdict) {
    case JOFTAKI_COMPLETE:
        return "complete";
    case JOFTAKI_BEGINNING:
        return "beginning";
    default:
        return "wrong";
    }
}

/* Prints the verdict on a list of positions for a pair. */
static void print_verdict(size_t destination, const uint16_t *list, size_t length, uint64_t *work)
{
    uint32_t verdict;

    accept_or_stop(joftaki_verdict(plan, sizeof plan, STATIONS, SLOTS, ONE_SLOT, KEPT, SOURCE, destination, &verdict,
                                   list, length, work, JOFTAKI_WORK_LENGTH(STATIONS, SLOTS)));
    printf("verdict %s\n", verdict_word(verdict));
}

/* Verdicts on the ways of 0 to 4, one behind another as first way and next way give them: on all three, on the first two, and
 * on all with the last leg cut off. */
static void print_verdicts(uint64_t *work)
{
    uint16_t list[3 * SLOTS];
    uint16_t way[SLOTS];
    size_t length = 0;
    size_t hops;
    uint32_t number = joftaki_first_way(plan, sizeof plan, STATIONS, SLOTS, ONE_SLOT, KEPT, SOURCE, 4, &hops, way, SLOTS,
                                        work, JOFTAKI_WORK_LENGTH(STATIONS, SLOTS));
    while (number == JOFTAKI_ACCEPTED && length + hops <= 3 * SLOTS) {
        size_t i;
        for (i = 0; i < hops; i++)
            list[length++] = way[i];
        number = joftaki_next_way(plan, sizeof plan, STATIONS, SLOTS, ONE_SLOT, KEPT, SOURCE, 4, &hops, way, SLOTS,
                                  work, JOFTAKI_WORK_LENGTH(STATIONS, SLOTS));
    }
    if (number != JOFTAKI_LAST)
        accept_or_stop(number);
    print_verdict(4, list, length, work);
    print_verdict(4, list, 6, work);
    print_verdict(4, list, length - 1, work);
}

/* Foremost: the slot in which a reading arrives first, the fewest legs then, and the count and the through counts of these
 * ways. Of the three least ways from 0 to 3 two arrive in slot 2; the third arrives in slot 3. */
static void print_foremost(size_t destination, uint64_t *work)
{
    size_t arrival;
    size_t hops;
    uint64_t count;
    uint64_t through[STATIONS];

    accept_or_stop(joftaki_foremost(plan, sizeof plan, STATIONS, SLOTS, ONE_SLOT, SOURCE, destination,
                                    &arrival, &hops, &count, through, STATIONS, work, JOFTAKI_WORK_LENGTH(STATIONS, SLOTS)));
    printf("slot %zu\nhops %zu\ncount %" PRIu64 "\n", arrival, hops, count);
    print_counts("through", through, STATIONS);
}

/* Partial loads: the figures after each source. The span is by how much a load can still exceed the one printed; with the
 * last source it is 0. Each call works anew from source 0. */
static void print_partial_loads(uint64_t *work)
{
    uint64_t pairs[STATIONS];
    uint64_t loads[STATIONS];
    size_t sources;

    for (sources = 1; sources <= STATIONS; sources++) {
        uint64_t span = (uint64_t)(STATIONS - sources) * (STATIONS - 1) << 32;
        accept_or_stop(joftaki_partial_loads(plan, sizeof plan, STATIONS, SLOTS, ONE_SLOT, KEPT, sources, pairs, STATIONS,
                                             loads, STATIONS, work, JOFTAKI_WORK_LENGTH(STATIONS, SLOTS)));
        printf("sources %zu span %" PRIu64 "\n", sources, span);
        print_counts("pairs", pairs, STATIONS);
        print_counts("loads", loads, STATIONS);
    }
}

/* Operation 5: each station's pairs and load. */
static void print_loads(uint64_t *work)
{
    uint64_t pairs[STATIONS];
    uint64_t loads[STATIONS];
    size_t v;

    accept_or_stop(joftaki_loads(plan, sizeof plan, STATIONS, SLOTS, ONE_SLOT, KEPT, pairs, STATIONS, loads, STATIONS,
                                 work, JOFTAKI_WORK_LENGTH(STATIONS, SLOTS)));
    printf("stations %d slots %d contacts %d\n", STATIONS, SLOTS, CONTACTS);
    for (v = 0; v < STATIONS; v++)
        printf("%zu %" PRIu64 " %" PRIu64 "\n", v, pairs[v], loads[v]);
}

/* Operation 6: the lowest-numbered station whose load no other exceeds. */
static void print_busiest(uint64_t *work)
{
    size_t station;

    accept_or_stop(joftaki_busiest(plan, sizeof plan, STATIONS, SLOTS, ONE_SLOT, KEPT, &station,
                                   work, JOFTAKI_WORK_LENGTH(STATIONS, SLOTS)));
    printf("busiest %zu\n", station);
}

/* Struck out: how many pairs use the contact at a position, and each station's change of load without it. */
static void print_struck_out(size_t position, uint64_t *work)
{
    uint64_t pairs;
    int64_t changes[STATIONS];
    size_t v;

    accept_or_stop(joftaki_struck_out(plan, sizeof plan, STATIONS, SLOTS, ONE_SLOT, KEPT, position, &pairs,
                                      changes, STATIONS, work, JOFTAKI_WORK_LENGTH(STATIONS, SLOTS)));
    printf("position %zu pairs %" PRIu64 "\nchanges", position, pairs);
    for (v = 0; v < STATIONS; v++)
        printf(" %" PRId64, changes[v]);
    printf("\n");
}

/* The double whose eight bytes stand high byte first, on a machine of either byte order. */
static double double_at(const uint8_t *bytes)
{
    uint64_t bits = 0;
    double value;
    size_t i;

    for (i = 0; i < sizeof bits; i++)
        bits = (bits << 8) | bytes[i];
    memcpy(&value, &bits, sizeof value);
    return value;
}

/* Prints the station, load and pairs that a record is read back as, or that no station could have written it. */
static void print_reading(const uint8_t *record)
{
    size_t station;
    uint64_t load;
    uint64_t pairs;

    if (joftaki_read_record(record, JOFTAKI_DRAWN_BYTES, &station, &load, &pairs) == JOFTAKI_FOREIGN)
        printf("foreign\n");
    else
        printf("%zu %" PRIu64 " %" PRIu64 "\n", station, load, pairs);
}

/* Loads for the drawing program: each station's record, byte by byte, and what it is read back as; its two doubles, 0 where the
 * station is idle, else the exact sum of shares is at least the low and below the high; and a record that is foreign, since its
 * low double has a minus sign. */
static void print_drawn_loads(uint64_t *work)
{
    uint64_t pairs[STATIONS];
    uint64_t loads[STATIONS];
    uint8_t records[JOFTAKI_DRAWN_LENGTH(STATIONS)];
    size_t v;

    accept_or_stop(joftaki_drawn_loads(plan, sizeof plan, STATIONS, SLOTS, ONE_SLOT, KEPT, pairs, STATIONS, loads, STATIONS,
                                       records, sizeof records, work, JOFTAKI_WORK_LENGTH(STATIONS, SLOTS)));
    for (v = 0; v < STATIONS; v++) {
        const uint8_t *record = records + v * JOFTAKI_DRAWN_BYTES;
        size_t i;
        for (i = 0; i < JOFTAKI_DRAWN_BYTES; i++)
            printf("%02x ", (unsigned)record[i]);
        printf(": ");
        print_reading(record);
    }
    for (v = 0; v < STATIONS; v++) {
        const uint8_t *record = records + v * JOFTAKI_DRAWN_BYTES;
        printf("%zu low %.10f high %.10f\n", v, double_at(record + LOW_PLACE), double_at(record + HIGH_PLACE));
    }
    records[STATION_OF_RECORD * JOFTAKI_DRAWN_BYTES + LOW_PLACE] |= 0x80;
    print_reading(records + STATION_OF_RECORD * JOFTAKI_DRAWN_BYTES);
}

int main(void)
{
    uint64_t work[JOFTAKI_WORK_LENGTH(STATIONS, SLOTS)];
    uint32_t number = joftaki_check(plan, sizeof plan, STATIONS, SLOTS);

    accept_or_stop(number);
    printf("check %" PRIu32 "\n", number);
    print_reach();
    print_pair(ONE_SLOT, KEPT, 4, work);
    print_ways(ONE_SLOT, KEPT, 4, work);
    print_set(4, work);
    print_verdicts(work);
    print_pair(ONE_SLOT, KEPT, 3, work);
    print_ways(ONE_SLOT, KEPT, 3, work);
    print_pair(TWO_SLOTS, KEPT, 3, work);
    print_ways(TWO_SLOTS, KEPT, 3, work);
    print_pair(ONE_SLOT, DROPPED, 3, work);
    print_ways(ONE_SLOT, DROPPED, 3, work);
    print_foremost(3, work);
    print_partial_loads(work);
    print_loads(work);
    print_busiest(work);
    print_struck_out(5, work);
    print_struck_out(10, work);
    print_drawn_loads(work);
    return 0;
}
