/*
 * Joftaki: least chains through a slot plan. The operations of document 01 and of document 02's changes for C99 and C++.
 *
 * Words. The comments have document 01's words; in names a walk is a chain, hops are legs, a path is a way, and shortest is
 * least, with the fewest legs. A contact leads from its sender to its hearer, and from no other station. A chain from s is a
 * run of contacts: s sends the first, in any slot, and the hearer of each sends the next, g to h slots after hearing. A way is a
 * chain that visits no station twice. An appearance (v, u) is station v reached by a chain whose last contact is in slot u.
 *
 * Least chains, document 000's shortest walks, are the chains that every function but foremost counts and lists. Where t <= h + 1
 * no reading is dropped before the plan ends, and the least chains from s to another station are its least ways, the shortest
 * paths. Where t is larger a least chain may call at a station twice or more often, and there may be a least chain where there is
 * no way. A chain counts once for a station inside it, however often it calls there. "No way" at a prototype means that there is no
 * chain.
 *
 * Arguments. plan: 0 to 8,192 records of 6 bytes, so up to 49,152 bytes, no header: slot, a, b, each 16 bits, high byte first.
 * A record is a contact: in this slot a sends and b hears (document 02, C-16; document 002's directed edge (a, b, slot),
 * Definition 2.1). a and b are different, and either may be the larger. Two stations that hear each other in a slot have two
 * records there, (slot, a, b) and (slot, b, a). Records rise strictly by (slot, a, b). A record's place, counted from 0, is
 * its position, at most 8,191. n: the number of stations, 1 to 256; they are numbered from 0. t: the number of slots, 1 to
 * 255; they are numbered from 1. g: the turnaround, 1 to 16 slots (document 02, C-17), and h: for how many slots a reading is
 * kept, g to 255 (C-21); what a station hears in slot u goes out in the slots from u + g to u + h. With g = 1 the slots of a chain
 * rise strictly. With h = 255 every reading is kept until the plan ends, whatever t is. Both may be above t. The calls of one
 * listing have one g and one h. foremost takes no h: its stations keep every reading. s, z, v: stations. k: how many stations
 * partial_loads takes as sources, 0 to n: those below k. position: that of a record; only struck_out has it. c: the channels of a
 * band, 0 to 65,535 (C-22); only take_in has it. Every function but row, row_number and read_record reads the plan anew. None
 * trusts an earlier table; take_in and take_out go on from the use that theirs holds, whatever it is.
 *
 * Answers. Every function gives a number: 0 where the call is accepted, else the number of the papers' first cause that
 * holds, in their order: 1, 2, then 3, 4, 5 record by record, then 12, 14, 13, 6, 7, 8, then 11, 15, 16 or 17, then 9, 10. First
 * way and next way have two more numbers, JOFTAKI_NONE and JOFTAKI_LAST, which are acceptances. A slot (arrival, hops, count, pairs,
 * station, verdict, offset, length) is always written: its value on acceptance; 0 on every refusal, and 0 beside JOFTAKI_NONE and
 * JOFTAKI_LAST. read_record alone refuses nothing and has no cause: beside JOFTAKI_FOREIGN it writes no slot.
 *
 * Lent memory. Tables, buffers, sets, lists and work areas may hold anything at entry. Numbers 1 to 8 and 11 to 17 leave all of them
 * as they were. 9 sets the named parts of the tables, of the records and of the work area to 0 and leaves the way buffer. 10 sets
 * the named part of the work area to 0 and leaves the way buffer. Every acceptance leaves the named part of the work area 0. The
 * named part is the length said at each prototype, whatever g and h are; entries past it are never touched, and longer is always
 * fine.
 *
 * Proved. For every call that lends memory as said below, the number, the slots and every lent entry at exit are those of
 * the definitions in crates/temporal/specs, and the function ends. The contracts stand in crates/joftaki_c/src/lib.rt, with
 * the definitions of the slots and of JOFTAKI_NONE and JOFTAKI_LAST in crates/joftaki_c/specs. No contract asks anything of
 * the numbers or of what the lent memory holds. No refusal has the number of JOFTAKI_NONE or JOFTAKI_LAST
 * (crates/joftaki_c/proofs/Told.antt).
 *
 * Not proved. That these prototypes, the numbers behind the names and the macros, written by hand, fit the archive and the
 * definitions; how long a call takes; how much stack it takes (measured: docs/MEMORY.md). The archive is for x86-64-v2.
 *
 * What no contract can cover at this boundary, and nothing tests; a call that breaks one of these rules is undefined. The
 * first four are said again at each prototype:
 *   - each pointer is valid for as many entries as the length behind it says (a slot: for one), for reading, and where it is
 *     not const for writing;
 *   - it is aligned for its type;
 *   - it is not null, also where the length is 0;
 *   - no slot, table, buffer, set, list, work area or plan overlaps another that is lent to the same call;
 *   - nothing else reads or writes what is lent as not const, or writes what is lent as const, until the call returns;
 *   - an area takes at most PTRDIFF_MAX bytes.
 *
 * The functions keep nothing between calls and allocate nothing; calls on memory of their own may run at the same time.
 * Beside themselves they need memset alone.
 */
#ifndef JOFTAKI_H
#define JOFTAKI_H

#include <stddef.h>
#include <stdint.h>

#ifdef __cplusplus
extern "C" {
#endif

/* The numbers. */
#define JOFTAKI_ACCEPTED 0u
/* A fault of the plan. */
#define JOFTAKI_LIMITS 1u /* n or t outside its limits */
#define JOFTAKI_LENGTH 2u /* plan not a multiple of 6 bytes, or over 8,192 records */
#define JOFTAKI_SLOT 3u   /* a slot is 0 or above t */
#define JOFTAKI_ENDS 4u   /* a equals b, or either is >= n */
#define JOFTAKI_ORDER 5u  /* a record is not above the one before it */
/* A fault of the call. */
#define JOFTAKI_STATION 6u           /* a named station is >= n */
#define JOFTAKI_SAME_STATION 7u      /* source equals destination */
#define JOFTAKI_SHORT 8u             /* a lent table or buffer is too short */
#define JOFTAKI_TOO_MANY 9u          /* an appearance or station has over 2^64 - 1 least chains from a source worked on;
                                        foremost: an appearance */
#define JOFTAKI_NOT_SHORTEST_PATH 10u /* next way: the offered positions are no least chain of the pair, or it has none */
#define JOFTAKI_SET_BYTE 11u          /* through_set: one of the first n bytes of the set is neither 0 nor 1 */
#define JOFTAKI_TURNAROUND 12u        /* g outside 1 to 16 */
#define JOFTAKI_SOURCES 13u           /* partial_loads: k is above n */
#define JOFTAKI_KEEPING 14u           /* h is below g or above 255; looked at before 13 */
#define JOFTAKI_CHANNELS 15u          /* take_in: one of the 255 entries would be above c */
#define JOFTAKI_UNTAKEN 16u           /* take_out: one of the 255 entries would be below 0 */
#define JOFTAKI_POSITION 17u          /* struck_out: the position is not below the number of records */
/* First way and next way: acceptances that give no chain. */
#define JOFTAKI_NONE 100u /* the pair has no chain */
#define JOFTAKI_LAST 101u /* there is no least chain after the one in the buffer */
/* Read record: no station could have written the bytes. It is no refusal. */
#define JOFTAKI_FOREIGN 102u

/* The verdicts. Beside a refusal there is none: 0. */
#define JOFTAKI_COMPLETE 1u  /* all least chains of the pair, one behind another */
#define JOFTAKI_BEGINNING 2u /* the first few whole ones, fewer than all, possibly none */
#define JOFTAKI_WRONG 3u     /* anything else */

/* The limits of n, of t, of g, of h and of the records of a plan. With the largest h every reading is kept. */
#define JOFTAKI_MOST_STATIONS 256
#define JOFTAKI_MOST_SLOTS 255
#define JOFTAKI_MOST_TURNAROUND 16
#define JOFTAKI_MOST_KEEPING 255
#define JOFTAKI_MOST_RECORDS 8192
#define JOFTAKI_RECORD_BYTES 6

/* The legs where there is no chain, in a table or in the hops slot of pair or foremost; and foremost's arrival then. */
#define JOFTAKI_NO_WALK 65535u

/* The named lengths, in entries: of a table of appearances and of a work area. n and t are within their limits. */
#define JOFTAKI_TABLE_LENGTH(n, t) ((size_t)(n) * ((size_t)(t) + 1))
#define JOFTAKI_WORK_LENGTH(n, t) (4 * JOFTAKI_TABLE_LENGTH(n, t))

/* The named length, in entries, of a band's table, whatever t is; and the place of slot u in it, u from 1 to 255. */
#define JOFTAKI_BAND_LENGTH JOFTAKI_MOST_SLOTS
#define JOFTAKI_BAND_PLACE(u) ((size_t)(u) - 1)

/* The bytes of a station's record for the drawing program, and the named length, in bytes, of the records of n stations. */
#define JOFTAKI_DRAWN_BYTES 18
#define JOFTAKI_DRAWN_LENGTH(n) ((size_t)(n) * JOFTAKI_DRAWN_BYTES)

/* The place of appearance (v, u) in a table of appearances. */
#define JOFTAKI_PLACE(t, v, u) ((size_t)(v) * ((size_t)(t) + 1) + (size_t)(u))

/*
 * Operation 1, check a plan.
 *
 * Gives 0, or the first of 1, 2, 3, 4, 5. Every function that reads a plan gives the same number where check refuses it.
 * Proved: the number.
 * Not covered: plan is valid for plan_length bytes and not null, also where plan_length is 0.
 */
uint32_t joftaki_check(const uint8_t *plan, size_t plan_length, size_t n, size_t t);

/*
 * Operation 2, reach from s.
 *
 * hops and counts: for each appearance (v, u), at place v (t + 1) + u, the legs of a least chain from s to it, 65535 where
 * there is no chain, and the count of least chains, 0 where there is none; (s, 0) has 0 legs and count 1. station_hops and
 * station_counts: the same for each station v, at place v; s has 0 legs and count 1.
 *
 * Lend: hops and counts JOFTAKI_TABLE_LENGTH(n, t) entries each, station_hops and station_counts n entries each.
 * Gives 0, or the first of 1, 2, 3, 4, 5, 12, 14, 6, 8, 9. 9 sets the named parts of all four tables to 0.
 * Proved: the number and every entry of the four tables at exit.
 * Not covered: each pointer is valid for its length, aligned and not null, also where its length is 0; the four tables and
 * the plan do not overlap.
 */
uint32_t joftaki_reach(const uint8_t *plan, size_t plan_length, size_t n, size_t t, size_t g, size_t h, size_t s,
                       uint16_t *hops, size_t hops_length,
                       uint64_t *counts, size_t counts_length,
                       uint16_t *station_hops, size_t station_hops_length,
                       uint64_t *station_counts, size_t station_counts_length);

/*
 * Operation 3, row of station v: the part of the caller's table of appearance counts that holds v's t + 1 entries. It
 * begins at table + *offset and has *length entries: v (t + 1) and t + 1; on refusal 0 and 0, an empty part. Reads no plan
 * and no entry of the table.
 *
 * Lend: table, JOFTAKI_TABLE_LENGTH(n, t) entries, even if the row asked for would fit.
 * Gives 0, or the first of 1, 6, 8.
 * Proved: the number, both slots, and that this part of the table is document 01's row.
 * Not covered: table is valid for table_length entries, aligned and not null, also where table_length is 0; offset and
 * length are valid, aligned and not null; the two slots and the table do not overlap.
 */
uint32_t joftaki_row(const uint64_t *table, size_t table_length, size_t n, size_t t, size_t v,
                     size_t *offset, size_t *length);

/*
 * The sister of row: row's number on the same arguments.
 *
 * Gives 0, or the first of 1, 6, 8.
 * Proved: the number.
 * Not covered: table is valid for table_length entries, aligned and not null, also where table_length is 0.
 */
uint32_t joftaki_row_number(const uint64_t *table, size_t table_length, size_t n, size_t t, size_t v);

/*
 * Operation 4, pair s, z: in *hops the legs of the least chains from s to z, in *count their number, and in through at place v
 * how many of them have v inside: visited, once or more often, and neither s nor z. Where there is no way: 65535, 0 and all 0.
 *
 * Lend: through n entries, work JOFTAKI_WORK_LENGTH(n, t) entries.
 * Gives 0, or the first of 1, 2, 3, 4, 5, 12, 14, 6, 7, 8, 9. 9 sets the named parts of through and work to 0.
 * Proved: the number, both slots, and every entry of through and work at exit. That where t <= h + 1 the n entries of through add
 * up to count times (hops - 1) is a theorem (crates/demands/specs/Account.antt); the sum can be above 2^64 - 1. Where t is larger
 * it may be less than that.
 * Not covered: each pointer is valid for its length, aligned and not null, also where its length is 0; hops and count are
 * valid, aligned and not null; the two slots, through, work and the plan do not overlap.
 */
uint32_t joftaki_pair(const uint8_t *plan, size_t plan_length, size_t n, size_t t, size_t g, size_t h, size_t s, size_t z,
                      size_t *hops, uint64_t *count,
                      uint64_t *through, size_t through_length,
                      uint64_t *work, size_t work_length);

/*
 * Foremost, the earliest ways of a pair s, z (document 02, C-14): in *arrival the earliest slot in which any chain from s
 * reaches z, in *hops the fewest legs of the chains that reach z in that slot, in *count how many of them have so few, and in
 * through at place v how many of these have v inside: visited, and neither s nor z. They are ways: document 000's shortest
 * foremost paths (Definition 11). Chains that arrive later do not count, also where they have fewer legs. Where there is no
 * way: 65535, 65535, 0 and all 0. There is no h: stations keep every reading, and 14 is never given.
 *
 * Lend: as for pair: through n entries, work JOFTAKI_WORK_LENGTH(n, t) entries.
 * Gives 0, or the first of 1, 2, 3, 4, 5, 12, 6, 7, 8, 9. 9 looks at appearances alone, at every one of them, also in slots
 * after the arrival; what a station has over several slots is no cause. 9 sets the named parts of through and work to 0.
 * Proved: the number, the three slots, and every entry of through and work at exit. That the chains counted are ways, and that
 * no chain arrives earlier, are theorems (crates/demands/specs/Foremost.antt). The entries of through add up to count times
 * (hops - 1).
 * Not covered: each pointer is valid for its length, aligned and not null, also where its length is 0; arrival, hops and count
 * are valid, aligned and not null; the three slots, through, work and the plan do not overlap.
 */
uint32_t joftaki_foremost(const uint8_t *plan, size_t plan_length, size_t n, size_t t, size_t g, size_t s, size_t z,
                          size_t *arrival, size_t *hops, uint64_t *count,
                          uint64_t *through, size_t through_length,
                          uint64_t *work, size_t work_length);

/*
 * Through a set (document 02, C-12): in *count how many of the least chains from s to z have at least one member of the set
 * inside. A chain through two members, or twice through one, counts once; s and z never count as inside, also where they are
 * members. For a set of one station it is its through count, for the empty set 0, and where there is no way 0. The set has a byte
 * for each station, at place v: 1 where v is a member, 0 where not. It is only read, and only its first n bytes are.
 *
 * Lend: set n bytes, work JOFTAKI_WORK_LENGTH(n, t) entries.
 * Gives 0, or the first of 1, 2, 3, 4, 5, 12, 14, 6, 7, 8, 11, 9. 9 sets the named part of work to 0.
 * Proved: the number, the slot, and every entry of work at exit. The cases of one station and of the empty set, and bounds by
 * the through counts, are theorems (crates/demands/specs/Sets.antt).
 * Not covered: each pointer is valid for its length, aligned and not null, also where its length is 0; count is valid,
 * aligned and not null; the slot, set, work and the plan do not overlap.
 */
uint32_t joftaki_through_set(const uint8_t *plan, size_t plan_length, size_t n, size_t t, size_t g, size_t h, size_t s, size_t z,
                             uint64_t *count,
                             const uint8_t *set, size_t set_length,
                             uint64_t *work, size_t work_length);

/*
 * Operation 5, loads: for each station v, at place v, in pairs its pairs, the number of ordered pairs of two different
 * stations with v inside some least chain, and in loads its load, the sum of the shares over its pairs. A share is the whole
 * part of 2^32 * through / count; one unit is 1 / 2^32.
 *
 * Lend: pairs and loads n entries each, work JOFTAKI_WORK_LENGTH(n, t) entries.
 * Gives 0, or the first of 1, 2, 3, 4, 5, 12, 14, 8, 9; every source is worked on. 9 sets the named parts of all three to 0.
 * Proved: the number and every entry of pairs, loads and work at exit.
 * Not covered: each pointer is valid for its length, aligned and not null, also where its length is 0; pairs, loads, work
 * and the plan do not overlap.
 */
uint32_t joftaki_loads(const uint8_t *plan, size_t plan_length, size_t n, size_t t, size_t g, size_t h,
                       uint64_t *pairs, size_t pairs_length,
                       uint64_t *loads, size_t loads_length,
                       uint64_t *work, size_t work_length);

/*
 * Partial loads (document 02, C-18): pairs and loads as loads gives them, over the ordered pairs whose source is below k. Only
 * the sources 0 to k - 1 are worked on. k = 0 gives zeros, and k = n the loads themselves.
 *
 * Where loads is accepted, each load is at least the partial one and exceeds it by at most (n - k) * (n - 1) * 2^32, and each
 * number of pairs is at least the partial one and exceeds it by at most (n - k) * (n - 1). A larger k, if accepted too, never
 * lowers a partial figure and never raises the upper end of its span. So a caller who goes through k = 1, 2, .. n has a first
 * figure of every load with its span after the first call:
 *
 *     for (k = 1; k <= n; k++) {
 *         number = joftaki_partial_loads(plan, plan_length, n, t, g, h, k, pairs, n, loads, n, work, work_length);
 *         if (number != JOFTAKI_ACCEPTED)
 *             break;
 *         more = (uint64_t)(n - k) * (n - 1) << 32;
 *         for (v = 0; v < n; v++)
 *             show(v, loads[v], loads[v] + more);   the load of v lies between, both included
 *     }
 *
 * Each call works anew from source 0 on, so that all n calls together cost as much as about (n + 1) / 2 calls of loads; going
 * through fewer k, as n / 4, n / 2 and n, costs less. A caller may stop after any call: the tables then hold the figures of
 * its k.
 *
 * Lend: as for loads: pairs and loads n entries each, work JOFTAKI_WORK_LENGTH(n, t) entries.
 * Gives 0, or the first of 1, 2, 3, 4, 5, 12, 14, 13, 8, 9. 9 looks at the sources below k alone: with k = 0 it never comes, and
 * where it comes for one k, it comes for every larger k up to n and for loads. 9 sets the named parts of all three to 0.
 * Proved: the number and every entry of pairs, loads and work at exit. The spans, and that k = n gives the loads, are theorems
 * (crates/demands/specs/Partial.antt).
 * Not covered: as for loads: each pointer is valid for its length, aligned and not null, also where its length is 0; pairs,
 * loads, work and the plan do not overlap.
 */
uint32_t joftaki_partial_loads(const uint8_t *plan, size_t plan_length, size_t n, size_t t, size_t g, size_t h, size_t k,
                               uint64_t *pairs, size_t pairs_length,
                               uint64_t *loads, size_t loads_length,
                               uint64_t *work, size_t work_length);

/*
 * Drawn loads (document 02, C-24): loads with a further lent buffer, for the drawing program. pairs and loads as loads gives them.
 * records: for each station a record of 18 bytes, station 0 first, no header and nothing between them. The record of station v
 * begins at v * JOFTAKI_DRAWN_BYTES: the station in 16 bits, the low and the high double (IEEE 754, binary64), the high byte first
 * in all three.
 *
 * low is loads[v] / 2^32 and high (loads[v] + pairs[v]) / 2^32, both exactly: nothing is rounded. Where pairs[v] is 0 the station is
 * idle and both are positive zero. For every other station the exact sum of shares is at least low and below high.
 *
 * A double stands in a record high byte first whatever the machine is. On either byte order it is taken by shifts, not by a cast:
 *
 *     uint64_t bits = 0;
 *     double value;
 *     for (i = 0; i < 8; i++)
 *         bits = bits << 8 | bytes[i];          bytes: where the double begins, 2 or 10 behind the record's first byte
 *     memcpy(&value, &bits, 8);                 a machine whose double and uint64_t have one byte order
 *
 * and the station is (size_t)record[0] << 8 | record[1].
 *
 * Lend: pairs and loads n entries each, records JOFTAKI_DRAWN_LENGTH(n) bytes, work JOFTAKI_WORK_LENGTH(n, t) entries.
 * Gives 0, or the first of 1, 2, 3, 4, 5, 12, 14, 8, 9, as loads; 8 also where records is too short. 9 sets the named parts of all
 * four to 0.
 * Proved: the number, every entry of pairs, loads and work, and every byte of records at exit. That nothing is rounded and the span
 * of the exact sum are theorems (crates/demands/specs/Drawn.antt).
 * Not covered: each pointer is valid for its length, aligned and not null, also where its length is 0; pairs, loads, records, work
 * and the plan do not overlap.
 */
uint32_t joftaki_drawn_loads(const uint8_t *plan, size_t plan_length, size_t n, size_t t, size_t g, size_t h,
                             uint64_t *pairs, size_t pairs_length,
                             uint64_t *loads, size_t loads_length,
                             uint8_t *records, size_t records_length,
                             uint64_t *work, size_t work_length);

/*
 * Read record (document 02, C-24): in *station, *load and *pairs what wrote these bytes as a station's record. A record is read by itself:
 * nothing is said of other records, of n or of a plan.
 *
 * Gives 0, and writes the three slots; or JOFTAKI_FOREIGN, and writes nothing. JOFTAKI_FOREIGN comes for exactly those bytes that are not
 * 18, or that no station below 256 with load and pairs below 2^49, load 0 where pairs are 0, could have written: a minus sign, also of
 * a zero, an infinity, a not-a-number, a subnormal, a value finer than 2^-32, a high below its low, or equal to a low that is not 0. A load
 * of 0 with pairs is not foreign, nor is a load larger than pairs * 2^32.
 * Proved: the number and the three slots at exit, for all bytes. Reading what drawn_loads wrote gives the station with its load and its
 * pairs (crates/demands/specs/Drawn.antt).
 * Not covered: bytes is valid for its length and not null, also where its length is 0; station, load and pairs are valid, aligned and not
 * null; the slots and the bytes do not overlap.
 */
uint32_t joftaki_read_record(const uint8_t *bytes, size_t length,
                             size_t *station, uint64_t *load, uint64_t *pairs);

/*
 * Struck out (document 02, C-23): what the loss of one contact does to the loads. position is that of a record. In changes, at place v,
 * the change of the load of station v: its load in the plan without the record less its load in the plan with it, negative where it
 * falls. In *pairs the number of ordered pairs of two different stations that in the plan with the record have a least chain that uses
 * the contact. n and t stay the same without the record; later records move down by one position.
 *
 * No change is larger than *pairs * 2^32, up or down. A pair uses the contact exactly if without it the pair has more legs, or none, or
 * fewer least chains. The pair of the record's own stations always does, by a chain of this one leg, so that on acceptance *pairs is at
 * least 1 (tested, not among the theorems). Each change is what loads gives for the bytes without the record's six less what it gives for
 * all of them, where loads accepts both:
 *
 *     number = joftaki_struck_out(plan, plan_length, n, t, g, h, position, &pairs, changes, n, work, work_length);
 *     if (number == JOFTAKI_ACCEPTED)
 *         for (v = 0; v < n; v++)
 *             show(v, changes[v]);              in units of 1 / 2^32, with its sign
 *
 * Lend: changes n entries, work JOFTAKI_WORK_LENGTH(n, t) entries.
 * Gives 0, or the first of 1, 2, 3, 4, 5, 12, 14, 8, 17, 9. 9 comes where a source has too many in the plan with the record or in the plan
 * without it: without a short contact the least chains may be longer and more. 9 sets the named parts of changes and work to 0.
 * Proved: the number, the slot, and every entry of changes and work at exit. The bound, when a pair uses the contact, and the changes by
 * loads are theorems (crates/demands/specs/Struck.antt).
 * Not covered: each pointer is valid for its length, aligned and not null, also where its length is 0; pairs is valid, aligned and not
 * null; the slot, changes, work and the plan do not overlap.
 */
uint32_t joftaki_struck_out(const uint8_t *plan, size_t plan_length, size_t n, size_t t, size_t g, size_t h, size_t position,
                            uint64_t *pairs,
                            int64_t *changes, size_t changes_length,
                            uint64_t *work, size_t work_length);

/*
 * Operation 6, busiest: in *station the station with the largest load, the lowest-numbered of them where several have it.
 * Where all loads are 0 that is station 0.
 *
 * Lend: work JOFTAKI_WORK_LENGTH(n, t) entries.
 * Gives 0, or the first of 1, 2, 3, 4, 5, 12, 14, 8, 9; every source is worked on. 9 sets the named part of work to 0.
 * Proved: the number, the slot, and every entry of work at exit. No load exceeds the load of the station given, and every
 * lower-numbered station's is smaller (crates/walks/proofs/BusiestLaws.antt).
 * Not covered: each pointer is valid for its length, aligned and not null, also where its length is 0; station is valid,
 * aligned and not null; the slot, work and the plan do not overlap.
 */
uint32_t joftaki_busiest(const uint8_t *plan, size_t plan_length, size_t n, size_t t, size_t g, size_t h,
                         size_t *station,
                         uint64_t *work, size_t work_length);

/*
 * Operation 7, first way of s, z: the first of the least chains from s to z; in *hops its legs, and in as many first entries of
 * way its positions. The least chains of a pair are ordered by their positions, compared from the first leg.
 *
 * Lend: way t entries, even if the pair has fewer legs or no way; work JOFTAKI_WORK_LENGTH(n, t) entries.
 * Gives 0; JOFTAKI_NONE where the pair has no way, which leaves the whole way buffer as it was; or the first of 1, 2, 3, 4,
 * 5, 12, 14, 6, 7, 8, 9. Entries of way behind the legs are never touched.
 * Proved: the number, the slot, and every entry of way and work at exit. For a listing as a whole, any list of calls of
 * first way and next way on one buffer, document 01's demand 3 is proved (crates/trace, crates/demands/proofs/Demand3.antt).
 * Not covered: each pointer is valid for its length, aligned and not null, also where its length is 0; hops is valid,
 * aligned and not null; the slot, way, work and the plan do not overlap.
 */
uint32_t joftaki_first_way(const uint8_t *plan, size_t plan_length, size_t n, size_t t, size_t g, size_t h, size_t s, size_t z,
                           size_t *hops,
                           uint16_t *way, size_t way_length,
                           uint64_t *work, size_t work_length);

/*
 * Operation 8, next way: the least chain after the one with which way begins, answered as first way. As many first entries of
 * way are read as the least chains have legs, and none is trusted.
 *
 * Lend: as for first way.
 * Gives 0; JOFTAKI_LAST where way begins with the pair's last least chain, which leaves the whole way buffer as it was; or the
 * first of 1, 2, 3, 4, 5, 12, 14, 6, 7, 8, 9, 10. 10: way begins with no least chain of the pair, or it has none.
 * Proved: as for first way.
 * Not covered: as for first way: each pointer is valid for its length, aligned and not null, also where its length is 0;
 * hops is valid, aligned and not null; the slot, way, work and the plan do not overlap.
 */
uint32_t joftaki_next_way(const uint8_t *plan, size_t plan_length, size_t n, size_t t, size_t g, size_t h, size_t s, size_t z,
                          size_t *hops,
                          uint16_t *way, size_t way_length,
                          uint64_t *work, size_t work_length);

/*
 * The verdict on a list of positions that somebody else wrote for the pair s, z (document 02, C-19), in *verdict. The list is
 * held against the least chains of the pair in their order, the positions of one behind those of the one before:
 * JOFTAKI_COMPLETE where it is exactly these; JOFTAKI_BEGINNING where it is the first few whole ones, fewer than all, possibly
 * none; JOFTAKI_WRONG where it is neither, as a list cut inside a chain, with one missing or twice, in another order, or with
 * anything behind the last one. Where the pair has no way the empty list is complete, and every other list is wrong. An entry
 * that is no position makes the list wrong.
 *
 * Lend: list any length, also 0 entries (the pointer is not null), only read; work JOFTAKI_WORK_LENGTH(n, t) entries.
 * Gives 0, or the first of 1, 2, 3, 4, 5, 12, 14, 6, 7, 8, 9. 8 is for work alone: no list is too short. 9 sets the named part of
 * work to 0.
 * Proved: the number, the slot, and every entry of work at exit. That what a listing gives from one accepted first way until
 * just before the next is complete where all least chains are out, and a beginning otherwise, is a theorem
 * (crates/demands/specs/Verdicts.antt).
 * Not covered: each pointer is valid for its length, aligned and not null, also where its length is 0; verdict is valid,
 * aligned and not null; the slot, list, work and the plan do not overlap.
 */
uint32_t joftaki_verdict(const uint8_t *plan, size_t plan_length, size_t n, size_t t, size_t g, size_t h, size_t s, size_t z,
                         uint32_t *verdict,
                         const uint16_t *list, size_t list_length,
                         uint64_t *work, size_t work_length);

/*
 * Take a plan into a band (document 02, C-22): every record takes one of the band's c channels in its slot. table holds the use of
 * each slot, slot u at JOFTAKI_BAND_PLACE(u). To each of the 255 entries the number of the plan's records in that slot is added; a
 * slot without records, also one above t, keeps its entry. Two stations that hear each other in a slot have two records there and
 * take two channels. Where c is 0, only a plan without records is taken in.
 *
 * A band begins as a table of zeros. Where only take_in and take_out write to it, take_in always has the same c, and take_out is
 * called only for plans then in, each entry is the number of records in its slot over the plans then in, one taken in twice
 * counting twice, and none is above c. There 15 comes exactly where the new plan would bring some slot's records over all plans in
 * above c and no number from 1 to 8 holds, and 16 never comes. So plans share a band by one table:
 *
 *     uint16_t band[JOFTAKI_BAND_LENGTH] = {0};
 *     number = joftaki_take_in(plan, plan_length, n, t, c, band, JOFTAKI_BAND_LENGTH);
 *     if (number == JOFTAKI_CHANNELS)
 *         the plan does not fit beside those that are in
 *
 * Lend: table JOFTAKI_BAND_LENGTH entries, whatever t is. There is no work area.
 * Gives 0, or the first of 1, 2, 3, 4, 5, 8, 15. 15 looks at all 255 entries, also at one in whose slot the plan has no record. A
 * sum above 65,535 is above every c. A refusal leaves the table as it was. Entries past the 255 are neither looked at nor touched.
 * Proved: the number and every entry of table at exit. What holds in a run of calls is a theorem (crates/demands/specs/Band.antt).
 * Not covered: each pointer is valid for its length, aligned and not null, also where its length is 0; table and the plan do not
 * overlap. That only these calls write to the table, and that a plan taken out is in, is the caller's: no function keeps a list.
 */
uint32_t joftaki_take_in(const uint8_t *plan, size_t plan_length, size_t n, size_t t, uint16_t c,
                         uint16_t *table, size_t table_length);

/*
 * Take a plan out of a band (document 02, C-22): from each of the 255 entries of table the number of the plan's records in that slot
 * is subtracted. The channels do not count here: there is no c. A plan that is in twice is in once afterwards.
 *
 * Lend: as for take_in: table JOFTAKI_BAND_LENGTH entries, whatever t is.
 * Gives 0, or the first of 1, 2, 3, 4, 5, 8, 16. 16 is no answer to whether a plan is in: where the plans in have as many records in
 * its slots, a plan that is not in is taken out too. A refusal leaves the table as it was. Entries past the 255 are neither looked
 * at nor touched.
 * Proved: as for take_in.
 * Not covered: as for take_in: each pointer is valid for its length, aligned and not null, also where its length is 0; table and the
 * plan do not overlap.
 */
uint32_t joftaki_take_out(const uint8_t *plan, size_t plan_length, size_t n, size_t t,
                          uint16_t *table, size_t table_length);

#ifdef __cplusplus
}
#endif

#endif
