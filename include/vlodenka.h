/*
 * Vlodenka: the job orders of a small kernel, from its job table alone.
 *
 * Link with libvlodenka.a (for x86-64), which examples/run proves and writes to target/staticlib/.
 *
 * A table is bytes: one FR record, then for each job a JB record and its SG records. Every call answers with a refusal's number:
 *
 *   0  done
 *   1  more than 4,096 bytes, no FR at the start, a wrong mark, a mark in a wrong place, a record cut off, or fewer SG records than a JB counts
 *   2  a number outside its bounds
 *   3  a job released earlier than the job before it
 *   4  no job, more than 32 jobs, or more than 64 segments
 *   5  some run ends later than the frame length
 *   6  replay: not exactly one time per segment, or one outside its bounds
 *   7  the lent room is too small
 *   8  judge: the log is of no run
 *
 * The lowest that applies is given, and then lent memory is as it was. Every out-parameter is written on every call: 0 where there is a refusal.
 * Nothing is allocated, and nothing is kept between calls. Pointers must not be null and must be good for the lengths that go with them, also where
 * a length is 0; memory that a call writes must not overlap what it reads.
 */
#ifndef VLODENKA_H
#define VLODENKA_H

#include <stddef.h>
#include <stdint.h>

#ifdef __cplusplus
extern "C" {
#endif

/* Where there is no job and no segment, and the parent of node 0. */
#define VLODENKA_NONE UINT32_C(4294967295)

/* Kinds of switches, in logs and in nodes. */
#define VLODENKA_FIRST 0
#define VLODENKA_END 1
#define VLODENKA_STEP 2
#define VLODENKA_CUT 3

/* A switch of a log is four words: kind, tick, job, segment. A log has at most 96 switches. */
#define VLODENKA_SWITCH_WORDS 4

/*
 * A node of a tree is eight words: parent, kind, job, segment, earliest and latest tick of leaving, earliest and latest tick at which the named
 * segment starts or resumes. Node 0 is the first dispatch; numbers go down before across.
 */
#define VLODENKA_NODE_WORDS 8

/*
 * Replay: the log of the run with these times, one per segment in table order, is written from the start of `log`; *switches says how many switches
 * it has. Words after them stay. Refusals: 1 to 5, 6, 7.
 */
uint32_t vlodenka_replay(const uint8_t *table, size_t table_len, const uint32_t *times, size_t times_len,
                         uint32_t *log, size_t log_len, uint32_t *switches);

/*
 * Judge: 0 exactly if some times within the bounds have a run with this log. Those times, one per segment in table order, are written from the start
 * of `times`; there are no others. Words after them stay. Refusals: 1 to 5, 7, 8.
 */
uint32_t vlodenka_judge(const uint8_t *table, size_t table_len, const uint32_t *log, size_t log_len,
                        uint32_t *times, size_t times_len);

/*
 * Tree: the nodes of the tree of all orders are written from the start of `words`; *nodes says how many there are, and *orders how many orders. Its
 * paths from root to leaf are exactly the orders of runs, each once. Words after the last node stay. Room is words_len / 8 nodes, at most 1,000,000.
 * Refusals: 1 to 5, 7.
 */
uint32_t vlodenka_tree(const uint8_t *table, size_t table_len, uint32_t *words, size_t words_len,
                       uint32_t *nodes, uint32_t *orders);

/*
 * Part: where in the table the records of one job lie, its JB and SG records together. Where the table draws 1 to 4 or has no such job, *start is the
 * table's end and *length 0.
 */
void vlodenka_part(const uint8_t *table, size_t table_len, uint32_t job,
                   uint32_t *start, uint32_t *length);

#ifdef __cplusplus
}
#endif

#endif
