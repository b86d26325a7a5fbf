// Two plain C versions of the planner's dynamic program, over the same table and with the same answers: document 01's rule, points counted
// from 1 so that 0 and slots + 2 are the far points. And the planner's two searches for a split while a plan is read back.
#ifndef CHASKURI_BENCH_VERSIONS_H
#define CHASKURI_BENCH_VERSIONS_H
#include <stddef.h>
#include <stdint.h>

enum { MOST_JOBS = 40, MOST_SLOTS = 96, MOST_POINTS = MOST_SLOTS + 3, NONE = 30000 };

// The jobs in number order, slots counted from 1, and the lowest number released at each slot.
struct numbered {
    unsigned slots, count, order[MOST_JOBS];
    uint16_t release[MOST_JOBS], deadline[MOST_JOBS], lowest[MOST_POINTS];
};

void number_jobs(struct numbered *jobs, unsigned slots, unsigned count, const uint16_t *releases, const uint16_t *deadlines);

// Fills the table.
typedef void fill(uint16_t *table, unsigned slots, unsigned wake, unsigned count, const uint16_t *release, const uint16_t *deadline,
                  const uint16_t *lowest);

// The usual loop: for each cell the least sum over its splits, one column walk a cell.
void fill_by_cell(uint16_t *table, unsigned slots, unsigned wake, unsigned count, const uint16_t *release, const uint16_t *deadline,
                  const uint16_t *lowest);

// The planner's own order: for each split a list of sums is lowered, both runs contiguous.
void fill_by_band(uint16_t *table, unsigned slots, unsigned wake, unsigned count, const uint16_t *release, const uint16_t *deadline,
                 const uint16_t *lowest);

// The value of the whole day, from a filled table; NONE where there is no plan.
unsigned whole_value(const uint16_t *table, const struct numbered *jobs);

// Reads back, by number, the starts of the lowest k jobs that are released in the span from s to e of this value, and says how many places
// of the table it has read.
typedef unsigned long read_back(const uint16_t *table, const struct numbered *jobs, unsigned k, unsigned s, unsigned e, unsigned value,
                                uint16_t *starts);

// Before T-02: every place from the release on, and the last of the least sums.
read_back read_back_from_release;

// Since then: from the latest place down to the first with the sum that is known.
read_back read_back_from_evening;

// Sets the places that the jobs need to zero.
void clear(uint16_t *table, const struct numbered *jobs);

// Plans a list with one of the fills: 7 where there is no plan, else 0 with the cost and the starts in row order. Clears the table.
int plan_in_c(fill *fill, unsigned slots, unsigned wake, unsigned count, const uint16_t *releases, const uint16_t *deadlines,
              uint16_t *starts, uint16_t *cost, uint16_t *table);

// How many sums `fill_by_band` looks at.
unsigned long inner_steps(const struct numbered *jobs);
#endif
