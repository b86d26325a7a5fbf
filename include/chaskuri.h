/* Chaskuri: plans one-slot jobs on a machine that can sleep, at least cost. Link with libchaskuri.a, which `bin/archive` makes for
 * x86-64; of the C library it needs memcpy and memset.
 *
 * Words
 *   Day: slots 0 to slots-1, from 1 to 96 of them. Waking costs `wake`, 0 to 1000.
 *   Job: a record of a list, which has at most 40. It fills one slot of its window. Rows are counted from 1 in answers.
 *   Start: the slot that a job fills. The starts of a plan stand in row order, one for each job.
 *   Proper: a plan in which each job starts in its window, and no two in the same slot.
 *   Crowded span: slots a to b-1 of the day in which more than b-a jobs have their whole window. There is one exactly if no plan is proper.
 *   Gap: a longest run of empty slots with a job somewhere before it and one after it. Before the first job and after the last there is none.
 *   Price of a gap of g slots: the smaller of g and wake. With g <= wake the machine is awake, with g > wake it is asleep.
 *   Cost of a plan: the sum over its gaps. Without jobs it is 0.
 *   Number: jobs are numbered by deadline, equal deadlines by row.
 *   Tie rule: of the cheapest proper plans the one whose highest-numbered job starts latest; among those, whose next highest starts latest; and
 *     so on. So exactly one plan is right.
 *   Day in the field: a list, the plan held, and the current slot, from 0 to slots. It goes in by value and comes back by value. A job whose start is
 *     below the current slot is done, and keeps its slot. In the cut list a done job's window is its slot, and the others' releases are raised
 *     to the current slot where they are lower.
 *   Day file: notes of any length; release and deadline of each row; then the number of rows, slots, wake, the distance back from the file's end
 *     to the first row, 4 * rows + 10, and the mark, bytes 80 and 76. Numbers have 16 bits, the low byte first.
 *
 * Memory
 *   A buffer goes in as a pointer and its length, which counts elements, not bytes. The pointer is not null, also where the length is 0, and
 *   aligned: to 2 for numbers and records, to 1 for bytes. A buffer that a call writes overlaps no other buffer of that call; buffers that it
 *   only reads may overlap. What a call fills (starts, table, the room for read jobs, the file) needs no value before. Nothing else is
 *   asked: what a call cannot take it refuses by a code.
 *   No call allocates, keeps a pointer or any state, or touches memory that it was not lent: calls may run side by side in threads, as long as
 *   none writes a buffer that another was lent. Of stack chaskuri_add takes at most 7,508 bytes, chaskuri_plan 6,276, every other call less
 *   than 2,100: that is measured, by bench/stack.c with the kit rattle-kit-13f. What is said of each call below is proved, in crates/chaskuri_c. */
#ifndef CHASKURI_H
#define CHASKURI_H

#include <stddef.h>
#include <stdint.h>

#ifdef __cplusplus
extern "C" {
#endif

/* A job may start in the slots `release` to `deadline` - 1, its window: release < deadline <= slots. */
typedef struct {
    uint16_t release;
    uint16_t deadline;
} chaskuri_job;

/* What the machine's sleep costs: `wake` is paid each time it wakes. */
typedef struct {
    uint16_t wake;
} chaskuri_power;

typedef struct {
    uint16_t slots;
    chaskuri_power power;
} chaskuri_day;

/* A code and two numbers; a number that the code does not name is 0. */
typedef struct {
    uint16_t code;
    uint16_t first;
    uint16_t second;
} chaskuri_answer;

/* What the reader gives beside the rows; count and day are 0 under a refusal. */
typedef struct {
    chaskuri_answer answer;
    uint16_t count;
    chaskuri_day day;
} chaskuri_reading;

/* How many slots are filled so; 0 under a refusal. The five add up to the day's slots. */
typedef struct {
    uint16_t before;
    uint16_t job;
    uint16_t awake;
    uint16_t asleep;
    uint16_t after;
} chaskuri_counts;

typedef struct {
    chaskuri_answer answer;
    chaskuri_counts counts;
} chaskuri_ledger_answer;

/* The slots `begin` to `end` - 1, and how many jobs have their whole window there; all 0 under a refusal. */
typedef struct {
    uint16_t begin;
    uint16_t end;
    uint16_t jobs;
} chaskuri_span;

typedef struct {
    chaskuri_answer answer;
    chaskuri_span span;
} chaskuri_crowd_answer;

/* What fills a slot. Under a refusal slot, filling and row are 0. */
typedef struct {
    chaskuri_answer answer;
    uint16_t slot;
    uint16_t filling; /* a chaskuri_filling */
    uint16_t row;     /* the job's row, counted from 1; 0 where no job stands */
} chaskuri_slot_answer;

enum chaskuri_filling {
    CHASKURI_BEFORE = 0, /* before the first job; every slot where there is no job */
    CHASKURI_JOB = 1,
    CHASKURI_AWAKE = 2,  /* in a gap spent awake */
    CHASKURI_ASLEEP = 3, /* in a gap slept through */
    CHASKURI_AFTER = 4   /* after the last job */
};

/* A day in the field. The first `count` places are the jobs' windows and their starts. A day comes from its caller at every call, and every call
 * judges it: it may hold anything. */
typedef struct {
    chaskuri_day day;
    uint16_t slot;
    uint16_t count;
    uint16_t releases[40];
    uint16_t deadlines[40];
    uint16_t starts[40];
} chaskuri_field_day;

/* What a call on such a day gives back: the answer, and the day held after it. On 0 the places beyond `count` are 0; under a refusal the day is as
 * it was given. */
typedef struct {
    chaskuri_answer answer;
    chaskuri_field_day held;
} chaskuri_field_answer;

/* 17 is the program's alone: its input is above 4,096 bytes. */
enum chaskuri_code {
    CHASKURI_DONE = 0,            /* planner, pricing, open and add: first is the cost; offer: 1 if it is taken, else 0 */
    CHASKURI_BAD_SLOTS = 1,       /* no slots, or more than 96 */
    CHASKURI_BAD_WAKE = 2,        /* a wake that costs more than 1000 */
    CHASKURI_TOO_MANY_JOBS = 3,   /* more than 40 jobs */
    CHASKURI_BAD_ROW = 4,         /* first: the first row with an empty window, or one that ends after the day */
    CHASKURI_FEW_STARTS = 5,      /* fewer places for starts, or fewer claimed starts, than jobs */
    CHASKURI_SHORT_TABLE = 6,     /* the work table is too short */
    CHASKURI_NO_PLAN = 7,         /* no proper plan exists */
    CHASKURI_SHORT_FILE = 8,      /* a day file of fewer than 10 bytes */
    CHASKURI_WRONG_MARK = 9,      /* a day file that does not end in the mark */
    CHASKURI_WRONG_DISTANCE = 10, /* the distance back is not that of the file's rows */
    CHASKURI_CUT_FILE = 11,       /* a file shorter than the distance back */
    CHASKURI_FEW_ROWS = 12,       /* room for fewer rows than the file has */
    CHASKURI_NO_ROOM = 13,        /* no room to write the file */
    CHASKURI_OUTSIDE_WINDOW = 14, /* first: the first row whose claimed start is outside its window */
    CHASKURI_SAME_START = 15,     /* first: the lowest row of any two that start together; second: its lowest partner */
    CHASKURI_NEITHER_PROPER = 16, /* neither of two plans is proper */
    CHASKURI_LEAVES_DAY = 18,     /* first: the first row whose moved window would leave the day */
    CHASKURI_NO_SUCH_SLOT = 19,   /* the slot asked for is not of the day */
    CHASKURI_DAY_OVER = 20,       /* the current slot is above the day's slots, or, to advance, equal to them */
    CHASKURI_PLAN_EXISTS = 21     /* there is a proper plan, so that no span is crowded */
};

/* How many places of the work table a plan of so many jobs on a day of so many slots needs: 401,841 are enough for any. */
#define CHASKURI_TABLE_PLACES(jobs, slots) (((size_t)(jobs) + 1) * ((size_t)(slots) + 3) * ((size_t)(slots) + 3))

/* Judges a day's length and a list, as a caller asks before it keeps the list. A wake is not asked for.
 * Refuses by 1, 3, 4, in that order. Writes nothing. */
chaskuri_answer chaskuri_check(uint16_t slots, const chaskuri_job *jobs, size_t count);

/* Plans the list at least cost; of the cheapest plans, the one of the tie rule.
 * Refuses by 1, 2, 3, 4, 5, 6, 7, in that order.
 * On 0 the first `count` starts are the plan's. On 0 and 7 the needed places of the table are set to zero. Nothing else is written. */
chaskuri_answer chaskuri_plan(chaskuri_day day, const chaskuri_job *jobs, size_t count, uint16_t *starts, size_t starts_len, uint16_t *table,
                              size_t table_len);

/* Why there is no proper plan: the shortest crowded span, among those the earliest. On 0 the answer's numbers are 0, and the span is shown. A wake is
 * not asked for: where chaskuri_plan answers 7, at whatever wake, this answers 0, and where that answers 0, this answers 21.
 * Refuses by 1, 3, 4, 21, in that order. Writes nothing. */
chaskuri_crowd_answer chaskuri_crowded_span(uint16_t slots, const chaskuri_job *jobs, size_t count);

/* What a claimed plan costs. Of the starts only the first `count` matter.
 * Refuses by 1, 2, 3, 4, 5, 14 over all rows, then 15. Writes nothing. */
chaskuri_answer chaskuri_price(chaskuri_day day, const chaskuri_job *jobs, size_t count, const uint16_t *starts, size_t starts_len);

/* Which of two claimed plans wins: the cheaper proper one, at equal cost the notebook's own. First: 1, own, or 2, the server's. A plan with too
 * few starts is not proper. The winner's part is its first `count` starts, where they lie.
 * Refuses by 1, 2, 3, 4, 16. Writes nothing. */
chaskuri_answer chaskuri_which(chaskuri_day day, const chaskuri_job *jobs, size_t count, const uint16_t *own, size_t own_len,
                               const uint16_t *server, size_t server_len);

/* Counts the slots of a claimed plan by what fills them.
 * Refuses as pricing. Writes nothing. */
chaskuri_ledger_answer chaskuri_ledger(chaskuri_day day, const chaskuri_job *jobs, size_t count, const uint16_t *starts, size_t starts_len);

/* What fills one slot of a claimed plan.
 * Refuses as pricing, then by 19. Writes nothing. */
chaskuri_slot_answer chaskuri_slot(chaskuri_day day, const chaskuri_job *jobs, size_t count, const uint16_t *starts, size_t starts_len,
                                   uint16_t slot);

/* Moves every window by `by` slots, in the lent list; a positive number is later.
 * Refuses by 1, 3, 4, 18. On 0 every job is written; else nothing is. */
chaskuri_answer chaskuri_move(uint16_t slots, chaskuri_job *jobs, size_t count, int16_t by);

/* Reads a day file into the first jobs of the lent list, which has room for `room`. The reader judges neither day nor windows.
 * Refuses by 8, 9, 3, 10, 11, 12. On 0 the first jobs, as many as the file has rows, are written; else nothing is. */
chaskuri_reading chaskuri_read(const uint8_t *file, size_t file_len, chaskuri_job *jobs, size_t room);

/* Writes the list as a day file after the first `notes` bytes of `file`, which stay. The file is then the first notes + 4 * count + 10 bytes.
 * Refuses by 3, 13. On 0 those bytes after the notes are written; else nothing is. */
chaskuri_answer chaskuri_write(chaskuri_day day, const chaskuri_job *jobs, size_t count, size_t notes, uint8_t *file, size_t file_len);

/* Opens a day in the field at slot 0 with a list and a proper plan for it. First: what the plan costs.
 * Refuses as pricing; the day is then all zeros. Writes nothing. */
chaskuri_field_answer chaskuri_open(chaskuri_day day, const chaskuri_job *jobs, size_t count, const uint16_t *starts, size_t starts_len);

/* Goes on by a slot: the job that stands in the current slot is done.
 * Refuses as opening does, by the day that is given, then by 20 a slot above the day's slots or equal to them. Writes nothing. */
chaskuri_field_answer chaskuri_advance(chaskuri_field_day field);

/* Adds a job as the last row and plans the cut list with it, as chaskuri_plan does. First: what the new plan costs. The list holds the job as it
 * is given.
 * Refuses as opening does, then by 20 a slot above the day's slots; then by 3 with the new job, 4 that names it, 6 for one job more, and 7: no
 * proper plan of the cut list, which is so too if no slot of the new job's window is left.
 * On 0 and 7 the needed places of the table are set to zero. Nothing else is written. */
chaskuri_field_answer chaskuri_add(chaskuri_field_day field, chaskuri_job job, uint16_t *table, size_t table_len);

/* Offers a server's plan. It replaces the plan held exactly if it is proper for the cut list and strictly cheaper: first is then 1, else 0. Of the
 * starts only the first `count` of the day matter.
 * Refuses as opening does, then by 20 a slot above the day's slots; then by 5, 14 over all rows of the cut list, 15. Writes nothing. */
chaskuri_field_answer chaskuri_offer(chaskuri_field_day field, const uint16_t *starts, size_t starts_len);

#ifdef __cplusplus
}
#endif

#endif
