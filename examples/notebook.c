/* What the notebook's firmware does with a day: the list of examples/p8.day is checked, planned, priced, looked at, moved, written and read
 * back; and where a list has no plan, it shows why. Run, from the repository's root, after bin/archive:
 *     cc -O2 examples/notebook.c target/staticlib/libchaskuri.a -o target/notebook && target/notebook */
#include "../include/chaskuri.h"

int printf(const char *, ...);

static void show_jobs(const char *what, const chaskuri_job *jobs, size_t count) {
    printf("%s", what);
    for (size_t i = 0; i < count; i++)
        printf(" (%u,%u)", (unsigned)jobs[i].release, (unsigned)jobs[i].deadline);
    printf("\n");
}

static void show_starts(const uint16_t *starts, size_t count) {
    printf("starts");
    for (size_t i = 0; i < count; i++)
        printf(" %u", (unsigned)starts[i]);
    printf("\n");
}

static uint16_t table[CHASKURI_TABLE_PLACES(3, 14)];

// Plans a list of at most three jobs; where no plan exists, shows the slots that are too few.
static void plan_or_why(chaskuri_day day, const chaskuri_job *jobs, size_t count, uint16_t *starts) {
    chaskuri_answer planned = chaskuri_plan(day, jobs, count, starts, count, table, sizeof table / sizeof *table);
    printf("plan: code %u, cost %u\n", (unsigned)planned.code, (unsigned)planned.first);
    if (planned.code == CHASKURI_DONE)
        show_starts(starts, count);
    if (planned.code == CHASKURI_NO_PLAN) {
        chaskuri_span span = chaskuri_crowded_span(day.slots, jobs, count).span;
        printf("too few: slots %u to %u for %u jobs\n", (unsigned)span.begin, (unsigned)span.end - 1, (unsigned)span.jobs);
    }
}

int main(void) {
    chaskuri_day day = {10, {3}};
    chaskuri_job jobs[3] = {{0, 1}, {2, 8}, {9, 10}}, read[40];
    uint16_t starts[3], server[3] = {0, 5, 9};
    uint8_t file[64] = "notes";

    chaskuri_answer checked = chaskuri_check(8, jobs, 3);
    printf("checked for a day of 8: code %u, row %u\n", (unsigned)checked.code, (unsigned)checked.first);
    checked = chaskuri_check(day.slots, jobs, 3);
    printf("checked for a day of 10: code %u\n", (unsigned)checked.code);
    if (checked.code != CHASKURI_DONE)
        return 1;

    plan_or_why(day, jobs, 3, starts);
    chaskuri_job crowd[3] = {{8, 10}, {8, 10}, {8, 10}};
    plan_or_why(day, crowd, 3, starts); // the starts stay as they are

    chaskuri_answer priced = chaskuri_price(day, jobs, 3, server, 3);
    printf("the server's plan: code %u, cost %u\n", (unsigned)priced.code, (unsigned)priced.first);
    chaskuri_answer chosen = chaskuri_which(day, jobs, 3, starts, 3, server, 3);
    printf("the winner: code %u, plan %u\n", (unsigned)chosen.code, (unsigned)chosen.first);

    chaskuri_ledger_answer ledger = chaskuri_ledger(day, jobs, 3, starts, 3);
    printf("ledger: code %u, slots %u %u %u %u %u\n", (unsigned)ledger.answer.code, (unsigned)ledger.counts.before, (unsigned)ledger.counts.job,
           (unsigned)ledger.counts.awake, (unsigned)ledger.counts.asleep, (unsigned)ledger.counts.after);
    for (uint16_t slot = 6; slot <= 10; slot++) {
        chaskuri_slot_answer shown = chaskuri_slot(day, jobs, 3, starts, 3, slot);
        printf("slot %u: code %u, filling %u, row %u\n", (unsigned)slot, (unsigned)shown.answer.code, (unsigned)shown.filling, (unsigned)shown.row);
    }

    chaskuri_answer moved = chaskuri_move(10, jobs, 3, 1);
    printf("moved by 1 on a day of 10: code %u, row %u\n", (unsigned)moved.code, (unsigned)moved.first);
    day.slots = 14;
    moved = chaskuri_move(14, jobs, 3, 4);
    printf("moved by 4 on a day of 14: code %u\n", (unsigned)moved.code);
    show_jobs("jobs", jobs, 3);
    plan_or_why(day, jobs, 3, starts);

    chaskuri_answer written = chaskuri_write(day, jobs, 3, 5, file, sizeof file);
    printf("written after 5 bytes of notes: code %u\n", (unsigned)written.code);
    chaskuri_reading reading = chaskuri_read(file, 5 + 4 * 3 + 10, read, 40);
    printf("read: code %u, count %u, slots %u, wake %u\n", (unsigned)reading.answer.code, (unsigned)reading.count, (unsigned)reading.day.slots, (unsigned)reading.day.power.wake);
    show_jobs("jobs", read, reading.count);
    reading = chaskuri_read(file, 5 + 4 * 3 + 10, read, 2);
    printf("read into room for 2: code %u\n", (unsigned)reading.answer.code);
    return 0;
}
