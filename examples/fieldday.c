/* What the notebook's firmware does in the field: the day of examples/p8.day is opened with the plan that the base sent and walked through, slot
 * by slot, while a job comes in and the base offers plans. Run, from the repository's root, after bin/archive:
 *     cc -O2 examples/fieldday.c target/staticlib/libchaskuri.a -o target/fieldday && target/fieldday */
#include "../include/chaskuri.h"

int printf(const char *, ...);

static void show(const char *what, chaskuri_field_answer given) {
    printf("%s: code %u, first %u, second %u; slot %u, starts", what, (unsigned)given.answer.code, (unsigned)given.answer.first,
           (unsigned)given.answer.second, (unsigned)given.held.slot);
    for (size_t i = 0; i < given.held.count; i++)
        printf(" %u", (unsigned)given.held.starts[i]);
    printf("\n");
}

/* Goes on by some slots, and gives the day after them. */
static chaskuri_field_day walk(chaskuri_field_day field, int slots) {
    for (int i = 0; i < slots; i++) {
        chaskuri_field_answer given = chaskuri_advance(field);
        show("advance", given);
        field = given.held;
    }
    return field;
}

static uint16_t table[CHASKURI_TABLE_PLACES(4, 10)];

int main(void) {
    chaskuri_day day = {10, {3}};
    chaskuri_job jobs[3] = {{0, 1}, {2, 8}, {9, 10}}, late = {1, 7}, passed = {0, 3};
    uint16_t base[3] = {0, 4, 9}, undoes[4] = {1, 3, 9, 4}, dearer[4] = {0, 3, 9, 4}, cheaper[3] = {0, 7, 9};

    chaskuri_field_answer given = chaskuri_open(day, jobs, 3, base, 3);
    show("open", given);
    if (given.answer.code != CHASKURI_DONE)
        return 1;
    chaskuri_field_day field = walk(given.held, 1);

    given = chaskuri_offer(field, cheaper, 3);
    show("offer of a cheaper plan", given);
    field = walk(given.held, 2);

    given = chaskuri_add(field, passed, table, sizeof table / sizeof *table);
    show("add a job whose window has passed", given);
    given = chaskuri_add(given.held, late, table, sizeof table / sizeof *table);
    show("add a job", given);
    given = chaskuri_offer(given.held, undoes, 4);
    show("offer of a plan that moves what is done", given);
    given = chaskuri_offer(given.held, dearer, 4);
    show("offer of a plan that costs no less", given);

    field = walk(given.held, 7);
    show("at the end", chaskuri_advance(field));
    return 0;
}
