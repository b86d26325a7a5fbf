// How much stack each call of the library takes, with what its caller puts there for it. A call runs on a stack of its own, painted before, and
// the bytes down to the deepest that it changed are counted. Run, from the repository's root, after bin/archive:
//     gcc -O2 bench/stack.c target/staticlib/libchaskuri.a -o target/stack && target/stack
#define _XOPEN_SOURCE 700
#include "../include/chaskuri.h"
#include <stdio.h>
#include <string.h>
#include <ucontext.h>

enum { MOST_JOBS = 40, MOST_SLOTS = 96, LISTS = 300 };

// what the calls below work on
static chaskuri_day day;
static chaskuri_job jobs[MOST_JOBS + 1], room[MOST_JOBS];
static size_t count;
static uint16_t starts[MOST_JOBS], table[CHASKURI_TABLE_PLACES(MOST_JOBS, MOST_SLOTS)];
static uint8_t file[4 * (MOST_JOBS + 1) + 10];
static chaskuri_field_day held, shorter; // the day opened with the list, and with all but its last job

static void check(void) { chaskuri_check(day.slots, jobs, count); }
static void plan(void) { chaskuri_plan(day, jobs, count, starts, MOST_JOBS, table, sizeof table / sizeof *table); }
static void crowd(void) { chaskuri_crowded_span(day.slots, jobs, count); }
static void price(void) { chaskuri_price(day, jobs, count, starts, MOST_JOBS); }
static void which(void) { chaskuri_which(day, jobs, count, starts, MOST_JOBS, starts, MOST_JOBS); }
static void ledger(void) { chaskuri_ledger(day, jobs, count, starts, MOST_JOBS); }
static void slot(void) { chaskuri_slot(day, jobs, count, starts, MOST_JOBS, (uint16_t)(day.slots / 2)); }
static void move(void) { chaskuri_move(day.slots, jobs, count, 0); }
static void write(void) { chaskuri_write(day, jobs, count, 0, file, sizeof file); }
static void read(void) { chaskuri_read(file, 4 * count + 10, room, MOST_JOBS); }
static void open(void) { held = chaskuri_open(day, jobs, count, starts, MOST_JOBS).held; }
static void advance(void) { chaskuri_advance(held); }
static void offer(void) { chaskuri_offer(held, starts, MOST_JOBS); }
static void add(void) { chaskuri_add(shorter, jobs[count - 1], table, sizeof table / sizeof *table); }

static const struct {
    const char *name;
    void (*call)(void);
} calls[] = {{"check", check}, {"plan", plan}, {"crowded_span", crowd}, {"price", price}, {"which", which}, {"ledger", ledger}, {"slot", slot},
             {"move", move},   {"write", write}, {"read", read}, {"open", open}, {"advance", advance}, {"add", add}, {"offer", offer}};
enum { CALLS = sizeof calls / sizeof *calls };

static unsigned char stack[1 << 16], *top;

// Where the stack of a function begins: above its return address and the frame pointer that it saved.
static void mark_top(void) { top = (unsigned char *)__builtin_frame_address(0) + 2 * sizeof(void *); }

static void run(void (*call)(void), unsigned char paint) {
    static ucontext_t here, there;
    memset(stack, paint, sizeof stack);
    getcontext(&there);
    there.uc_stack.ss_sp = stack;
    there.uc_stack.ss_size = sizeof stack;
    there.uc_link = &here;
    makecontext(&there, call, 0);
    swapcontext(&here, &there);
}

static size_t depth_over(void (*call)(void), unsigned char paint) {
    run(call, paint);
    unsigned char *deepest = stack;
    while (deepest < top && *deepest == paint)
        deepest++;
    return (size_t)(top - deepest);
}

// Two paints, so that a byte which happens to be one of them still counts.
static size_t depth(void (*call)(void)) {
    size_t a = depth_over(call, 0xa5), b = depth_over(call, 0x5a);
    return a > b ? a : b;
}

static unsigned below(unsigned limit) {
    static uint32_t seed = 1;
    seed = seed * 1664525u + 1013904223u;
    return (seed >> 8) % limit;
}

enum list { ANYWHERE, OWN_SLOT, NO_PLAN, TOO_MANY, DRAWN };

// The first lists are as long as they may be, on the longest day; from `DRAWN` on they are drawn.
static void make_list(unsigned list) {
    day.slots = (uint16_t)(MOST_SLOTS - (list < DRAWN ? 0 : below(60)));
    day.power.wake = (uint16_t)below(8);
    count = list == TOO_MANY ? MOST_JOBS + 1 : MOST_JOBS - (list < DRAWN ? 0 : below(20));
    for (unsigned i = 0; i < count; i++) {
        unsigned release = 0, deadline = day.slots;
        if (list == OWN_SLOT) {
            release = 2 * i;
            deadline = release + 1;
        } else if (list == NO_PLAN) {
            deadline = 1;
        } else if (list >= DRAWN) {
            release = below(day.slots);
            deadline = release + 1 + below(day.slots - release);
        }
        jobs[i].release = (uint16_t)release;
        jobs[i].deadline = (uint16_t)deadline;
    }
}

int main(void) {
    size_t most[CALLS] = {0};
    run(mark_top, 0);
    for (unsigned list = 0; list < LISTS; list++) {
        make_list(list);
        plan();
        shorter = chaskuri_open(day, jobs, count - 1, starts, MOST_JOBS).held;
        for (int i = 0; i < CALLS; i++) {
            calls[i].call(); // once before it is counted: the dynamic linker works on the first call
            size_t taken = depth(calls[i].call);
            if (taken > most[i])
                most[i] = taken;
        }
    }
    for (int i = 0; i < CALLS; i++)
        printf("chaskuri_%-13s%6zu bytes\n", calls[i].name, most[i]);
    return 0;
}
