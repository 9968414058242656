/* The stack that each entry of the library takes, measured: `stack [TEXT]`. A thread runs on a stack of our own. It paints the stack below itself, goes
   4 KB down, calls the entry there, and looks for the lowest byte that is no longer as painted. The same for a function that does nothing is taken off,
   so what is left is the entry, all that it calls, and the call itself with its arguments. Each is measured with two paints, so that no byte is missed for
   having been written as painted, and the greater number stands. Writes a table. TEXT, with the library's entries on text (-DTEXT): a file that
   they are to read. */
#include <pthread.h>
#include <stdio.h>
#include <stdlib.h>
#include "../include/crankforest.h"

enum { EVENTS = 1024, RULES = 4096, STACK = 4 << 20, APART = 4096 };

static _Alignas(4096) unsigned char stack[STACK];

/* ---- what the entries are called with, and where they write */
static size_t sources[RULES], targets[RULES], marks[RULES], out_sources[RULES], out_targets[RULES];
static int64_t leasts[RULES], mosts[RULES], times[EVENTS], delays[RULES], out_leasts[RULES], out_mosts[RULES];
static size_t place, source_depth, target_depth, events, rules;
static int64_t least, separation;
static volatile size_t refusal;

/* 1,024 events and 4,096 rules: event v + 1 has rules from events up to three before it */
static void make_graph(void) {
    for (size_t i = 0; i < RULES; i++) {
        targets[i] = 1 + i % (EVENTS - 1);
        sources[i] = targets[i] - 1 - i / (EVENTS - 1) % targets[i];
        leasts[i] = (int64_t)(i * 7 % 1000);
        mosts[i] = 1000 + (int64_t)(i * 13 % 1000);
    }
}

/* the same rules with deadlines that can be met: event v at time v */
static void make_deadlines(void) {
    for (size_t i = 0; i < RULES; i++) {
        leasts[i] = (int64_t)(targets[i] - sources[i]) - 1;
        mosts[i] = (int64_t)(targets[i] - sources[i]) + 1;
    }
}

/* 31 events and 124 templates, for 33 copies: 1,024 events and 4,092 rules */
static void make_process(void) {
    for (size_t i = 0; i < 124; i++) {
        sources[i] = i * 5 % 31;
        targets[i] = i % 31;
        marks[i] = i % 2;
    }
}

static void nothing(void) {}

static void exact(void) {
    refusal = crankforest_exact(EVENTS, sources, RULES, targets, RULES, leasts, RULES, mosts, RULES, 500, EVENTS - 1,
                                &place, &separation, &source_depth, &target_depth);
}

static void schedule(void) {
    refusal = crankforest_schedule(EVENTS, sources, RULES, targets, RULES, leasts, RULES, mosts, RULES, 500, EVENTS - 1, times, EVENTS, delays, RULES,
                                   &place, &separation, &source_depth, &target_depth);
}

static void coarse(void) {
    refusal = crankforest_coarse(EVENTS, sources, RULES, targets, RULES, leasts, RULES, mosts, RULES, 500, EVENTS - 1, 7,
                                 &place, &separation, &source_depth, &target_depth);
}

static void hard(void) {
    refusal = crankforest_hard(EVENTS, sources, RULES, targets, RULES, leasts, RULES, mosts, RULES, 500, EVENTS - 1,
                               &place, &least, &separation, &source_depth, &target_depth);
}

static void hard_schedule(void) {
    refusal = crankforest_hard_schedule(EVENTS, sources, RULES, targets, RULES, leasts, RULES, mosts, RULES, 500, EVENTS - 1, times, EVENTS, delays, RULES,
                                        &place, &least, &separation, &source_depth, &target_depth);
}

static void unfold(void) {
    refusal = crankforest_unfold(31, 33, sources, 124, targets, 124, leasts, 124, mosts, 124, marks, 124, leasts, 124, mosts, 124, out_sources, RULES, out_targets, RULES,
                                 out_leasts, RULES, out_mosts, RULES, &place, &events, &rules);
}

static void judge(void) {
    size_t verdict, event;
    refusal = crankforest_judge(EVENTS, sources, RULES, targets, RULES, leasts, RULES, mosts, RULES, 500, EVENTS - 1, 0, times, EVENTS, delays, RULES,
                                &place, &verdict, &event);
}

#ifdef TEXT
static uint8_t text[32768], out[131072];
static size_t length, bytes;

static void text_separation(void) {
    separation = crankforest_separation(text, length, 1, 63);
    refusal = separation <= CRANKFOREST_REFUSED;
}

static void pairs(void) {
    refusal = crankforest_pairs(text, length, out, sizeof out, &place, &bytes);
}
#endif

/* ---- the measuring */
struct job {
    void (*call)(void);
    unsigned char paint;
    size_t taken;
};

/* Paints the stack from its end to some way below this function. */
__attribute__((noinline)) static void paint_below(unsigned char paint) {
    volatile unsigned char *top = (unsigned char *)__builtin_frame_address(0) - APART / 4;
    for (volatile unsigned char *p = stack; p < top; p++) *p = paint;
}

/* Calls a function further down, so that all below it is painted. */
__attribute__((noinline)) static void call_below(void (*call)(void)) {
    unsigned char apart[APART];
    __asm__ volatile("" : : "r"(apart) : "memory"); /* so that the room is not left out, nor given back before the call */
    call();
    __asm__ volatile("" : : "r"(apart) : "memory");
}

static void *run(void *given) {
    struct job *job = given;
    unsigned char *here = __builtin_frame_address(0), *lowest = stack;
    paint_below(job->paint);
    call_below(job->call);
    while (lowest < here && *lowest == job->paint) lowest++;
    job->taken = (size_t)(here - lowest);
    return NULL;
}

static size_t taken_with(void (*call)(void), unsigned char paint) {
    struct job job = {call, paint, 0};
    pthread_attr_t attributes;
    pthread_t thread;
    if (pthread_attr_init(&attributes) || pthread_attr_setstack(&attributes, stack, STACK) || pthread_create(&thread, &attributes, run, &job) ||
        pthread_join(thread, NULL)) {
        fputs("no thread\n", stderr);
        exit(1);
    }
    pthread_attr_destroy(&attributes);
    return job.taken;
}

static size_t taken(void (*call)(void)) {
    size_t a = taken_with(call, 0xa5), b = taken_with(call, 0x5a);
    return a > b ? a : b;
}

static void row(const char *name, void (*call)(void)) {
    size_t bytes = taken(call) - taken(nothing);
    if (refusal != 0) {
        fprintf(stderr, "%s refused: %zu\n", name, (size_t)refusal);
        exit(1);
    }
    printf("| `%s` | %zu |\n", name, bytes);
}

int main(int argc, char **argv) {
    (void)argc, (void)argv;
    puts("### Stack\n\n| entry | bytes |\n|---|---|");
    make_graph();
    row("crankforest_exact", exact);
    row("crankforest_schedule", schedule);
    row("crankforest_judge", judge);
    row("crankforest_coarse", coarse);
    make_deadlines();
    row("crankforest_hard", hard);
    row("crankforest_hard_schedule", hard_schedule);
    make_process();
    row("crankforest_unfold", unfold);
#ifdef TEXT
    FILE *file = argc > 1 ? fopen(argv[1], "rb") : NULL;
    if (file == NULL) {
        fputs("no text\n", stderr);
        return 1;
    }
    length = fread(text, 1, sizeof text, file);
    fclose(file);
    row("crankforest_separation", text_separation);
    row("crankforest_pairs", pairs);
#endif
    return 0;
}
