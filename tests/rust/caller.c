/* A C caller of the static library, through include/crankforest.h: 01's figures P1 to P11, hard deadlines, and some refusals. With TEXT_ENTRIES defined it calls the two
 * entries on text too. It prints 'N right, M wrong' and exits with status 1 if any are wrong. */
#include "crankforest.h"

#include <inttypes.h>
#include <stdio.h>
#include <string.h>

/* What lent places hold before a call. */
#define HELD INT64_C(7000000000)
#define MOST_RULES 16

static int right = 0;
static int wrong = 0;

static void check(const char *name, int64_t got, int64_t due)
{
    if (got == due) {
        right++;
        return;
    }
    wrong++;
    printf("%s: %" PRId64 ", and not %" PRId64 "\n", name, due, got);
}

/* ---- graphs and answers */

struct graph {
    size_t n;
    size_t r;
    size_t sources[MOST_RULES];
    size_t targets[MOST_RULES];
    int64_t leasts[MOST_RULES];
    int64_t mosts[MOST_RULES];
};

struct answer {
    size_t refusal;
    size_t place;
    int64_t separation;
    size_t source_depth;
    size_t target_depth;
};

static const struct graph one = {1, 0, {0}, {0}, {0}, {0}};
static const struct graph row = {4, 3, {0, 1, 1}, {1, 2, 3}, {0, 1, 3}, {100, 2, 7}};
static const struct graph fork_graph = {4, 4, {0, 0, 1, 2}, {1, 2, 3, 3}, {2, 1, 0, 0}, {5, 3, 0, 0}};
static const struct graph parallel = {2, 2, {0, 0}, {1, 1}, {1, 0}, {2, 5}};
static const struct graph correction = {2, 1, {0}, {1}, {-3}, {-1}};

static struct answer exact(const struct graph *g, size_t s, size_t t)
{
    struct answer a = {99, 99, 99, 99, 99};
    a.refusal = crankforest_exact(g->n, g->sources, g->r, g->targets, g->r, g->leasts, g->r, g->mosts, g->r, s, t,
                                  &a.place, &a.separation, &a.source_depth, &a.target_depth);
    return a;
}

static struct answer coarse(const struct graph *g, size_t s, size_t t, size_t q)
{
    struct answer a = {99, 99, 99, 99, 99};
    a.refusal = crankforest_coarse(g->n, g->sources, g->r, g->targets, g->r, g->leasts, g->r, g->mosts, g->r, s, t, q,
                                   &a.place, &a.separation, &a.source_depth, &a.target_depth);
    return a;
}

static struct answer schedule(const struct graph *g, size_t s, size_t t, int64_t *times, size_t times_length,
                              int64_t *delays, size_t delays_length)
{
    struct answer a = {99, 99, 99, 99, 99};
    a.refusal = crankforest_schedule(g->n, g->sources, g->r, g->targets, g->r, g->leasts, g->r, g->mosts, g->r, s, t,
                                     times, times_length, delays, delays_length,
                                     &a.place, &a.separation, &a.source_depth, &a.target_depth);
    return a;
}

struct hard_answer {
    size_t refusal;
    size_t place;
    int64_t least;
    int64_t most;
    size_t source_depth;
    size_t target_depth;
};

static const struct graph unmeetable = {4, 4, {0, 0, 1, 2}, {1, 2, 3, 3}, {5, 1, 0, 3}, {5, 1, 0, 3}};

static struct hard_answer hard(const struct graph *g, size_t s, size_t t)
{
    struct hard_answer a = {99, 99, 99, 99, 99, 99};
    a.refusal = crankforest_hard(g->n, g->sources, g->r, g->targets, g->r, g->leasts, g->r, g->mosts, g->r, s, t,
                                 &a.place, &a.least, &a.most, &a.source_depth, &a.target_depth);
    return a;
}

static struct hard_answer hard_schedule(const struct graph *g, size_t s, size_t t, int64_t *times, size_t times_length,
                                        int64_t *delays, size_t delays_length)
{
    struct hard_answer a = {99, 99, 99, 99, 99, 99};
    a.refusal = crankforest_hard_schedule(g->n, g->sources, g->r, g->targets, g->r, g->leasts, g->r, g->mosts, g->r, s, t,
                                          times, times_length, delays, delays_length,
                                          &a.place, &a.least, &a.most, &a.source_depth, &a.target_depth);
    return a;
}

static void check_hard(const char *name, struct hard_answer got, size_t refusal, int64_t least, int64_t most,
                       size_t source_depth, size_t target_depth)
{
    check(name, (int64_t)got.refusal, (int64_t)refusal);
    check(name, (int64_t)got.place, 0);
    check(name, got.least, least);
    check(name, got.most, most);
    check(name, (int64_t)got.source_depth, (int64_t)source_depth);
    check(name, (int64_t)got.target_depth, (int64_t)target_depth);
}

static void check_answer(const char *name, struct answer got, int64_t separation, size_t source_depth, size_t target_depth)
{
    check(name, (int64_t)got.refusal, CRANKFOREST_ACCEPTED);
    check(name, (int64_t)got.place, 0);
    check(name, got.separation, separation);
    check(name, (int64_t)got.source_depth, (int64_t)source_depth);
    check(name, (int64_t)got.target_depth, (int64_t)target_depth);
}

static void check_refused(const char *name, struct answer got, size_t number, size_t place)
{
    check(name, (int64_t)got.refusal, (int64_t)number);
    check(name, (int64_t)got.place, (int64_t)place);
    check(name, got.separation, 0);
    check(name, (int64_t)got.source_depth, 0);
    check(name, (int64_t)got.target_depth, 0);
}

static void hold(int64_t *list, size_t length)
{
    for (size_t i = 0; i < length; i++)
        list[i] = HELD;
}

static void check_list(const char *name, const int64_t *got, const int64_t *due, size_t length)
{
    for (size_t i = 0; i < length; i++)
        check(name, got[i], due[i]);
}

/* ---- the figures */

static void figures_of_the_analysis(void)
{
    check_answer("P1", exact(&one, 0, 0), 0, 0, 0);
    check_answer("P2", exact(&row, 2, 3), 6, 2, 2);
    check_answer("P3", exact(&fork_graph, 1, 3), 1, 1, 2);
    check_answer("P4", exact(&fork_graph, 2, 3), 4, 1, 2);
    check_answer("P5", exact(&fork_graph, 3, 1), 0, 2, 1);
    check_answer("P6", exact(&parallel, 0, 1), 5, 0, 1);
    check_answer("P7", exact(&parallel, 1, 0), -1, 1, 0);
    check_answer("P8", exact(&correction, 0, 1), -1, 0, 1);
    check_answer("P8 with q = 2", coarse(&correction, 0, 1, 2), 0, 0, 1);
    check_answer("P9", exact(&correction, 1, 0), 3, 1, 0);
    check_answer("P9 with q = 2", coarse(&correction, 1, 0, 2), 4, 1, 0);
    check_answer("P10", coarse(&row, 2, 3, 4), 8, 2, 2);
}

static void schedule_of_p2(void)
{
    static const int64_t due_times[] = {0, 0, 1, 7, HELD};
    static const int64_t due_delays[] = {0, 1, 7, HELD, HELD};
    int64_t times[5], delays[5];
    hold(times, 5);
    hold(delays, 5);
    check_answer("P2 with its schedule", schedule(&row, 2, 3, times, 5, delays, 5), 6, 2, 2);
    check_list("P2's times", times, due_times, 5);
    check_list("P2's delays", delays, due_delays, 5);
}

static void unfolding_of_p11(const char *name, const int64_t *starts, const int64_t *due)
{
    static const size_t sources[] = {0, 0, 1, 1}, targets[] = {0, 1, 0, 1}, marks[] = {1, 0, 1, 1};
    static const int64_t leasts[] = {4, 1, 1, 5}, mosts[] = {10, 1, 1, 20};
    struct graph g;
    size_t place = 99, room = MOST_RULES;
    size_t refusal = crankforest_unfold(2, 3, sources, 4, targets, 4, leasts, 4, mosts, 4, marks, 4, starts, 4, starts, 4,
                                        g.sources, room, g.targets, room, g.leasts, room, g.mosts, room, &place, &g.n, &g.r);
    check(name, (int64_t)refusal, CRANKFOREST_ACCEPTED);
    check("P11's place", (int64_t)place, 0);
    check("P11's events", (int64_t)g.n, 7);
    check("P11's rules", (int64_t)g.r, 12);
    for (size_t k = 0; k < 3; k++) {
        struct answer a = exact(&g, 1 + 2 * k, 2 + 2 * k);
        check("P11 is accepted", (int64_t)a.refusal, CRANKFOREST_ACCEPTED);
        check(name, a.separation, due[k]);
    }
}

/* 02's figure: the start interval [21, 21] on b to b */
static void unfoldings_of_figure_1(void)
{
    static const int64_t zero[] = {0, 0, 0, 0}, started[] = {0, 0, 0, 21};
    static const int64_t due[] = {1, 17, 19}, due_started[] = {21, 19, 19};
    unfolding_of_p11("P11", zero, due);
    unfolding_of_p11("P11 with a start interval", started, due_started);
}

/* ---- claims */

static void check_judged(const char *name, const struct graph *g, size_t s, size_t t, int64_t claimed, const int64_t *times, size_t times_length,
                         const int64_t *delays, size_t refusal, size_t verdict, size_t event)
{
    size_t place = 99, said = 99, named = 99;
    size_t number = crankforest_judge(g->n, g->sources, g->r, g->targets, g->r, g->leasts, g->r, g->mosts, g->r, s, t, claimed,
                                      times, times_length, delays, g->r, &place, &said, &named);
    check(name, (int64_t)number, (int64_t)refusal);
    check(name, (int64_t)place, 0);
    check(name, (int64_t)said, (int64_t)verdict);
    check(name, (int64_t)named, (int64_t)event);
}

static void claims(void)
{
    static const int64_t times[] = {0, 5, 1, 5, 5}, delays[] = {5, 1, 0, 0}, late[] = {0, 5, 1, 6};
    static const struct graph two = {3, 2, {0, 2}, {2, 1}, {0, 0}, {0, 1}};
    static const int64_t ends[] = {0, INT64_MIN, INT64_MAX}, ticks[] = {0, 1};
    check_judged("a claim of the maximum", &fork_graph, 2, 3, 4, times, 4, delays, CRANKFOREST_ACCEPTED, CRANKFOREST_MAXIMUM, 0);
    check_judged("a claim below it", &fork_graph, 3, 2, -4, times, 4, delays, CRANKFOREST_ACCEPTED, CRANKFOREST_BELOW, 0);
    check_judged("a claim of another number", &fork_graph, 2, 3, 3, times, 4, delays, CRANKFOREST_ACCEPTED, CRANKFOREST_DIFFERS, 0);
    check_judged("a claim that is broken", &fork_graph, 2, 3, 5, late, 4, delays, CRANKFOREST_ACCEPTED, CRANKFOREST_BROKEN, 3);
    check_judged("a sum that doesn't wrap", &two, 0, 1, 0, ends, 3, ticks, CRANKFOREST_ACCEPTED, CRANKFOREST_BROKEN, 1);
    check_judged("a list that is too long", &fork_graph, 2, 3, 4, times, 5, delays, CRANKFOREST_RULES, 0, 0);
}

/* ---- refusals */

static void refusals_of_the_analysis(void)
{
    struct graph g = row;
    g.n = 1025;
    check_refused("1,025 events", exact(&g, 2, 3), CRANKFOREST_EVENTS, 0);
    g.n = 3;
    check_refused("an unknown event", exact(&g, 2, 1), CRANKFOREST_EVENT, 2);
    g = row;
    g.mosts[1] = 1000001;
    check_refused("a delay out of range", exact(&g, 2, 3), CRANKFOREST_DELAY, 1);
    check_refused("no such s", exact(&row, 4, 9), CRANKFOREST_QUESTION, 0);
    check_refused("no such t", exact(&row, 3, SIZE_MAX), CRANKFOREST_QUESTION, 1);
    g = row;
    g.targets[2] = 1;
    check_refused("a self rule and an unreached event", exact(&g, 2, 3), CRANKFOREST_CYCLE, 1);
    g = row;
    g.r = 2;
    check_refused("an unreached event", exact(&g, 2, 3), CRANKFOREST_UNREACHED, 3);
    check_refused("q = 0", coarse(&row, 2, 3, 0), CRANKFOREST_STEP, 0);
    check_refused("q = 1,001", coarse(&row, 2, 3, 1001), CRANKFOREST_STEP, 1001);
}

static void lists_that_are_wrong(void)
{
    static const int64_t kept[] = {HELD, HELD, HELD, HELD};
    int64_t times[4], delays[4];
    struct answer a = {99, 99, 99, 99, 99};
    hold(times, 4);
    hold(delays, 4);
    check_refused("a short list of times", schedule(&row, 2, 3, times, 3, delays, 3), CRANKFOREST_SHORT, 0);
    check_refused("a short list of delays", schedule(&row, 2, 3, times, 4, delays, 2), CRANKFOREST_SHORT, 0);
    check_refused("no such t, with a schedule", schedule(&row, 2, 4, times, 4, delays, 4), CRANKFOREST_QUESTION, 1);
    check_list("times that are kept", times, kept, 4);
    check_list("delays that are kept", delays, kept, 4);
    a.refusal = crankforest_exact(4, row.sources, 3, row.targets, 3, row.leasts, 2, row.mosts, 3, 2, 3, &a.place, &a.separation,
                                  &a.source_depth, &a.target_depth);
    check_refused("lists of different length", a, CRANKFOREST_RULES, 0);
    a.refusal = crankforest_exact(1, NULL, 0, NULL, 0, NULL, 0, NULL, 0, 0, 0, &a.place, &a.separation, &a.source_depth, &a.target_depth);
    check_answer("no rules, and NULL for the lists", a, 0, 0, 0);
}

static void refusals_of_the_unfolding(void)
{
    static const size_t source[] = {0}, target[] = {0};
    static const int64_t delay[] = {1};
    static const size_t marks[] = {2};
    size_t out_sources[1] = {77}, out_targets[1] = {77}, place = 99, events = 99, rules = 99;
    int64_t out_leasts[1] = {77}, out_mosts[1] = {77};
    size_t refusal = crankforest_unfold(1, 1, source, 1, target, 1, delay, 1, delay, 1, marks, 1, delay, 1, delay, 1, out_sources, 1, out_targets, 1,
                                        out_leasts, 1, out_mosts, 1, &place, &events, &rules);
    check("a mark of 2", (int64_t)refusal, CRANKFOREST_MARK);
    check("a mark of 2, place", (int64_t)place, 0);
    check("a mark of 2, events", (int64_t)events, 0);
    check("a mark of 2, rules", (int64_t)rules, 0);
    check("a mark of 2, a list", (int64_t)out_sources[0], 77);
    refusal = crankforest_unfold(SIZE_MAX, 2, source, 1, target, 1, delay, 1, delay, 1, marks, 1, delay, 1, delay, 1, out_sources, 1, out_targets, 1,
                                 out_leasts, 1, out_mosts, 1, &place, &events, &rules);
    check("too many process events", (int64_t)refusal, CRANKFOREST_EVENTS);
    refusal = crankforest_unfold(1, SIZE_MAX, source, 1, target, 1, delay, 1, delay, 1, marks, 1, delay, 1, delay, 1, out_sources, 1, out_targets, 1,
                                 out_leasts, 1, out_mosts, 1, &place, &events, &rules);
    check("too many copies", (int64_t)refusal, CRANKFOREST_COPIES);
    check("lists of the unfolding that are kept", (int64_t)out_targets[0] + out_leasts[0] + out_mosts[0], 3 * 77);
}

static void hard_deadlines(void)
{
    static const int64_t due_times[] = {0, 3, 3, 3, HELD};
    static const int64_t due_delays[] = {3, 3, 0, 0, HELD};
    static const int64_t kept[] = {HELD, HELD, HELD, HELD, HELD};
    int64_t times[5], delays[5];
    hold(times, 5);
    hold(delays, 5);
    check_hard("the fork under hard deadlines", hard(&fork_graph, 0, 3), CRANKFOREST_ACCEPTED, 2, 3, 0, 2);
    check_hard("no times meet all rules", hard(&unmeetable, 0, 0), CRANKFOREST_DEADLINES, 0, 0, 0, 0);
    check_hard("no times, with a schedule", hard_schedule(&unmeetable, 0, 3, times, 5, delays, 5), CRANKFOREST_DEADLINES, 0, 0, 0, 0);
    check_list("times that 10 keeps", times, kept, 5);
    check_list("delays that 10 keeps", delays, kept, 5);
    check_hard("the fork with its schedule", hard_schedule(&fork_graph, 0, 3, times, 5, delays, 5), CRANKFOREST_ACCEPTED, 2, 3, 0, 2);
    check_list("the fork's times", times, due_times, 5);
    check_list("the fork's delays", delays, due_delays, 5);
    check_hard("a short list of delays", hard_schedule(&fork_graph, 0, 3, times, 5, delays, 3), CRANKFOREST_SHORT, 0, 0, 0, 0);
}

/* ---- text */

#ifdef TEXT_ENTRIES
static const char text_of_row[] = "source,target,least,most\r\n0,1,0,100\r\n1,2,1,2\r\n1,3,3,7\r\n";

static int64_t separation(const char *text, size_t s, size_t t)
{
    return crankforest_separation((const uint8_t *)text, strlen(text), s, t);
}

static void entries_on_text(void)
{
    static const char due[] = "from,to,least,most\r\n0,1,0,100\r\n0,2,1,102\r\n0,3,3,107\r\n1,2,1,2\r\n1,3,3,7\r\n2,3,1,6\r\n";
    static const char refused[] = "refused,8,1\r\n";
    static uint8_t out[131072];
    size_t place = 99, bytes = 99;
    size_t refusal = crankforest_pairs((const uint8_t *)text_of_row, strlen(text_of_row), out, sizeof out, &place, &bytes);
    check("the pairs of the row, refusal", (int64_t)refusal, CRANKFOREST_ACCEPTED);
    check("the pairs of the row, place", (int64_t)place, 0);
    check("the pairs of the row, bytes", (int64_t)bytes, (int64_t)strlen(due));
    check("the pairs of the row", memcmp(out, due, strlen(due)), 0);
    place = bytes = 99;
    refusal = crankforest_pairs(NULL, 0, out, sizeof out - 1, &place, &bytes);
    check("a list too short for the pairs", (int64_t)refusal, CRANKFOREST_SHORT);
    check("a list too short for the pairs, place", (int64_t)place, 0);
    check("a list too short for the pairs, bytes", (int64_t)bytes, 0);
    check("a list too short for the pairs is kept", memcmp(out, due, strlen(due)), 0);
    refusal = crankforest_pairs(NULL, 0, out, sizeof out, &place, &bytes);
    check("the pairs of no text, refusal", (int64_t)refusal, CRANKFOREST_ACCEPTED);
    check("the pairs of no text, bytes", (int64_t)bytes, (int64_t)strlen(refused));
    check("the pairs of no text", memcmp(out, refused, strlen(refused)), 0);
    check("P2 by text", separation(text_of_row, 2, 3), 6);
    check("no such t", separation(text_of_row, 2, 4), CRANKFOREST_REFUSED - CRANKFOREST_QUESTION);
    check("-1 for s", separation(text_of_row, (size_t)-1, 3), CRANKFOREST_REFUSED - CRANKFOREST_QUESTION);
    check("no bytes", crankforest_separation(NULL, 0, 0, 0), CRANKFOREST_REFUSED - CRANKFOREST_TEXT);
    check("3 before 4", separation("source,target,least,most\r\n0,1,5,1", 9, 0), CRANKFOREST_REFUSED - CRANKFOREST_DELAY);
    check("4 before 5", separation("source,target,least,most\r\n1,1,0,0", 9, 0), CRANKFOREST_REFUSED - CRANKFOREST_QUESTION);
}
#endif

int main(void)
{
    figures_of_the_analysis();
    schedule_of_p2();
    unfoldings_of_figure_1();
    claims();
    refusals_of_the_analysis();
    lists_that_are_wrong();
    refusals_of_the_unfolding();
    hard_deadlines();
#ifdef TEXT_ENTRIES
    entries_on_text();
#endif
    printf("%d right, %d wrong\n", right, wrong);
    return wrong == 0 ? 0 : 1;
}
