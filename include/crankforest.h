/* Crankforest: the greatest separation of two events of an event graph, in whole ticks.
 *
 * Link with libcrankforest.a (`rt lib`, in crates/crankforest, writes it to out/ there). It needs no heap and keeps no state, so any thread may call it;
 * docs/BENCHMARKS.md has the stack that each entry takes.
 *
 * Every list, length and number handed in gets an answer: a result, or one of the numbered refusals below. A list is a pointer and the number of its
 * entries. A list of no entries may have any pointer, NULL too. Places that an entry writes to must not be NULL and must not overlap another argument. */
#ifndef CRANKFOREST_H
#define CRANKFOREST_H

#include <stddef.h>
#include <stdint.h>

#ifdef __cplusplus
extern "C" {
#endif

/* The refusals, by number. The first that applies is given: of the analysis in the order 21, 22, 23, 2, 3, 4, 9 (coarse form only), 5, 6, 10 (hard deadlines
 * only); of the unfolding in the order 21, 22, 24, 23, 2, 3, 7; of the text form 1, 8, 21, 22, then as the analysis. */
enum crankforest_refusal {
    CRANKFOREST_ACCEPTED = 0,
    CRANKFOREST_BYTES = 1,       /* the text has more than 32,768 bytes; place 0 */
    CRANKFOREST_EVENT = 2,       /* a rule or template names an event that doesn't exist; place: the lowest such rule or template */
    CRANKFOREST_DELAY = 3,       /* a delay is out of range, or least > most, of a template with mark 1 also in its start interval; place: the lowest such rule
                                    or template */
    CRANKFOREST_QUESTION = 4,    /* s or t doesn't exist; place: 0 if s, else 1 */
    CRANKFOREST_CYCLE = 5,       /* the graph has a cycle; place: the lowest event that lies on a cycle */
    CRANKFOREST_UNREACHED = 6,   /* an event isn't reachable from the root; place: the lowest such event */
    CRANKFOREST_MARK = 7,        /* an offset mark is neither 0 nor 1; place: the lowest such template */
    CRANKFOREST_TEXT = 8,        /* the text breaks the text form's rules; place: the lowest such row, the header being row 1 */
    CRANKFOREST_STEP = 9,        /* q is 0 or above 1,000; place: q */
    CRANKFOREST_DEADLINES = 10,  /* no times meet all rules, each on its own; place 0 */
    CRANKFOREST_EVENTS = 21,     /* no event, or more than 1,024, of a text 64; no process event, or more than 1,023; place 0 */
    CRANKFOREST_RULES = 22,      /* more than 4,096 rules or templates, of a text 1,024; their lists differ in length; or a claim's lists are not of exactly n and r places; place 0 */
    CRANKFOREST_SHORT = 23,      /* a lent list is too short; place 0 */
    CRANKFOREST_COPIES = 24      /* no copies, or 1 + p * copies is above 1,024 or templates * copies above 4,096; place 0 */
};

/* What crankforest_separation gives for refusal k is CRANKFOREST_REFUSED - k. No separation is that low. */
#define CRANKFOREST_REFUSED INT64_C(-4000000000)

/* The firmware's entry. The greatest t(t) - t(s) over all executions of the graph that the text gives, or CRANKFOREST_REFUSED minus the refusal's number.
 *
 * The text is RFC 4180 with the header source,target,least,most and lines ended by CR LF, the last ending optional; at most 32,768 bytes, 64 events
 * and 1,024 rows. Refusal 4, for s or t, is checked after 3. */
int64_t crankforest_separation(const uint8_t *text, size_t length, size_t s, size_t t);

/* What the pair program writes for a text, into `out`, which needs at least 131,072 places; places beyond keep what they held. Gives 0, and puts the number
 * of bytes where it is told. A shorter list is refused: it gives CRANKFOREST_SHORT, place 0 and 0 bytes, and the list keeps what it held. A text that is
 * refused is no refusal of this entry: its line, `refused`, number, place, is what is written. */
size_t crankforest_pairs(const uint8_t *text, size_t length, uint8_t *out, size_t out_length, size_t *place, size_t *bytes);

/* The entries on numbers. n is the number of events, 1 to 1,024; event 0 is the root. Rule i goes from sources[i] to targets[i] and takes from leasts[i]
 * to mosts[i] ticks; up to 4,096 rules. Each entry gives the refusal's number, 0 for none, and puts the rest where it is told; refused, the separation
 * and the depths are 0. */

/* The greatest t(t) - t(s) over all executions, and the depths of s and t. */
size_t crankforest_exact(size_t n, const size_t *sources, size_t sources_length, const size_t *targets, size_t targets_length,
                         const int64_t *leasts, size_t leasts_length, const int64_t *mosts, size_t mosts_length, size_t s, size_t t,
                         size_t *place, int64_t *separation, size_t *source_depth, size_t *target_depth);

/* The same, and the whole latest schedule against s: n times and one delay a rule. Places beyond keep what they held; refused, both lists do. */
size_t crankforest_schedule(size_t n, const size_t *sources, size_t sources_length, const size_t *targets, size_t targets_length,
                            const int64_t *leasts, size_t leasts_length, const int64_t *mosts, size_t mosts_length, size_t s, size_t t,
                            int64_t *times, size_t times_length, int64_t *delays, size_t delays_length,
                            size_t *place, int64_t *separation, size_t *source_depth, size_t *target_depth);

/* The separation of the graph whose least delays are rounded down and whose most delays are rounded up to multiples of q, 1 to 1,000. */
size_t crankforest_coarse(size_t n, const size_t *sources, size_t sources_length, const size_t *targets, size_t targets_length,
                          const int64_t *leasts, size_t leasts_length, const int64_t *mosts, size_t mosts_length, size_t s, size_t t, size_t q,
                          size_t *place, int64_t *separation, size_t *source_depth, size_t *target_depth);

/* The judgement on a claim: that t(t) - t(s) is `claimed` where the events happen at `times` and the rules take `delays`, exactly n and one a rule; any 64-bit
 * numbers are judged as they are. Gives the refusal's number, 0 for none, in the order of the analysis; lists of another length are CRANKFOREST_RULES. Puts the
 * verdict where it is told, and with CRANKFOREST_BROKEN the lowest event at which an execution's rule is broken, else 0; refused, both are 0. */
enum crankforest_verdict {
    CRANKFOREST_MAXIMUM = 1,     /* an execution with that gap, which is the greatest there is */
    CRANKFOREST_BELOW = 2,       /* an execution with that gap, which is below the greatest */
    CRANKFOREST_BROKEN = 3,      /* no execution; the event is named */
    CRANKFOREST_DIFFERS = 4      /* an execution with another gap */
};
size_t crankforest_judge(size_t n, const size_t *sources, size_t sources_length, const size_t *targets, size_t targets_length,
                         const int64_t *leasts, size_t leasts_length, const int64_t *mosts, size_t mosts_length, size_t s, size_t t, int64_t claimed,
                         const int64_t *times, size_t times_length, const int64_t *delays, size_t delays_length,
                         size_t *place, size_t *verdict, size_t *event);

/* Hard deadlines: every rule binds on its own, so that time of target - time of source lies from its least to its most delay. The least and the greatest
 * t(t) - t(s) over all such times, and the depths of s and t; refused, both ends and the depths are 0. */
size_t crankforest_hard(size_t n, const size_t *sources, size_t sources_length, const size_t *targets, size_t targets_length,
                        const int64_t *leasts, size_t leasts_length, const int64_t *mosts, size_t mosts_length, size_t s, size_t t,
                        size_t *place, int64_t *least, int64_t *most, size_t *source_depth, size_t *target_depth);

/* The same, and the schedule that has every event as late against s as the deadlines allow: n times, the root's being 0, and one delay a rule, the
 * difference of its two times. Places beyond keep what they held; refused, both lists do. */
size_t crankforest_hard_schedule(size_t n, const size_t *sources, size_t sources_length, const size_t *targets, size_t targets_length,
                                 const int64_t *leasts, size_t leasts_length, const int64_t *mosts, size_t mosts_length, size_t s, size_t t,
                                 int64_t *times, size_t times_length, int64_t *delays, size_t delays_length,
                                 size_t *place, int64_t *least, int64_t *most, size_t *source_depth, size_t *target_depth);

/* The event graph of a process graph with p events, unfolded `copies` times: occurrence k of event i has number 1 + k * p + i. Writes (templates x copies)
 * rules, and puts the number of events and of rules where it is told; refused, both are 0 and the lists keep what they held. The start rule of template j, if
 * its mark is 1, takes from start_leasts[j] to start_mosts[j] ticks; the two lists have an entry for each template, and that of another mark is not read. */
size_t crankforest_unfold(size_t p, size_t copies, const size_t *sources, size_t sources_length, const size_t *targets, size_t targets_length,
                          const int64_t *leasts, size_t leasts_length, const int64_t *mosts, size_t mosts_length, const size_t *marks, size_t marks_length,
                          const int64_t *start_leasts, size_t start_leasts_length, const int64_t *start_mosts, size_t start_mosts_length,
                          size_t *out_sources, size_t out_sources_length, size_t *out_targets, size_t out_targets_length,
                          int64_t *out_leasts, size_t out_leasts_length, int64_t *out_mosts, size_t out_mosts_length,
                          size_t *place, size_t *events, size_t *rules);

#ifdef __cplusplus
}
#endif

#endif
