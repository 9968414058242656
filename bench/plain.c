/* The analysis of crankforest_exact as a C programmer would write it, for bench/run to compare with: the same checks and refusals, the rules of an event
   side by side (a counting sort), Kahn's order, depths, m back from s, U from the root on. Arrays on the stack; only the places in use are set. */
#include <stdbool.h>
#include <stdint.h>
#include <string.h>

enum { EVENTS = 1024, RULES = 4096, DELAY = 1000000 };

struct answer {
    size_t refusal, place;
    int64_t separation;
    size_t source_depth, target_depth;
};

struct graph {
    size_t n, r;
    const size_t *source, *target;
    const int64_t *least, *most;
};

static struct answer refused(size_t number, size_t place) {
    return (struct answer){.refusal = number, .place = place};
}

/* rule[start[v]] .. rule[start[v + 1] - 1] are the rules whose key is v */
static void group(size_t n, size_t r, const size_t *key, size_t *start, size_t *rule) {
    memset(start, 0, (n + 1) * sizeof *start);
    for (size_t i = 0; i < r; i++) start[key[i]]++;
    for (size_t v = 1; v <= n; v++) start[v] += start[v - 1];
    for (size_t i = r; i-- > 0;) rule[--start[key[i]]] = i;
}

/* refusals 21, 22 and 2 to 4, or 0; `equal` says whether the lists have one length */
static struct answer check(const struct graph *g, bool equal, size_t s, size_t t) {
    if (g->n < 1 || g->n > EVENTS) return refused(21, 0);
    if (g->r > RULES || !equal) return refused(22, 0);
    for (size_t i = 0; i < g->r; i++)
        if (g->source[i] >= g->n || g->target[i] >= g->n) return refused(2, i);
    for (size_t i = 0; i < g->r; i++)
        if (g->least[i] < -DELAY || g->least[i] > DELAY || g->most[i] < -DELAY || g->most[i] > DELAY || g->most[i] < g->least[i])
            return refused(3, i);
    if (s >= g->n) return refused(4, 0);
    if (t >= g->n) return refused(4, 1);
    return refused(0, 0);
}

/* whether rules lead from v back to v: in_start and in have the rules by target */
static bool on_cycle(const struct graph *g, const size_t *in_start, const size_t *in, size_t v) {
    bool seen[EVENTS] = {false};
    size_t list[EVENTS], end = 0;
    for (size_t at = 0, w = v;; w = list[at++]) {
        for (size_t e = in_start[w]; e < in_start[w + 1]; e++) {
            size_t u = g->source[in[e]];
            if (!seen[u]) seen[u] = true, list[end++] = u;
        }
        if (at == end) return seen[v];
    }
}

static struct answer separation(const struct graph *g, bool equal, size_t s, size_t t) {
    size_t out_start[EVENTS + 1], in_start[EVENTS + 1], out[RULES], in[RULES];
    size_t waiting[EVENTS], order[EVENTS], depth[EVENTS];
    bool reached[EVENTS], found[EVENTS];
    int64_t m[EVENTS], latest[EVENTS];
    struct answer a = check(g, equal, s, t);
    if (a.refusal != 0) return a;

    size_t n = g->n;
    group(n, g->r, g->source, out_start, out);
    group(n, g->r, g->target, in_start, in);

    size_t placed = 0;
    for (size_t v = 0; v < n; v++) {
        waiting[v] = in_start[v + 1] - in_start[v];
        if (waiting[v] == 0) order[placed++] = v;
    }
    for (size_t k = 0; k < placed; k++)
        for (size_t e = out_start[order[k]]; e < out_start[order[k] + 1]; e++) {
            size_t w = g->target[out[e]];
            if (--waiting[w] == 0) order[placed++] = w;
        }
    if (placed < n) {
        size_t v = 0;
        while (!on_cycle(g, in_start, in, v)) v++;
        return refused(5, v);
    }

    for (size_t k = 0; k < n; k++) {
        size_t v = order[k];
        reached[v] = v == 0;
        depth[v] = 0;
        for (size_t e = in_start[v]; e < in_start[v + 1]; e++) {
            size_t u = g->source[in[e]];
            if (reached[u]) {
                reached[v] = true;
                if (depth[v] < depth[u] + 1) depth[v] = depth[u] + 1;
            }
        }
    }
    for (size_t v = 0; v < n; v++)
        if (!reached[v]) return refused(6, v);

    for (size_t k = n; k-- > 0;) {
        size_t v = order[k];
        bool any = v == s;
        int64_t best = 0;
        if (!any)
            for (size_t e = out_start[v]; e < out_start[v + 1]; e++) {
                size_t i = out[e], w = g->target[i];
                if (found[w]) {
                    int64_t x = m[w] - g->least[i];
                    if (!any || x < best) best = x;
                    any = true;
                }
            }
        found[v] = any;
        m[v] = best;
    }

    latest[0] = m[0];
    for (size_t k = 1; k < n; k++) {
        size_t v = order[k];
        int64_t best = INT64_MIN;
        for (size_t e = in_start[v]; e < in_start[v + 1]; e++) {
            size_t i = in[e];
            int64_t x = latest[g->source[i]] + g->most[i];
            if (best < x) best = x;
        }
        latest[v] = found[v] && m[v] < best ? m[v] : best;
    }
    return (struct answer){0, 0, latest[t], depth[s], depth[t]};
}

/* The arguments and results of crankforest_exact. */
int plain_c_separation(size_t n, const size_t *sources, size_t sources_length, const size_t *targets, size_t targets_length,
                       const int64_t *leasts, size_t leasts_length, const int64_t *mosts, size_t mosts_length, size_t s, size_t t,
                       size_t *place, int64_t *separation_found, size_t *source_depth, size_t *target_depth) {
    struct graph g = {n, sources_length, sources, targets, leasts, mosts};
    bool equal = targets_length == g.r && leasts_length == g.r && mosts_length == g.r;
    struct answer a = separation(&g, equal, s, t);
    *place = a.place;
    *separation_found = a.separation;
    *source_depth = a.source_depth;
    *target_depth = a.target_depth;
    return (int)a.refusal;
}
