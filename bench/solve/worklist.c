/* A plain worklist over the same graphs as crates/solve_cases reads, for the ratio of their times: a queue of waiting nodes, a byte a
   node that says whether it waits, rows of 64-bit words, the edges of a node side by side, and the effects of a node as a list of ranges.
   It reads the commands of that program, and prints for `time` what that program prints, with the time of its own solver. */
#include <stdint.h>
#include <stdio.h>
#include <stdlib.h>
#include <string.h>
#include <time.h>

typedef struct { uint32_t from, to; } Edge;
typedef struct { uint32_t node, first, count, source; char kind; } Effect;

static uint32_t nodes, pairs, entry;
static char name[64];
static Edge *edges;
static Effect *effects;
static size_t edge_count, edge_room, effect_count, effect_room;

static void *grow(void *old, size_t *room, size_t size) {
    *room = *room ? 2 * *room : 16;
    void *grown = realloc(old, *room * size);
    if (!grown) exit(1);
    return grown;
}

static int get(const uint64_t *row, uint32_t pair) { return row[pair / 64] >> (pair % 64) & 1; }

/* Sets or clears a run of bits, a word at a time. */
static void fill(uint64_t *row, uint32_t first, uint32_t count, int value) {
    while (count > 0) {
        uint32_t low = first % 64, here = 64 - low < count ? 64 - low : count;
        uint64_t mask = (here == 64 ? ~0ull : (1ull << here) - 1) << low;
        if (value) row[first / 64] |= mask; else row[first / 64] &= ~mask;
        first += here, count -= here;
    }
}

/* The 64 or fewer bits from a place on. */
static uint64_t bits(const uint64_t *row, uint32_t first, uint32_t count) {
    uint32_t low = first % 64;
    uint64_t got = row[first / 64] >> low;
    if (low && low + count > 64) got |= row[first / 64 + 1] << (64 - low);
    return count == 64 ? got : got & ((1ull << count) - 1);
}

static void copy(uint64_t *row, const uint64_t *before, uint32_t first, uint32_t count, uint32_t source) {
    while (count > 0) {
        uint32_t low = first % 64, here = 64 - low < count ? 64 - low : count;
        uint64_t mask = (here == 64 ? ~0ull : (1ull << here) - 1) << low;
        row[first / 64] = (row[first / 64] & ~mask) | bits(before, source, here) << low;
        first += here, source += here, count -= here;
    }
}

static void apply(const Effect *effect, const Effect *end, const uint64_t *before, uint64_t *after, size_t width) {
    memcpy(after, before, width * 8);
    for (; effect < end; effect++) {
        if (effect->kind == 's') fill(after, effect->first, effect->count, 1);
        else if (effect->kind == 'l') fill(after, effect->first, effect->count, 0);
        else copy(after, before, effect->first, effect->count, effect->kind == 'o' ? effect->source : effect->first);
    }
}

/* Where the edges and the effects of each node begin, and the ends of the edges and the effects in that order. */
static uint32_t *edge_start, *edge_to, *effect_start;
static Effect *effect_by_node;

static void group(void) {
    edge_start = calloc(nodes + 1, 4), effect_start = calloc(nodes + 1, 4);
    edge_to = malloc(edge_count * 4 + 4), effect_by_node = malloc(effect_count * sizeof(Effect) + 1);
    uint32_t *at = malloc((nodes + 1) * 4);
    for (size_t i = 0; i < edge_count; i++) edge_start[edges[i].from + 1]++;
    for (uint32_t n = 0; n < nodes; n++) edge_start[n + 1] += edge_start[n];
    memcpy(at, edge_start, (nodes + 1) * 4);
    for (size_t i = 0; i < edge_count; i++) edge_to[at[edges[i].from]++] = edges[i].to;
    for (size_t i = 0; i < effect_count; i++) effect_start[effects[i].node + 1]++;
    for (uint32_t n = 0; n < nodes; n++) effect_start[n + 1] += effect_start[n];
    memcpy(at, effect_start, (nodes + 1) * 4);
    for (size_t i = 0; i < effect_count; i++) effect_by_node[at[effects[i].node]++] = effects[i];
    free(at);
}

static uint64_t *rows;
static uint8_t *reached;

static void solve(void) {
    size_t width = (pairs + 63) / 64;
    group();
    rows = malloc(nodes * width * 8 + 8), reached = calloc(nodes, 1);
    memset(rows, 0xff, nodes * width * 8);
    uint64_t *after = malloc(width * 8 + 8);
    uint8_t *waits = calloc(nodes, 1);
    uint32_t *queue = malloc(nodes * 4), head = 0, length = 1;
    memset(rows + entry * width, 0, width * 8);
    queue[0] = entry, waits[entry] = 1, reached[entry] = 1;
    while (length > 0) {
        uint32_t node = queue[head];
        head = head + 1 == nodes ? 0 : head + 1, length--;
        waits[node] = 0;
        apply(effect_by_node + effect_start[node], effect_by_node + effect_start[node + 1], rows + node * width, after, width);
        for (uint32_t e = edge_start[node]; e < edge_start[node + 1]; e++) {
            uint32_t to = edge_to[e];
            uint64_t *into = rows + to * width, fell = 0;
            for (size_t w = 0; w < width; w++) fell |= into[w] & ~after[w], into[w] &= after[w];
            if ((fell || !reached[to]) && !waits[to]) {
                uint32_t place = head + length;
                queue[place >= nodes ? place - nodes : place] = to, length++, waits[to] = 1;
            }
            reached[to] = 1;
        }
    }
    for (uint32_t n = 0; n < nodes; n++) {
        apply(effect_by_node + effect_start[n], effect_by_node + effect_start[n + 1], rows + n * width, after, width);
        memcpy(rows + n * width, after, width * 8);
    }
    free(after), free(waits), free(queue);
}

static double now(void) {
    struct timespec t;
    clock_gettime(CLOCK_THREAD_CPUTIME_ID, &t);
    return t.tv_sec * 1e9 + t.tv_nsec;
}

static void forget(void) { free(rows), free(reached), free(edge_start), free(edge_to), free(effect_start), free(effect_by_node); }

static void report(uint32_t rounds) {
    double least = 1e18;
    for (uint32_t round = 0; round < rounds; round++) {
        double start = now();
        solve();
        double took = now() - start;
        if (took < least) least = took;
        forget();
    }
    solve();
    uint64_t count = 0, held = 0;
    for (uint32_t n = 0; n < nodes; n++) {
        if (!reached[n]) continue;
        count++;
        for (uint32_t q = 0; q < pairs; q++) held += get(rows + n * ((pairs + 63) / 64), q);
    }
    printf("%s: solve %.0f reached %llu held %llu\n", name, least, (unsigned long long)count, (unsigned long long)held);
    forget();
}

int main(void) {
    char line[256], word[64];
    while (fgets(line, sizeof line, stdin)) {
        uint32_t a, b, c, d = 0;
        if (sscanf(line, "edge %u %u", &a, &b) == 2) {
            if (edge_count == edge_room) edges = grow(edges, &edge_room, sizeof(Edge));
            edges[edge_count++] = (Edge){a, b};
        } else if (sscanf(line, "graph %63s %u %u %u", name, &nodes, &pairs, &entry) == 4) {
            edge_count = effect_count = 0;
        } else if (strncmp(line, "order", 5) && sscanf(line, "%63s %u %u %u %u", word, &a, &b, &c, &d) >= 4) {
            if (effect_count == effect_room) effects = grow(effects, &effect_room, sizeof(Effect));
            effects[effect_count++] = (Effect){a, b, c, d, word[0] == 'c' ? word[1] : word[0]};
        } else if (sscanf(line, "time %u", &a) == 1) {
            report(a);
        }
    }
    return 0;
}
