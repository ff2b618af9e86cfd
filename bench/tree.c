// Measures put, make, look and scan of a tree in lent memory against a plain copy of the same bytes.
//   mkdir -p target && (cd crates/exported && rt lib) && cc -O2 bench/tree.c crates/exported/out/libexported.a -o target/tree_bench && target/tree_bench
#include <stdint.h>
#include <stdio.h>
#include <stdlib.h>
#include <string.h>
#include <time.h>

size_t tree_blank(uint8_t *out, size_t n, uint32_t *places, size_t m);
size_t tree_put(const uint8_t *bytes, size_t n, const uint32_t *places, size_t m, uint64_t room, const uint8_t *path, size_t p, const uint8_t *value, size_t v, uint8_t *out, size_t o, uint32_t *lent, size_t l);
size_t tree_make(const uint8_t *bytes, size_t n, const uint32_t *places, size_t m, uint64_t room, const uint8_t *path, size_t p, const uint8_t *value, size_t v, uint8_t *out, size_t o, uint32_t *lent, size_t l);
uint64_t tree_look(const uint8_t *bytes, size_t n, const uint32_t *places, size_t m, const uint8_t *path, size_t p);
uint64_t tree_scan(const uint8_t *bytes, size_t n, uint64_t room, uint32_t *places, size_t m);

enum { LONG = 67108864 * 2 + 32796, WORDS = 120000, TIMES = 15 };
static uint8_t *left, *right, value[65536];
static uint32_t *lefts, *rights;

static double now(void) {
    struct timespec t;
    clock_gettime(CLOCK_MONOTONIC, &t);
    return t.tv_sec * 1e3 + t.tv_nsec / 1e6;
}

static void be(uint8_t *at, uint64_t x, int n) {
    for (int i = 0; i < n; i++) at[i] = x >> (8 * (n - 1 - i));
}

static size_t path_of(int i, uint8_t *path) {
    path[0] = 10;
    snprintf((char *)path + 1, 11, "entry%05d", i);
    return 11;
}

// a tree of n entries at the top, written down directly, then scanned
static size_t fill(int n, size_t v) {
    size_t at = 28;
    memset(left, 0, 28);
    be(left, n, 8);
    be(left + 8, n, 8);
    for (int i = 0; i < n; i++) {
        uint8_t *c = left + at, path[16];
        size_t p = path_of(i, path);
        be(c, v, 4), be(c + 4, p, 4), be(c + 8, 0, 8), be(c + 16, i + 1, 8), be(c + 24, i + 1, 8), be(c + 32, 0, 8), be(c + 40, 0, 8);
        memcpy(c + 48, path, p);
        memcpy(c + 48 + p, value, v);
        at += 48 + p + v;
    }
    return at;
}

static double least(double *t) {
    double m = t[0];
    for (int i = 1; i < TIMES; i++) if (t[i] < m) m = t[i];
    return m;
}

static void run(const char *what, int n, size_t v) {
    size_t used = fill(n, v);
    uint64_t room = 67108864 * 2;
    double copy[TIMES], put[TIMES], make[TIMES], look[TIMES], scan[TIMES];
    uint8_t path[16], fresh[16];
    size_t p = path_of(n / 2, path), q = path_of(99999, fresh);
    uint64_t count = 0, seen = 0;
    size_t a = 0, b = 0;
    for (int i = 0; i < TIMES; i++) {
        double t = now();
        count = tree_scan(left, used, room, lefts, WORDS);
        scan[i] = now() - t, t = now();
        memcpy(right, left, used);
        copy[i] = now() - t, t = now();
        a = tree_put(left, used, lefts, n + 1, room, path, p, value, v, right, LONG, rights, WORDS);
        put[i] = now() - t, t = now();
        b = tree_make(left, used, lefts, n + 1, room, fresh, q, value, v, right, LONG, rights, WORDS);
        make[i] = now() - t;
        p = path_of(n - 1, path), t = now();
        seen = tree_look(left, used, lefts, n + 1, path, p);
        look[i] = now() - t;
        p = path_of(n / 2, path);
    }
    if (count != n || a != used || b != used + 48 + q + v || seen != v) printf("wrong: %lu %zu %zu %lu\n", count, a, b, seen);
    double c = least(copy);
    printf("%s: %zu bytes, copy %.2f ms; put %.2f ms (%.1f), make %.2f ms (%.1f), look at the last %.2f ms, scan %.2f ms\n", what, used, c, least(put), least(put) / c, least(make), least(make) / c, least(look), least(scan));
}

int main(void) {
    left = malloc(LONG), right = malloc(LONG), lefts = malloc(4 * WORDS), rights = malloc(4 * WORDS);
    memset(left, 1, LONG), memset(right, 1, LONG), memset(lefts, 1, 4 * WORDS), memset(rights, 1, 4 * WORDS), memset(value, 7, sizeof value);
    if (tree_blank(right, LONG, rights, WORDS) != 28) return 1;
    run("50,000 small entries", 50000, 64);
    run("1,000 large entries", 1000, 65536);
    return 0;
}
