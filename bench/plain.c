/* The k nearest of a flat array of vectors, by plain loops: the yardstick of bench/run.
 *
 * usage: plain METRIC ROWS BYTES K TURNS ROUNDS ROW_FILE QUERY_FILE
 *
 * METRIC is l2_squared, l1 or hamming. The row file holds at least ROWS vectors of BYTES bytes, one after another, and
 * the query file holds vectors of the same length. Written are the answers to all queries, as lines `rowid|distance`
 * with rowids from 1, and then the seconds of processor time of one query and of one pure read of the rows: each is the
 * best of ROUNDS rounds, and a round goes through all queries TURNS times.
 */
#include <stdint.h>
#include <stdio.h>
#include <stdlib.h>
#include <string.h>
#include <time.h>

struct hit {
    uint32_t distance;
    uint64_t rowid;
};

struct vectors {
    const int8_t *bytes;
    size_t count;
    size_t width;
};

typedef uint32_t distance_of(const int8_t *a, const int8_t *b, size_t width);

static inline uint32_t l2_squared(const int8_t *a, const int8_t *b, size_t width)
{
    uint32_t sum = 0;
    for (size_t i = 0; i < width; i++) {
        int gap = a[i] - b[i];
        sum += (uint32_t)(gap * gap);
    }
    return sum;
}

static inline uint32_t l1(const int8_t *a, const int8_t *b, size_t width)
{
    uint32_t sum = 0;
    for (size_t i = 0; i < width; i++)
        sum += (uint32_t)abs(a[i] - b[i]);
    return sum;
}

static inline uint32_t hamming(const int8_t *a, const int8_t *b, size_t width)
{
    uint32_t sum = 0;
    for (size_t i = 0; i < width; i++)
        sum += (uint32_t)__builtin_popcount((uint8_t)(a[i] ^ b[i]));
    return sum;
}

/* Rows come by rising rowids, so a row stands behind the hits of its own distance. */
static size_t offer(struct hit *hits, size_t count, size_t k, struct hit hit)
{
    if (count == k) {
        if (k == 0 || hit.distance >= hits[k - 1].distance)
            return count;
        count--;
    }
    size_t at = count;
    while (at > 0 && hits[at - 1].distance > hit.distance) {
        hits[at] = hits[at - 1];
        at--;
    }
    hits[at] = hit;
    return count + 1;
}

/* It is inlined for each metric, so that no row costs a call through a pointer. */
static inline __attribute__((always_inline)) size_t
scan(distance_of *distance, struct vectors rows, const int8_t *query, struct hit *hits, size_t k)
{
    size_t count = 0;
    for (size_t row = 0; row < rows.count; row++) {
        struct hit hit = {distance(rows.bytes + row * rows.width, query, rows.width), row + 1};
        count = offer(hits, count, k, hit);
    }
    return count;
}

static size_t nearest(const char *metric, struct vectors rows, const int8_t *query, struct hit *hits, size_t k)
{
    if (strcmp(metric, "l2_squared") == 0)
        return scan(l2_squared, rows, query, hits, k);
    if (strcmp(metric, "l1") == 0)
        return scan(l1, rows, query, hits, k);
    if (strcmp(metric, "hamming") == 0)
        return scan(hamming, rows, query, hits, k);
    fprintf(stderr, "no metric %s\n", metric);
    exit(1);
}

static uint64_t sum_of_words(const int8_t *bytes, size_t length)
{
    uint64_t sum = 0;
    for (size_t i = 0; i + 8 <= length; i += 8) {
        uint64_t word;
        memcpy(&word, bytes + i, 8);
        sum += word;
    }
    return sum;
}

static double processor_seconds(void)
{
    struct timespec now;
    clock_gettime(CLOCK_PROCESS_CPUTIME_ID, &now);
    return (double)now.tv_sec + 1e-9 * (double)now.tv_nsec;
}

/* Tells the compiler that the value is used and that all memory may have changed, so that no round is left out. */
static inline void used(const void *value)
{
    __asm__ volatile("" : : "r"(value) : "memory");
}

static double round_of_queries(const char *metric, struct vectors rows, struct vectors queries, struct hit *hits,
                               size_t k, size_t turns)
{
    double start = processor_seconds();
    for (size_t turn = 0; turn < turns; turn++)
        for (size_t query = 0; query < queries.count; query++) {
            nearest(metric, rows, queries.bytes + query * queries.width, hits, k);
            used(hits);
        }
    return (processor_seconds() - start) / (double)(turns * queries.count);
}

static double round_of_reads(struct vectors rows, size_t times)
{
    double start = processor_seconds();
    for (size_t time = 0; time < times; time++) {
        uint64_t sum = sum_of_words(rows.bytes, rows.count * rows.width);
        used(&sum);
    }
    return (processor_seconds() - start) / (double)times;
}

static int8_t *bytes_of(const char *name, size_t most, size_t *length)
{
    FILE *file = fopen(name, "rb");
    int8_t *bytes = malloc(most);
    if (!file || !bytes) {
        perror(name);
        exit(1);
    }
    *length = fread(bytes, 1, most, file);
    fclose(file);
    return bytes;
}

static struct vectors vectors_of(const char *name, size_t most, size_t width)
{
    size_t length;
    const int8_t *bytes = bytes_of(name, most * width, &length);
    return (struct vectors){bytes, length / width, width};
}

static void write_answers(const char *metric, struct vectors rows, struct vectors queries, struct hit *hits, size_t k)
{
    for (size_t query = 0; query < queries.count; query++) {
        size_t count = nearest(metric, rows, queries.bytes + query * queries.width, hits, k);
        for (size_t i = 0; i < count; i++)
            printf("%llu|%u\n", (unsigned long long)hits[i].rowid, hits[i].distance);
    }
}

static double least(double a, double b)
{
    return a < b ? a : b;
}

int main(int count, char **words)
{
    if (count != 9) {
        fprintf(stderr, "usage: plain METRIC ROWS BYTES K TURNS ROUNDS ROW_FILE QUERY_FILE\n");
        return 1;
    }
    const char *metric = words[1];
    size_t width = strtoull(words[3], NULL, 10), k = strtoull(words[4], NULL, 10);
    size_t turns = strtoull(words[5], NULL, 10), rounds = strtoull(words[6], NULL, 10);
    struct vectors rows = vectors_of(words[7], strtoull(words[2], NULL, 10), width);
    struct vectors queries = vectors_of(words[8], 1000, width);
    struct hit *hits = calloc(k + 1, sizeof *hits);
    if (!hits)
        return 1;
    write_answers(metric, rows, queries, hits, k);
    double query = 1e9, read = 1e9;
    for (size_t round = 0; round < rounds; round++) {
        query = least(query, round_of_queries(metric, rows, queries, hits, k, turns));
        read = least(read, round_of_reads(rows, turns * queries.count));
    }
    printf("query %.9f\nread %.9f\n", query, read);
    return 0;
}
