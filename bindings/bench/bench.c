/*
 * bench POLICY copy|entry THREADS KEY_LEN VALUE_LEN [OPS KEYS CAPACITY SHARDS]: get, and insert if it is missing, of
 * keys by a Zipf law with the exponent 1. Prints the nanoseconds of an operation and the part that hit. upstream.rs
 * does the same over the ported crate.
 */
#define _GNU_SOURCE
#include "../c/luffapricot.h"
#include <pthread.h>
#include <stdio.h>
#include <stdlib.h>
#include <string.h>
#include <time.h>

/* A trace has this many keys at least, so that counts of instructions differ by the operations alone. */
enum { LONGEST = 1024, SHORTEST_TRACE = 100000 };

static luffa_cache *cache;
static uint64_t *trace;
static size_t key_len, value_len;
static int is_copied;

struct job {
    pthread_t thread;
    size_t from, to;
    uint64_t hits, wrong;
};

static void fill(unsigned char *key, uint64_t number) {
    uint64_t words[2] = {number, number * 0x9E3779B97F4A7C15u};
    memset(key, 0, key_len);
    memcpy(key, words, key_len < sizeof words ? key_len : sizeof words);
}

static void *work(void *context) {
    struct job *job = context;
    unsigned char key[LONGEST], value[LONGEST], buffer[LONGEST];
    memset(value, 7, sizeof value);
    for (size_t i = job->from; i < job->to; i++) {
        luffa_entry entry;
        size_t len = 0;
        fill(key, trace[i]);
        luffa_status status = is_copied ? luffa_get(cache, 0, key, key_len, buffer, sizeof buffer, &len)
                                        : luffa_get_entry(cache, 0, key, key_len, &entry);
        if (status == LUFFA_OK) {
            job->hits++;
            job->wrong += memcmp(is_copied ? buffer : entry.value, &trace[i], 8) != 0;
            if (!is_copied)
                luffa_release(&entry);
        } else {
            memcpy(value, &trace[i], 8);
            job->wrong += luffa_insert(cache, 0, key, key_len, value, value_len, 1, 0) != LUFFA_OK;
        }
    }
    return NULL;
}

static void make_trace(size_t ops, size_t keys) {
    double *sums = malloc(keys * sizeof *sums), sum = 0;
    uint64_t state = 88172645463325252u;
    trace = malloc(ops * sizeof *trace);
    for (size_t i = 0; i < keys; i++)
        sums[i] = sum += 1.0 / (double)(i + 1);
    for (size_t i = 0; i < ops; i++) {
        state ^= state << 13;
        state ^= state >> 7;
        state ^= state << 17;
        double wanted = (double)(state >> 11) * 0x1p-53 * sum;
        size_t low = 0, high = keys - 1;
        while (low < high) {
            size_t middle = (low + high) / 2;
            if (sums[middle] < wanted)
                low = middle + 1;
            else
                high = middle;
        }
        trace[i] = low;
    }
    free(sums);
}

static double seconds(void) {
    struct timespec time;
    clock_gettime(CLOCK_MONOTONIC, &time);
    return (double)time.tv_sec + (double)time.tv_nsec * 1e-9;
}

int main(int argc, char **argv) {
    static const char *const POLICIES[] = {"fifo", "lru", "lfu", "s3fifo", "sieve"};
    size_t numbers[7] = {1, 8, 8, 2000000, 100000, 10000, 8};
    uint32_t policy = 0;
    if (argc < 3)
        return 2;
    while (policy < 5 && strcmp(argv[1], POLICIES[policy]) != 0)
        policy++;
    is_copied = strcmp(argv[2], "copy") == 0;
    for (int i = 3; i < argc && i < 10; i++)
        numbers[i - 3] = strtoull(argv[i], NULL, 10);
    size_t threads = numbers[0], ops = numbers[3] / threads * threads;
    key_len = numbers[1];
    value_len = numbers[2];
    if (key_len > LONGEST || value_len > LONGEST || key_len < 8 || value_len < 8)
        return 2;
    make_trace(ops < SHORTEST_TRACE ? SHORTEST_TRACE : ops, numbers[4]);
    luffa_config config = luffa_config_default(policy);
    config.capacity = numbers[5];
    config.shards = numbers[6];
    if (luffa_create(&config, &cache) != LUFFA_OK)
        return 1;
    struct job *jobs = calloc(threads, sizeof *jobs);
    double begin = seconds();
    for (size_t i = 0; i < threads; i++) {
        jobs[i].from = ops / threads * i;
        jobs[i].to = ops / threads * (i + 1);
        if (threads > 1)
            pthread_create(&jobs[i].thread, NULL, work, &jobs[i]);
        else
            work(&jobs[i]);
    }
    uint64_t hits = 0, wrong = 0;
    for (size_t i = 0; i < threads; i++) {
        if (threads > 1)
            pthread_join(jobs[i].thread, NULL);
        hits += jobs[i].hits;
        wrong += jobs[i].wrong;
    }
    double took = seconds() - begin;
    printf("%.1f ns, hits %.4f%s\n", took * 1e9 / (double)ops, (double)hits / (double)ops,
           wrong ? ", WRONG VALUES" : "");
    luffa_destroy(cache);
    free(jobs);
    free(trace);
    return wrong != 0;
}
