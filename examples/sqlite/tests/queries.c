/*
 * queries DATABASE fill ROWS: makes a table of so many rows of about 210 bytes.
 * queries DATABASE PAGES QUERIES SCAN_EVERY: looks rows up by a Zipf law with the exponent 0.99, and sums a tenth of
 * the table up each SCAN_EVERY queries (0: never), through a page cache of PAGES pages. A quarter of the queries goes
 * before the count. Prints the pages that SQLite found in the cache, those that it read, the bytes that are in use on
 * the heap, a sum of the results, and what quick_check says.
 */
#include <malloc.h>
#include <math.h>
#include <sqlite3.h>
#include <stdint.h>
#include <stdio.h>
#include <stdlib.h>
#include <string.h>

static sqlite3 *db;
static uint64_t state = 88172645463325252u;

static void fail(const char *what) {
    (void)fprintf(stderr, "%s: %s\n", what, sqlite3_errmsg(db));
    exit(1);
}

static void execute(const char *text) {
    if (sqlite3_exec(db, text, NULL, NULL, NULL) != SQLITE_OK)
        fail(text);
}

static sqlite3_stmt *prepare(const char *text) {
    sqlite3_stmt *made;
    if (sqlite3_prepare_v2(db, text, -1, &made, NULL) != SQLITE_OK)
        fail(text);
    return made;
}

/* Between 0 and 1. */
static double uniform(void) {
    state ^= state << 13;
    state ^= state >> 7;
    state ^= state << 17;
    return (double)(state >> 11) * 0x1p-53;
}

static int64_t number(sqlite3_stmt *query, int64_t first, int64_t last) {
    sqlite3_bind_int64(query, 1, first);
    sqlite3_bind_int64(query, 2, last);
    if (sqlite3_step(query) != SQLITE_ROW)
        fail(sqlite3_sql(query));
    int64_t found = sqlite3_column_int64(query, 0);
    sqlite3_reset(query);
    return found;
}

static void fill(int64_t rows) {
    execute("PRAGMA page_size=4096; PRAGMA synchronous=off; PRAGMA journal_mode=off");
    execute("CREATE TABLE item(id INTEGER PRIMARY KEY, count INT, body BLOB); BEGIN");
    sqlite3_stmt *insert = prepare("INSERT INTO item VALUES(?1, ?1 % 1000, zeroblob(200))");
    for (int64_t i = 1; i <= rows; i++) {
        sqlite3_bind_int64(insert, 1, i);
        if (sqlite3_step(insert) != SQLITE_DONE)
            fail("insert");
        sqlite3_reset(insert);
    }
    sqlite3_finalize(insert);
    execute("COMMIT");
}

/* The sums of the weights of the ranks, of which the most frequent is 0. */
static double *zipf(int rows) {
    double *sums = malloc((size_t)rows * sizeof *sums), sum = 0;
    if (sums == NULL)
        abort();
    for (int i = 0; i < rows; i++)
        sums[i] = sum += pow(i + 1, -0.99);
    return sums;
}

/* A row by the law: the ranks are spread over the table. */
static int64_t row(const double *sums, int rows) {
    double found = uniform() * sums[rows - 1];
    int low = 0, high = rows - 1;
    while (low < high) {
        int middle = (low + high) / 2;
        if (sums[middle] < found)
            low = middle + 1;
        else
            high = middle;
    }
    return 1 + (int64_t)((uint64_t)low * 2654435761u % (uint64_t)rows);
}

static int counted(int what) {
    int current, highest;
    sqlite3_db_status(db, what, &current, &highest, 1);
    return current;
}

static void query(int queries, int every) {
    sqlite3_stmt *get = prepare("SELECT length(body) + count FROM item WHERE id BETWEEN ? AND ?");
    sqlite3_stmt *scan = prepare("SELECT sum(count) FROM item WHERE id BETWEEN ? AND ?");
    sqlite3_stmt *last = prepare("SELECT max(id) FROM item WHERE id BETWEEN ? AND ?");
    int rows = (int)number(last, 0, INT32_MAX);
    double *sums = zipf(rows);
    int64_t sum = 0;
    for (int i = -queries / 4; i < queries; i++) {
        if (i == 0)
            (void)counted(SQLITE_DBSTATUS_CACHE_HIT), (void)counted(SQLITE_DBSTATUS_CACHE_MISS);
        int64_t at = row(sums, rows);
        sum += number(get, at, at);
        if (every > 0 && (i + queries) % every == 0) {
            at = 1 + (int64_t)(uniform() * rows * 0.9);
            sum += number(scan, at, at + rows / 10);
        }
    }
    int hits = counted(SQLITE_DBSTATUS_CACHE_HIT), misses = counted(SQLITE_DBSTATUS_CACHE_MISS);
    free(sums);
    struct mallinfo2 heap = mallinfo2();
    (void)printf("found %d read %d heap %zu sum %lld ", hits, misses, heap.uordblks + heap.hblkhd, (long long)sum);
    sqlite3_finalize(get);
    sqlite3_finalize(scan);
    sqlite3_finalize(last);
}

static void print_check(void) {
    sqlite3_stmt *check = prepare("PRAGMA quick_check");
    (void)printf("%s\n", sqlite3_step(check) == SQLITE_ROW ? (const char *)sqlite3_column_text(check, 0) : "no check");
    sqlite3_finalize(check);
}

int main(int count, char **words) {
    if (count < 4)
        return 2;
    if (sqlite3_open(words[1], &db) != SQLITE_OK)
        fail("open");
    if (strcmp(words[2], "fill") == 0) {
        fill(atoi(words[3]));
    } else {
        char text[80];
        (void)snprintf(text, sizeof text, "PRAGMA cache_size=%d; PRAGMA mmap_size=0", atoi(words[2]));
        execute(text);
        query(atoi(words[3]), count > 4 ? atoi(words[4]) : 0);
        print_check();
    }
    return sqlite3_close(db) != SQLITE_OK || sqlite3_shutdown() != SQLITE_OK;
}
