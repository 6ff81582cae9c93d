/*
 * writes DATABASE PAGES SEED: random transactions with savepoints and rollbacks, vacuums, changes of the journal to WAL
 * and back, of the cache size, shrinks, and second connections that read. Prints a hash of all that was read and of all
 * rows in the end, and what integrity_check says: the same for each page cache.
 */
#include <sqlite3.h>
#include <stdarg.h>
#include <stdint.h>
#include <stdio.h>
#include <stdlib.h>
#include <string.h>

enum { TRANSACTIONS = 80, KEYS = 8000 };

static sqlite3 *db;
static uint64_t state, hash = 0xcbf29ce484222325u;

static unsigned below(unsigned limit) {
    state ^= state << 13;
    state ^= state >> 7;
    state ^= state << 17;
    return (unsigned)((state >> 20) % limit);
}

static void fail(const char *text) {
    (void)printf("%s: %s\n", text, sqlite3_errmsg(db));
    exit(1);
}

/* Adds all rows that a query returns to the hash. Returns the first column of the last row. */
static int64_t read_rows(sqlite3 *from, const char *text) {
    sqlite3_stmt *query = NULL;
    int64_t last = 0;
    if (sqlite3_prepare_v2(from, text, -1, &query, NULL) != SQLITE_OK)
        fail(text);
    int status;
    while ((status = sqlite3_step(query)) == SQLITE_ROW) {
        last = sqlite3_column_int64(query, 0);
        for (int i = 0; i < sqlite3_column_count(query); i++) {
            const unsigned char *bytes = sqlite3_column_blob(query, i);
            for (int at = 0; at < sqlite3_column_bytes(query, i); at++)
                hash = (hash ^ bytes[at]) * 0x100000001b3u;
        }
    }
    if (status != SQLITE_DONE)
        fail(text);
    sqlite3_finalize(query);
    return last;
}

__attribute__((format(printf, 1, 2))) static void execute(const char *form, ...) {
    char text[400];
    va_list given;
    va_start(given, form);
    (void)vsnprintf(text, sizeof text, form, given);
    va_end(given);
    if (sqlite3_exec(db, text, NULL, NULL, NULL) != SQLITE_OK)
        fail(text);
}

/* Inserts some rows in the order of a permutation, so that they go to many pages. */
static void insert(void) {
    unsigned key = below(KEYS), length = below(10) ? below(900) : below(20000), rows = 1 + below(60);
    execute("WITH RECURSIVE n(i) AS (SELECT 0 UNION ALL SELECT i + 1 FROM n WHERE i < %u) INSERT OR REPLACE INTO item "
            "SELECT (%u + i * 2477) %% %u, i %% 100, printf('%%0*d', %u, i * %u) FROM n",
            rows, key, KEYS, length, 1 + key);
}

static void write(unsigned *savepoints) {
    unsigned key = below(KEYS), what = below(12);
    if (what < 6) {
        insert();
    } else if (what == 6) {
        execute("UPDATE item SET kind = kind + 1, body = body || 'more' WHERE id BETWEEN %u AND %u", key,
                key + below(200));
    } else if (what == 7) {
        execute("DELETE FROM item WHERE id BETWEEN %u AND %u", key, key + below(100));
    } else if (what == 8) {
        execute("SAVEPOINT inner");
        ++*savepoints;
    } else if (what == 9 && *savepoints > 0) {
        int is_released = below(2) == 0;
        execute(is_released ? "RELEASE inner" : "ROLLBACK TO inner");
        *savepoints -= (unsigned)is_released;
    } else if (what == 10) {
        execute("INSERT INTO scratch SELECT body FROM item LIMIT 50");
    } else {
        (void)read_rows(db, "SELECT kind, length(body) FROM item INDEXED BY item_kind WHERE kind > 90 ORDER BY body");
    }
}

static void read_by_another(const char *name) {
    sqlite3 *other;
    if (sqlite3_open(name, &other) != SQLITE_OK)
        fail("open");
    (void)sqlite3_exec(other, "PRAGMA cache_size=15", NULL, NULL, NULL);
    (void)read_rows(other, "SELECT count(*), sum(length(body)) FROM item");
    (void)read_rows(other, "SELECT id, kind FROM item ORDER BY kind, id LIMIT 500");
    (void)sqlite3_close(other);
}

static void maintain(const char *name) {
    if (below(40) == 0)
        execute("VACUUM");
    if (below(25) == 0)
        execute("PRAGMA shrink_memory");
    if (below(15) == 0)
        execute("PRAGMA incremental_vacuum(50)");
    if (below(25) == 0)
        execute("PRAGMA cache_size=%u", 5 + below(200));
    if (below(30) == 0)
        execute(below(2) ? "PRAGMA journal_mode=wal" : "PRAGMA journal_mode=delete");
    if (below(10) == 0)
        read_by_another(name);
    if (below(20) == 0)
        execute("DELETE FROM scratch");
}

int main(int count, char **words) {
    if (count < 4 || sqlite3_open(words[1], &db) != SQLITE_OK)
        return 2;
    state = (uint64_t)atoi(words[3]) * 7919 + 1;
    execute("PRAGMA auto_vacuum=%d; PRAGMA cache_size=%d; PRAGMA synchronous=off; PRAGMA cache_spill=on",
            atoi(words[3]) % 3, atoi(words[2]));
    execute("CREATE TABLE item(id INTEGER PRIMARY KEY, kind INT, body TEXT); CREATE INDEX item_kind ON item(kind, id); "
            "CREATE TEMP TABLE scratch(body)");
    for (int i = 0; i < TRANSACTIONS; i++) {
        unsigned savepoints = 0;
        execute("BEGIN");
        for (unsigned statements = 1 + below(30); statements > 0; statements--)
            write(&savepoints);
        execute(below(4) ? "COMMIT" : "ROLLBACK");
        maintain(words[1]);
    }
    int64_t pages = read_rows(db, "PRAGMA page_count"), rows = read_rows(db, "SELECT count(*) FROM item");
    (void)read_rows(db, "SELECT id, kind, body FROM item ORDER BY id");
    int is_sound = read_rows(db, "SELECT integrity_check = 'ok' FROM pragma_integrity_check") == 1;
    (void)printf("%lld pages %lld rows hash %016llx %s\n", (long long)pages, (long long)rows, (unsigned long long)hash,
                 is_sound ? "ok" : "damaged");
    return sqlite3_close(db) != SQLITE_OK || sqlite3_shutdown() != SQLITE_OK;
}
