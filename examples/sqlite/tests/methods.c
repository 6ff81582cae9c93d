/*
 * methods POLICY SIZE CALLS SEED [REFUSE]: makes random calls of the page cache and compares what each does with what
 * SQLite's documentation says of it. Each page carries its number and a stamp, so a lost, mixed up or freed page is
 * found. With REFUSE each request for memory is refused with the chance 1 : REFUSE.
 */
#include "../luffa_pcache.h"
#include <sqlite3.h>
#include <stdio.h>
#include <stdlib.h>
#include <string.h>

enum { KEYS = 400, PAGE = 512, EXTRA = 136 };

/* What the test knows of the page with a number: its address and stamp. */
struct known {
    sqlite3_pcache_page *page;
    unsigned stamp;
    int is_pinned; /* if it isn't, it may have left meanwhile */
};

static struct known known[2 * KEYS];
static sqlite3_pcache_methods2 methods;
static sqlite3_pcache *cache;
static unsigned size, pinned, stamps, refuse;
static uint64_t state;

static unsigned below(unsigned limit) {
    state ^= state << 13;
    state ^= state >> 7;
    state ^= state << 17;
    return (unsigned)((state >> 20) % limit);
}

static void expect(int is_so, const char *what) {
    if (!is_so) {
        (void)printf("failed: %s\n", what);
        exit(1);
    }
}

static int is_refused(void) { return refuse != 0 && below(refuse) == 0; }

/* The library's requests for memory, by the linker's --wrap, and SQLite's. */
void *__real_malloc(size_t size);
void *__real_realloc(void *from, size_t size);
void *__wrap_malloc(size_t size);
void *__wrap_realloc(void *from, size_t size);
void *__wrap_malloc(size_t size) { return is_refused() ? NULL : __real_malloc(size); }
void *__wrap_realloc(void *from, size_t size) { return is_refused() ? NULL : __real_realloc(from, size); }

static sqlite3_mem_methods usual;
static void *refusing_malloc(int size) { return is_refused() ? NULL : usual.xMalloc(size); }
static void *refusing_realloc(void *from, int size) { return is_refused() ? NULL : usual.xRealloc(from, size); }

/* Writes a stamp into a page's first and last bytes. */
static void stamp(unsigned key) {
    unsigned text[2] = {key, known[key].stamp = ++stamps};
    memcpy(known[key].page->pBuf, text, sizeof text);
    memcpy((char *)known[key].page->pBuf + PAGE - sizeof text, text, sizeof text);
    memset(known[key].page->pExtra, 1, EXTRA);
}

static void expect_stamp(unsigned key) {
    unsigned text[2] = {key, known[key].stamp};
    const char *content = known[key].page->pBuf;
    expect(memcmp(content, text, sizeof text) == 0, "a page's first bytes stay");
    expect(memcmp(content + PAGE - sizeof text, text, sizeof text) == 0, "a page's last bytes stay");
}

static void fetch(unsigned key, int create) {
    struct known *it = &known[key];
    unsigned before = (unsigned)methods.xPagecount(cache);
    sqlite3_pcache_page *page = methods.xFetch(cache, key, create);
    if (page == NULL) {
        int is_crowded = pinned >= (uint64_t)size * 9 / 10;
        expect(!it->is_pinned, "a pinned page is found");
        expect(create == 0 || (create == 1 && is_crowded) || refuse, "a page is made unless nine tenths are pinned");
        it->page = NULL;
        return;
    }
    pinned += !it->is_pinned;
    int is_new = it->page == NULL || ((const char *)page->pExtra)[0] == 0;
    if (is_new) {
        expect(!it->is_pinned && create != 0, "only a fetch that creates makes a page, and not a pinned one");
        expect(create == 2 || pinned <= (uint64_t)size * 9 / 10 + 1, "a crowded cache makes no page unless it must");
        for (unsigned i = 0; i < EXTRA; i++)
            expect(((const char *)page->pExtra)[i] == 0, "a new page's extra bytes are zeros");
        it->page = page;
        stamp(key);
    } else {
        expect(it->page == page, "a page stays in place");
        expect((unsigned)methods.xPagecount(cache) == before, "a page that is found isn't made");
        expect_stamp(key);
    }
    it->is_pinned = 1;
}

static void unpin(unsigned key, int is_discarded) {
    expect_stamp(key);
    methods.xUnpin(cache, known[key].page, is_discarded);
    known[key].is_pinned = 0;
    pinned--;
    if (is_discarded)
        known[key].page = NULL;
}

static void rekey(unsigned from, unsigned to) {
    methods.xRekey(cache, known[from].page, from, to);
    known[to] = known[from];
    known[from] = (struct known){0};
    stamp(to);
    expect(methods.xFetch(cache, to, 0) == known[to].page, "a page is found under its new number");
    expect(methods.xFetch(cache, from, 0) == NULL, "and not under its old one");
}

static void truncate_from(unsigned limit) {
    methods.xTruncate(cache, limit);
    for (unsigned key = 1; key < 2 * KEYS; key++)
        if (key >= limit) {
            pinned -= (unsigned)known[key].is_pinned;
            known[key] = (struct known){0};
            expect(methods.xFetch(cache, key, 0) == NULL, "no page from the limit on is left");
        }
    expect(limit > 1 || methods.xPagecount(cache) == 0, "a truncated cache is empty");
}

static void shrink(void) {
    methods.xShrink(cache);
    expect((unsigned)methods.xPagecount(cache) == pinned, "a shrunk cache has the pinned pages");
}

/* Pinned pages are as they were, and there are at most as many as the size says, or as are pinned. */
static void check(void) {
    unsigned pages = (unsigned)methods.xPagecount(cache);
    expect(pages >= pinned && (pages <= size || pages <= pinned + 1 || refuse), "the size bounds the pages");
    for (unsigned key = 1; key < 2 * KEYS; key++)
        if (known[key].is_pinned)
            expect_stamp(key);
}

/* A page that is pinned, beginning the search at random, or 0. */
static unsigned some_pinned(void) {
    unsigned from = below(2 * KEYS);
    for (unsigned i = 0; i < 2 * KEYS; i++)
        if (known[(from + i) % (2 * KEYS)].is_pinned)
            return (from + i) % (2 * KEYS);
    return 0;
}

static void call(void) {
    unsigned key = 1 + below(below(3) ? KEYS / 4 : KEYS), held = some_pinned(), what = below(1000);
    if (what < 470) {
        fetch(key, (int)below(8) ? 1 : (int)below(3));
    } else if (what < 930 && held != 0) {
        unpin(held, below(20) == 0);
    } else if (what < 980 && held != 0) {
        unsigned to = below(4) ? key : KEYS + below(KEYS);
        if (to != held && !known[to].is_pinned)
            rekey(held, to);
    } else if (what < 985) {
        truncate_from(below(10) == 0 ? below(2) : 2 + below(2 * KEYS));
    } else if (what < 990) {
        shrink();
    } else if (what < 993) {
        size = below(3) ? size : below(2 * KEYS);
        methods.xCachesize(cache, (int)size);
    } else if (what == 993) {
        for (unsigned i = 0; i < size + 10 && i < KEYS; i++)
            fetch(1 + i, 2);
    }
}

/* While there is room no page leaves: neither one that was pinned while many others passed, nor one with a new number.
 */
static void keep(void) {
    methods.xCachesize(cache, 60);
    size = 60;
    for (unsigned key = 1; key <= 20; key++)
        fetch(key, 2);
    for (unsigned key = 100; key < 300; key++) {
        fetch(key, 2);
        unpin(key, 0);
    }
    for (unsigned key = 1; key <= 20; key++)
        unpin(key, 0);
    for (unsigned key = 1; key <= 20; key++)
        expect(methods.xFetch(cache, key, 0) == known[key].page, "a page that was pinned for long stays");
    methods.xTruncate(cache, 1);
    memset(known, 0, sizeof known);
    fetch(1, 2);
    rekey(1, 2);
    unpin(2, 0);
    fetch(1, 2);
    expect(methods.xFetch(cache, 2, 0) == known[2].page, "a page with a new number stays");
    methods.xTruncate(cache, 0);
    memset(known, 0, sizeof known);
    pinned = 0;
}

int main(int count, char **words) {
    if (count < 5 || luffa_pcache_install((uint32_t)atoi(words[1])) != SQLITE_OK)
        return 2;
    state = (uint64_t)atoi(words[4]) * 0x9E3779B97F4A7C15u + 1;
    (void)sqlite3_config(SQLITE_CONFIG_GETPCACHE2, &methods);
    (void)sqlite3_config(SQLITE_CONFIG_GETMALLOC, &usual);
    sqlite3_mem_methods refusing = usual;
    refusing.xMalloc = refusing_malloc;
    refusing.xRealloc = refusing_realloc;
    (void)sqlite3_config(SQLITE_CONFIG_MALLOC, &refusing);
    expect(sqlite3_initialize() == SQLITE_OK, "SQLite begins");
    cache = methods.xCreate(PAGE, EXTRA, 1);
    expect(cache != NULL, "a cache is made");
    keep();
    size = (unsigned)atoi(words[2]);
    methods.xCachesize(cache, (int)size);
    refuse = count > 5 ? (unsigned)atoi(words[5]) : 0;
    for (int i = 0; i < atoi(words[3]); i++) {
        call();
        if (i % 10 == 0)
            check();
    }
    refuse = 0;
    methods.xDestroy(cache);
    return sqlite3_shutdown();
}
