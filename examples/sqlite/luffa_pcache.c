/*
 * The page cache of SQLite over luffapricot.
 *
 * A table finds the pages by their numbers. The library has a record of each page under the same number, with the
 * page's address as its value; its policy decides which page leaves, and its listener says so. A page that leaves the
 * library while SQLite has it pinned stays in the table, and is inserted again when it is unpinned. Meanwhile the
 * library's capacity is lower by one, so all pages together stay within the size that SQLite has set. SQLite makes one
 * call at a time for a cache.
 */
#include "luffa_pcache.h"
#include <luffapricot.h>
#include <sqlite3.h>
#include <stdbool.h>
#include <string.h>

struct page {
    sqlite3_pcache_page shown; /* what SQLite has: the first field */
    struct page *next;         /* in its bucket */
    unsigned key;
    unsigned records; /* in the library, until the listener is told that they left: 1, or 0 if the page left pinned */
    bool is_pinned;
    bool is_discarded; /* not in the table any more: freed with its last record */
};

/* A cache, which SQLite leaves to its page cache to define. */
struct sqlite3_pcache {
    luffa_cache *records;  /* NULL if no page may leave: that of a database in memory */
    struct page **buckets; /* a power of two */
    size_t page_size, extra_size;
    unsigned count;      /* of buckets */
    unsigned size;       /* how many pages SQLite wants at most */
    unsigned capacity;   /* the library's: the size without the pages that have no record */
    unsigned highest;    /* no page has a greater number */
    unsigned pages;      /* in the table */
    unsigned pinned;     /* of these */
    unsigned unrecorded; /* of these: they have no record */
};

static uint32_t chosen;

static uint64_t hash(void *context, const void *key, size_t len) {
    uint32_t number;
    (void)context, (void)len;
    memcpy(&number, key, sizeof number);
    return number * 0x9E3779B97F4A7C15u;
}

/* Where the table has the page with this number, or where it would have it. */
static struct page **find(const sqlite3_pcache *cache, unsigned key) {
    struct page **at = &cache->buckets[key & (cache->count - 1)];
    while (*at != NULL && (*at)->key != key)
        at = &(*at)->next;
    return at;
}

static void link_page(sqlite3_pcache *cache, struct page *page, unsigned key) {
    page->key = key;
    page->next = NULL;
    *find(cache, key) = page;
    cache->highest = key > cache->highest ? key : cache->highest;
    cache->pages++;
}

static void unlink_page(sqlite3_pcache *cache, const struct page *page) {
    *find(cache, page->key) = page->next;
    cache->pages--;
}

/* Doubles the table. False if there is no memory; then its buckets get longer. */
static bool grow_table(sqlite3_pcache *cache) {
    unsigned half = cache->count, count = half == 0 ? 64 : 2 * half;
    struct page **buckets = sqlite3_realloc64((void *)cache->buckets, count * sizeof *buckets);
    if (buckets == NULL)
        return false;
    memset((void *)(buckets + half), 0, (count - half) * sizeof *buckets);
    cache->buckets = buckets;
    cache->count = count;
    cache->pages = 0;
    for (unsigned i = 0; i < half; i++) {
        struct page *page = buckets[i], *next;
        for (buckets[i] = NULL; page != NULL; page = next) {
            next = page->next;
            link_page(cache, page, page->key);
        }
    }
    return true;
}

/* A record left the library. */
static void left(void *context, int event, const void *key, size_t key_len, const void *value, size_t value_len) {
    sqlite3_pcache *cache = context;
    struct page *page;
    (void)event, (void)key, (void)key_len, (void)value_len;
    memcpy((void *)&page, value, sizeof page);
    if (--page->records == 0 && page->is_pinned) {
        cache->unrecorded++;
    } else if (page->records == 0) {
        if (!page->is_discarded)
            unlink_page(cache, page);
        sqlite3_free(page);
    }
}

/* Gives the library the capacity that the pages without a record leave to it. */
static void set_capacity(sqlite3_pcache *cache) {
    unsigned capacity;
    while ((capacity = cache->size > cache->unrecorded ? cache->size - cache->unrecorded : 0) != cache->capacity) {
        cache->capacity = capacity;
        (void)luffa_resize(cache->records, 0, capacity); /* which may take records of pinned pages out */
    }
}

/* Inserts a page of the table, which may leave at once if it isn't pinned. False if there is no memory. */
static bool add_record(sqlite3_pcache *cache, struct page *page) {
    cache->unrecorded -= page->records++ == 0;
    set_capacity(cache);
    luffa_status status =
        luffa_insert(cache->records, 0, &page->key, sizeof page->key, (void *)&page, sizeof page, 1, 0);
    if (status != LUFFA_OK)
        cache->unrecorded += --page->records == 0;
    set_capacity(cache);
    return status == LUFFA_OK;
}

static void discard_page(sqlite3_pcache *cache, struct page *page) {
    unlink_page(cache, page);
    cache->pinned -= page->is_pinned;
    page->is_pinned = false;
    page->is_discarded = true; /* if the library has no memory to remove it, it waits for its eviction */
    if (page->records == 0) {
        cache->unrecorded--;
        sqlite3_free(page);
    } else {
        (void)luffa_remove(cache->records, &page->key, sizeof page->key);
    }
}

/* Discards the pages from a number on, or those of them that aren't pinned. */
static void discard_pages(sqlite3_pcache *cache, unsigned from, bool are_pinned_too) {
    for (unsigned i = 0; i < cache->count; i++)
        for (struct page *page = cache->buckets[i]; page != NULL;) {
            bool leaves = page->key >= from && (are_pinned_too || !page->is_pinned);
            if (leaves)
                discard_page(cache, page);
            page = leaves ? cache->buckets[i] : page->next; /* the listener may have freed the next one */
        }
}

static struct page *add_page(sqlite3_pcache *cache, unsigned key) {
    struct page *page = sqlite3_malloc64(sizeof *page + cache->page_size + cache->extra_size);
    if (page == NULL)
        return NULL;
    char *content = (char *)(page + 1), *extra = content + cache->page_size;
    *page = (struct page){.shown = {content, memset(extra, 0, cache->extra_size)}, .is_pinned = true};
    if (cache->pages >= cache->count)
        (void)grow_table(cache);
    link_page(cache, page, key);
    cache->pinned++;
    cache->unrecorded++;
    if (cache->records != NULL)
        (void)add_record(cache, page); /* without memory it is inserted when it is unpinned */
    return page;
}

static int x_init(void *context) { return (void)context, SQLITE_OK; }

static void x_destroy(sqlite3_pcache *cache) {
    luffa_destroy(cache->records);
    for (unsigned i = 0; i < cache->count; i++)
        for (struct page *page; (page = cache->buckets[i]) != NULL; sqlite3_free(page))
            cache->buckets[i] = page->next;
    sqlite3_free((void *)cache->buckets);
    sqlite3_free(cache);
}

static sqlite3_pcache *x_create(int page_size, int extra_size, int is_purgeable) {
    luffa_config config = luffa_config_default(chosen);
    sqlite3_pcache *cache = sqlite3_malloc64(sizeof *cache);
    if (cache == NULL)
        return NULL;
    *cache = (sqlite3_pcache){.page_size = (size_t)page_size, .extra_size = (size_t)extra_size};
    config.shards = 1;
    config.hash = hash;
    config.listener = left;
    config.listener_context = cache;
    config.policy.high_priority_pool = (luffa_ratio){1, 1};
    if (grow_table(cache) && (!is_purgeable || luffa_create(&config, &cache->records) == LUFFA_OK))
        return cache;
    x_destroy(cache);
    return NULL;
}

static void x_cachesize(sqlite3_pcache *cache, int size) {
    cache->size = (unsigned)size;
    if (cache->records != NULL)
        set_capacity(cache);
}

static int x_pagecount(sqlite3_pcache *cache) { return (int)cache->pages; }

static sqlite3_pcache_page *x_fetch(sqlite3_pcache *cache, unsigned key, int create) {
    struct page *page = *find(cache, key);
    if (page == NULL) {
        bool is_crowded = cache->records != NULL && cache->pinned >= (uint64_t)cache->size * 9 / 10;
        if (create == 2 || (create == 1 && !is_crowded))
            page = add_page(cache, key);
    } else if (!page->is_pinned) {
        page->is_pinned = true;
        cache->pinned++;
        (void)luffa_touch(cache->records, 0, &key, sizeof key);
    }
    return (sqlite3_pcache_page *)page;
}

static void x_unpin(sqlite3_pcache *cache, sqlite3_pcache_page *shown, int is_discarded) {
    struct page *page = (struct page *)shown;
    page->is_pinned = false;
    cache->pinned--;
    if (is_discarded || (page->records == 0 && !add_record(cache, page)))
        discard_page(cache, page);
}

static void x_rekey(sqlite3_pcache *cache, sqlite3_pcache_page *shown, unsigned from, unsigned to) {
    struct page *page = (struct page *)shown, *replaced = *find(cache, to);
    if (replaced != NULL && replaced != page)
        discard_page(cache, replaced);
    unlink_page(cache, page);
    link_page(cache, page, to);
    if (page->records != 0)
        (void)luffa_remove(cache->records, &from, sizeof from); /* it is inserted when it is unpinned */
}

static void x_truncate(sqlite3_pcache *cache, unsigned limit) {
    if (cache->highest >= limit) {
        discard_pages(cache, limit, true);
        cache->highest = limit - 1;
    }
}

static void x_shrink(sqlite3_pcache *cache) { discard_pages(cache, 0, false); }

int luffa_pcache_install(uint32_t policy) {
    static const sqlite3_pcache_methods2 METHODS = {1,           NULL,        x_init,  NULL,    x_create,
                                                    x_cachesize, x_pagecount, x_fetch, x_unpin, x_rekey,
                                                    x_truncate,  x_destroy,   x_shrink};
    if (policy > LUFFA_SIEVE)
        return SQLITE_MISUSE;
    chosen = policy;
    return sqlite3_config(SQLITE_CONFIG_PCACHE2, &METHODS);
}
