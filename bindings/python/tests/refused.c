/* Requests for memory that a test refuses, below an extension that is linked with --wrap. */
#include <stdlib.h>

/* How many requests are granted before one is refused, and all after it; less than 0: all are granted. */
__attribute__((visibility("default"))) int luffa_grants = -1;

void *__real_malloc(size_t size);
void *__real_calloc(size_t count, size_t size);
void *__real_realloc(void *place, size_t size);
void *__wrap_malloc(size_t size);
void *__wrap_calloc(size_t count, size_t size);
void *__wrap_realloc(void *place, size_t size);

static int is_refused(void) {
    if (luffa_grants < 0)
        return 0;
    return luffa_grants == 0 || luffa_grants-- == 0;
}

void *__wrap_malloc(size_t size) { return is_refused() ? NULL : __real_malloc(size); }

void *__wrap_calloc(size_t count, size_t size) { return is_refused() ? NULL : __real_calloc(count, size); }

void *__wrap_realloc(void *place, size_t size) { return is_refused() ? NULL : __real_realloc(place, size); }
