/* Refuses one allocation of a program that is run with this library preloaded: that whose number REFUSED says. Then it
 * writes "refused" to standard error. */
extern void *__libc_malloc(unsigned long size);
extern void *__libc_realloc(void *block, unsigned long size);
extern void *__libc_calloc(unsigned long count, unsigned long size);
extern char *getenv(const char *name);
extern long strtol(const char *text, char **end, int base);
extern long write(int file, const void *text, unsigned long size);

static long left;
static int is_read;

static int is_refused(void)
{
    if (!is_read) {
        const char *text = getenv("REFUSED");
        is_read = 1;
        left = text ? strtol(text, 0, 10) : 0;
    }
    if (left == 0 || --left > 0)
        return 0;
    write(2, "refused\n", 8);
    return 1;
}

void *malloc(unsigned long size)
{
    return is_refused() ? 0 : __libc_malloc(size);
}

void *calloc(unsigned long count, unsigned long size)
{
    return is_refused() ? 0 : __libc_calloc(count, size);
}

void *realloc(void *block, unsigned long size)
{
    return is_refused() ? 0 : __libc_realloc(block, size);
}
