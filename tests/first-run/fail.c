/* Has one read of standard input or one write of standard output go otherwise, in a program that is run with this library
   preloaded: that of the call FAIL_CALL ("read" or "write") whose number FAIL_NUMBER says. By FAIL_HOW it fails, is
   interrupted, or moves one byte. */
extern long syscall(long number, ...);
extern char *getenv(const char *name);
extern long strtol(const char *text, char **end, int base);
extern int *__errno_location(void);

enum { READ = 0, WRITE = 1, INTERRUPTED = 4, INPUT_OUTPUT = 5 };

static long done;

static long moved(long call, const char *name, int wanted, int stream, void *bytes, unsigned long count)
{
    const char *asked = getenv("FAIL_CALL"), *how = getenv("FAIL_HOW"), *number = getenv("FAIL_NUMBER");
    if (stream == wanted && asked && how && number && asked[0] == name[0] && ++done == strtol(number, 0, 10)) {
        if (how[0] != 's') {
            *__errno_location() = how[0] == 'i' ? INTERRUPTED : INPUT_OUTPUT;
            return -1;
        }
        count = count ? 1 : 0;
    }
    return syscall(call, stream, bytes, count);
}

long read(int stream, void *bytes, unsigned long count)
{
    return moved(READ, "read", 0, stream, bytes, count);
}

long write(int stream, const void *bytes, unsigned long count)
{
    return moved(WRITE, "write", 1, stream, (void *)bytes, count);
}
