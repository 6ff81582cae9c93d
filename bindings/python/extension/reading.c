/* Reading arguments and times, and raising refusals. */
#include "cache.h"
#include <time.h>

static const double NANOSECONDS = 1e9;

PyObject *refused(const cache_object *self, luffa_status status) {
    if (status == LUFFA_NO_MEMORY)
        return PyErr_NoMemory();
    return PyErr_Format(self->state->error, "%s (F%u)", luffa_strerror(status), (unsigned)status);
}

int set_closed(void) {
    PyErr_SetString(PyExc_ValueError, "the cache is closed");
    return 1;
}

/* Seconds in nanoseconds, at least 0. */
static uint64_t nanoseconds(double seconds) {
    double number = seconds * NANOSECONDS;
    return number >= 18446744073709549568.0 ? UINT64_MAX : (uint64_t)number;
}

/* The time that the timer says. Returns 0, or -1 and an exception. */
static int ask_timer(PyObject *timer, uint64_t *now) {
    PyObject *said = PyObject_CallFunctionObjArgs(timer, NULL);
    double number = said == NULL ? -1 : PyFloat_AsDouble(said);
    Py_XDECREF(said);
    if (number == -1 && PyErr_Occurred())
        return -1;
    if (!(number >= 0)) {
        PyErr_SetString(PyExc_ValueError, "the timer must say 0 seconds or more");
        return -1;
    }
    *now = nanoseconds(number);
    return 0;
}

int ask_time(cache_object *self, uint64_t *now) {
    struct timespec time;
    if (self->has_expiry && self->timer == NULL) {
        clock_gettime(CLOCK_MONOTONIC, &time);
        *now = (uint64_t)time.tv_sec * 1000000000u + (uint64_t)time.tv_nsec;
    } else if (self->has_expiry && self->cache != NULL && ask_timer(self->timer, now) < 0) {
        return -1;
    }
    return is_closed(self) ? -1 : 0;
}

int read_size(PyObject *number, size_t *size) {
    *size = PyLong_AsSize_t(number);
    return *size == (size_t)-1 && PyErr_Occurred() ? -1 : 0;
}

/* Seconds, as an int or a float above 0, in nanoseconds; None and NULL are 0. Returns -1 and an exception for others.
 */
int read_ttl(PyObject *seconds, uint64_t *ttl) {
    *ttl = 0;
    if (seconds == NULL || seconds == Py_None)
        return 0;
    double number = PyFloat_AsDouble(seconds);
    if (number == -1 && PyErr_Occurred())
        return -1;
    if (!(number > 0)) {
        PyErr_SetString(PyExc_ValueError, "a time to live must be more than 0 seconds");
        return -1;
    }
    *ttl = nanoseconds(number);
    if (*ttl == 0)
        *ttl = 1;
    return 0;
}

/* What a value counts. Returns 0, or -1 and an exception. It may run Python code. */
int weigh(const cache_object *self, PyObject *key, PyObject *value, size_t *weight) {
    *weight = 1;
    if (self->weigher == NULL)
        return 0;
    PyObject *number = PyObject_CallFunctionObjArgs(self->weigher, key, value, NULL);
    int status = number == NULL ? -1 : read_size(number, weight);
    Py_XDECREF(number);
    return status;
}

/* Reads a number of 32 bits. Returns 0, or -1 and an exception. */
static int read_part(PyObject *number, unsigned long most, unsigned long *part) {
    *part = number == NULL ? (unsigned long)-1 : PyLong_AsUnsignedLong(number);
    if (*part == (unsigned long)-1 && PyErr_Occurred())
        return -1;
    if (*part > most) {
        PyErr_Format(PyExc_OverflowError, "a parameter of the policy is more than %lu", most);
        return -1;
    }
    return 0;
}

/* A change of the policy's defaults: a count, or a pair of numbers, whose quotient it is. */
static int read_change(const char *name, PyObject *value, luffa_policy *policy) {
    luffa_ratio *ratio = strcmp(name, "window") == 0      ? &policy->window
                         : strcmp(name, "protected") == 0 ? &policy->protected_
                         : strcmp(name, "small") == 0     ? &policy->small_queue
                         : strcmp(name, "ghost") == 0     ? &policy->ghost_queue
                                                          : NULL;
    unsigned long part, other;
    if (ratio != NULL) {
        if (read_part(PyTuple_GetItem(value, 0), UINT32_MAX, &part) < 0 ||
            read_part(PyTuple_GetItem(value, 1), UINT32_MAX, &other) < 0)
            return -1;
        *ratio = (luffa_ratio){(uint32_t)part, (uint32_t)other};
        return 0;
    }
    int is_buckets = strcmp(name, "sketch_buckets") == 0;
    if (read_part(value, is_buckets ? UINT32_MAX : UINT8_MAX, &part) < 0)
        return -1;
    if (is_buckets)
        policy->sketch_buckets = (uint32_t)part;
    else if (strcmp(name, "sketch_rows") == 0)
        policy->sketch_rows = (uint8_t)part;
    else
        policy->small_to_main = (uint8_t)part;
    return 0;
}

/* Reads a policy by its name, with a dict of what differs from its defaults. Returns 0, or -1 and an exception. */
int read_policy(const char *name, PyObject *changes, luffa_config *made) {
    static const char *const POLICIES[] = {"fifo", "lru", "lfu", "s3fifo", "sieve"};
    static const char *const NAMES[] = {"window",      "protected",      "small",         "ghost",
                                        "sketch_rows", "sketch_buckets", "small_to_main", NULL};
    uint32_t kind = 0;
    while (kind < 5 && strcmp(name, POLICIES[kind]) != 0)
        kind++;
    if (kind == 5) {
        PyErr_Format(PyExc_ValueError, "unknown policy '%s' (one of fifo, lru, lfu, s3fifo, sieve)", name);
        return -1;
    }
    *made = luffa_config_default(kind);
    made->policy.high_priority_pool = (luffa_ratio){1, 1}; /* no record has low priority, so this is plain LRU */
    for (int i = 0; changes != NULL && NAMES[i] != NULL; i++) {
        PyObject *value = PyDict_GetItemString(changes, NAMES[i]);
        if (value != NULL && read_change(NAMES[i], value, &made->policy) < 0)
            return -1;
    }
    return 0;
}

/* Puts the arguments of a fast call, also those by name, in the order of the names; NULL for those left out. Returns
 * -1 and an exception if one is unknown, given twice, or missing among the `least` first. */
int read_words(const char *call, const char *const *names, Py_ssize_t least, Py_ssize_t most, PyObject *const *args,
               Py_ssize_t count, PyObject *words, PyObject **found) {
    Py_ssize_t named = words == NULL ? 0 : PyTuple_GET_SIZE(words);
    if (count > most) {
        PyErr_Format(PyExc_TypeError, "%s() takes at most %zd arguments (%zd given)", call, most, count + named);
        return -1;
    }
    for (Py_ssize_t i = 0; i < most; i++)
        found[i] = i < count ? args[i] : NULL;
    for (Py_ssize_t i = 0; i < named; i++) {
        PyObject *name = PyTuple_GET_ITEM(words, i);
        Py_ssize_t at = 0;
        while (at < most && PyUnicode_CompareWithASCIIString(name, names[at]) != 0)
            at++;
        if (at == most || found[at] != NULL) {
            PyErr_Format(PyExc_TypeError, "%s() got an unexpected argument '%U'", call, name);
            return -1;
        }
        found[at] = args[count + i];
    }
    for (Py_ssize_t i = 0; i < least; i++)
        if (found[i] == NULL) {
            PyErr_Format(PyExc_TypeError, "%s() misses its argument '%s'", call, names[i]);
            return -1;
        }
    return 0;
}
