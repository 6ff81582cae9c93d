/* The type _Cached: a function whose results a cache keeps. */
#include "cache.h"

typedef struct {
    PyObject_HEAD PyObject *function;
    cache_object *cache;
    PyObject *info;       /* makes what cache_info returns */
    PyObject *parameters; /* dict: what cache_parameters returns a copy of */
    PyObject *dict;
    PyObject *weak;
#ifndef Py_LIMITED_API
    vectorcallfunc call;
#endif
    module_state *state;
    char is_typed;
    char is_off; /* nothing is kept */
} cached_object;

/* Whether the key of a call is its only argument: a str or an int. */
static inline int is_its_key(const cached_object *self, PyObject *const *args, Py_ssize_t count, PyObject *names) {
    return count == 1 && (names == NULL || PyTuple_GET_SIZE(names) == 0) && !self->is_typed &&
           (PyLong_CheckExact(args[0]) || PyUnicode_CheckExact(args[0]));
}

/* The key of a call: its only argument, or else a tuple of all. */
static PyObject *key_of(const cached_object *self, PyObject *const *args, Py_ssize_t count, PyObject *names) {
    Py_ssize_t named = names == NULL ? 0 : PyTuple_GET_SIZE(names), at = 0;
    if (is_its_key(self, args, count, names)) {
        Py_INCREF(args[0]);
        return args[0];
    }
    Py_ssize_t size = count + (named > 0 ? 1 + 2 * named : 0) + (self->is_typed ? count + named : 0);
    PyObject *key = PyTuple_New(size);
    if (key == NULL)
        return NULL;
#define ADD(OBJECT)                                                                                                    \
    do {                                                                                                               \
        PyObject *added = (OBJECT);                                                                                    \
        Py_INCREF(added);                                                                                              \
        PyTuple_SET_ITEM(key, at++, added);                                                                            \
    } while (0)
    for (Py_ssize_t i = 0; i < count; i++)
        ADD(args[i]);
    if (named > 0)
        ADD(self->state->keyword_mark);
    for (Py_ssize_t i = 0; i < named; i++) {
        ADD(PyTuple_GET_ITEM(names, i));
        ADD(args[count + i]);
    }
    for (Py_ssize_t i = 0; self->is_typed && i < count + named; i++)
        ADD((PyObject *)Py_TYPE(args[i]));
#undef ADD
    return key;
}

/* What a call of the function needs. */
typedef struct {
    PyObject *const *args;
    size_t flags;
    PyObject *names;
    PyObject *tuple; /* the same as above for an interpreter without fast calls */
    PyObject *words;
} arguments;

static PyObject *run(const cached_object *self, const arguments *given) {
#ifndef Py_LIMITED_API
    return PyObject_Vectorcall(self->function, given->args, given->flags, given->names);
#else
    return PyObject_Call(self->function, given->tuple, given->words);
#endif
}

/* Calls the function for a missing key, and keeps what it returns. */
static __attribute__((noinline)) PyObject *make(const cached_object *self, PyObject *key, Py_hash_t hash, node *it,
                                                const arguments *given) {
    cache_object *cache = self->cache;
    cache->misses++;
    if (it == NULL)
        it = add_node(cache, key, hash);
    else
        it->uses++;
    if (it == NULL)
        return NULL;
    PyObject *value = run(self, given);
    if (value != NULL && cache->cache != NULL && keep(cache, it, value, 1) < 0)
        Py_CLEAR(value);
    done_with(cache, it);
    return value;
}

static inline PyObject *answer(const cached_object *self, PyObject *key, const arguments *given) {
    cache_object *cache = self->cache;
    uint64_t now;
    node *it;
    if (self->is_off) {
        cache->misses++;
        return run(self, given);
    }
    Py_hash_t hash = hash_of(key);
    if (hash == -1 || read_time(cache, &now) < 0 || find(cache, key, hash, &it) < 0 || is_closed(cache))
        return NULL;
    PyObject *value = it == NULL ? NULL : touch(cache, it, now);
    return LIKELY(value != NULL) || (it != NULL && PyErr_Occurred()) ? value : make(self, key, hash, it, given);
}

#ifndef Py_LIMITED_API
static PyObject *cached_fast_call(PyObject *callable, PyObject *const *args, size_t flags, PyObject *names) {
    const cached_object *self = (cached_object *)callable;
    int is_key = is_its_key(self, args, PyVectorcall_NARGS(flags), names);
    PyObject *key = LIKELY(is_key) ? args[0] : key_of(self, args, PyVectorcall_NARGS(flags), names);
    PyObject *value =
        key == NULL ? NULL : answer(self, key, &(arguments){.args = args, .flags = flags, .names = names});
    if (!LIKELY(is_key))
        Py_XDECREF(key);
    return value;
}
#else
/* The arguments of a call with names, in an array that is to be freed, with the tuple of their names. */
static PyObject **flat_arguments(PyObject *tuple, PyObject *words, PyObject **names) {
    Py_ssize_t count = PyTuple_Size(tuple), named = PyDict_Size(words), at = 0, i = 0;
    PyObject **args = PyMem_Malloc((size_t)(count + named) * sizeof *args), *name, *value;
    *names = args == NULL ? PyErr_NoMemory() : PyTuple_New(named);
    if (*names == NULL) {
        PyMem_Free(args);
        return NULL;
    }
    for (; i < count; i++)
        args[i] = PyTuple_GetItem(tuple, i);
    while (PyDict_Next(words, &at, &name, &value)) {
        Py_INCREF(name);
        PyTuple_SetItem(*names, i - count, name);
        args[i++] = value;
    }
    return args;
}

static PyObject *cached_call(PyObject *callable, PyObject *tuple, PyObject *words) {
    const cached_object *self = (cached_object *)callable;
    Py_ssize_t count = PyTuple_Size(tuple);
    PyObject *names = NULL, **args = NULL, *first, *key = NULL;
    if (count == 1 && words == NULL) {
        first = PyTuple_GetItem(tuple, 0);
        key = key_of(self, &first, 1, NULL);
    } else if (words == NULL && !self->is_typed) {
        Py_INCREF(tuple);
        key = tuple;
    } else {
        PyObject *all = words == NULL ? PyDict_New() : words;
        args = all == NULL ? NULL : flat_arguments(tuple, all, &names);
        key = args == NULL ? NULL : key_of(self, args, count, PyTuple_Size(names) == 0 ? NULL : names);
        if (words == NULL)
            Py_XDECREF(all);
    }
    PyObject *value = key == NULL ? NULL : answer(self, key, &(arguments){.tuple = tuple, .words = words});
    Py_XDECREF(key);
    Py_XDECREF(names);
    PyMem_Free(args);
    return value;
}
#endif

static PyObject *cached_new(PyTypeObject *type, PyObject *args, PyObject *words) {
    static char *names[] = {"function", "cache", "info", "parameters", "typed", "off", NULL};
    PyObject *function, *cache, *info, *parameters;
    int is_typed, is_off;
    module_state *state = PyType_GetModuleState(type);
    if (state == NULL || !PyArg_ParseTupleAndKeywords(args, words, "OO!OO!pp", names, &function, state->cache_type,
                                                      &cache, &info, &PyDict_Type, &parameters, &is_typed, &is_off))
        return NULL;
    if (!PyCallable_Check(function)) {
        PyErr_SetString(PyExc_TypeError, "the first argument must be callable");
        return NULL;
    }
    cached_object *self = (cached_object *)PyType_GenericAlloc(type, 0);
    if (self == NULL)
        return NULL;
    Py_INCREF(function);
    Py_INCREF(cache);
    Py_INCREF(info);
    Py_INCREF(parameters);
    self->function = function;
    self->cache = (cache_object *)cache;
    self->info = info;
    self->parameters = parameters;
    self->state = state;
    self->is_typed = (char)is_typed;
    self->is_off = (char)is_off;
#ifndef Py_LIMITED_API
    self->call = cached_fast_call;
#endif
    return (PyObject *)self;
}

static int cached_traverse(cached_object *self, visitproc visit, void *arg) {
    Py_VISIT(Py_TYPE(self));
    Py_VISIT(self->function);
    Py_VISIT(self->cache);
    Py_VISIT(self->info);
    Py_VISIT(self->parameters);
    Py_VISIT(self->dict);
    return 0;
}

static int cached_clear(cached_object *self) {
    Py_CLEAR(self->function);
    Py_CLEAR(self->cache);
    Py_CLEAR(self->info);
    Py_CLEAR(self->parameters);
    Py_CLEAR(self->dict);
    return 0;
}

static void cached_dealloc(cached_object *self) {
    PyTypeObject *type = Py_TYPE(self);
    PyObject_GC_UnTrack(self);
    if (self->weak != NULL)
        PyObject_ClearWeakRefs((PyObject *)self);
    cached_clear(self);
    ((freefunc)PyType_GetSlot(type, Py_tp_free))(self);
    Py_DECREF(type);
}

/* A cached function of a class is a method. */
static PyObject *cached_bound(PyObject *self, PyObject *instance, PyObject *type) {
    (void)type;
    if (instance == NULL || instance == Py_None) {
        Py_INCREF(self);
        return self;
    }
    return PyObject_CallFunctionObjArgs(((cached_object *)self)->state->method_type, self, instance, NULL);
}

static PyObject *cached_cache_info(cached_object *self, PyObject *unused) {
    (void)unused;
    if (is_closed(self->cache))
        return NULL;
    PyObject *most = PyDict_GetItemString(self->parameters, "maxsize");
    return PyObject_CallFunction(self->info, "KKOK", (unsigned long long)self->cache->hits,
                                 (unsigned long long)self->cache->misses, most == NULL ? Py_None : most,
                                 (unsigned long long)luffa_entries(self->cache->cache));
}

static PyObject *cached_cache_clear(cached_object *self, PyObject *unused) {
    (void)unused;
    if (is_closed(self->cache))
        return NULL;
    luffa_status status = luffa_clear(self->cache->cache);
    self->cache->hits = self->cache->misses = 0;
    give_back(self->cache);
    if (status != LUFFA_OK)
        return refused(self->cache, status);
    Py_RETURN_NONE;
}

static PyObject *cached_cache_parameters(cached_object *self, PyObject *unused) {
    (void)unused;
    return PyDict_Copy(self->parameters);
}

/* A pickle has its name, as that of any function. */
static PyObject *cached_reduce(PyObject *self, PyObject *unused) {
    (void)unused;
    return PyObject_GetAttrString(self, "__qualname__");
}

static PyObject *cached_itself(PyObject *self, PyObject *unused) {
    (void)unused;
    Py_INCREF(self);
    return self;
}

static PyMethodDef cached_methods[] = {
    {"cache_info", (PyCFunction)cached_cache_info, METH_NOARGS,
     "cache_info($self)\n--\n\nHits, misses, the capacity and the entries, as functools.lru_cache has it."},
    {"cache_clear", (PyCFunction)cached_cache_clear, METH_NOARGS,
     "cache_clear($self)\n--\n\nForgets all results and counts."},
    {"cache_parameters", (PyCFunction)cached_cache_parameters, METH_NOARGS,
     "cache_parameters($self)\n--\n\nWhat the decorator was given."},
    {"__reduce__", cached_reduce, METH_NOARGS, NULL},
    {"__copy__", cached_itself, METH_NOARGS, NULL},
    {"__deepcopy__", cached_itself, METH_O, NULL},
    {NULL, NULL, 0, NULL},
};

static PyMemberDef cached_members[] = {
    {"_cache", T_OBJECT, offsetof(cached_object, cache), READONLY, NULL},
    {"__dictoffset__", T_PYSSIZET, offsetof(cached_object, dict), READONLY, NULL},
    {"__weaklistoffset__", T_PYSSIZET, offsetof(cached_object, weak), READONLY, NULL},
#ifndef Py_LIMITED_API
    {"__vectorcalloffset__", T_PYSSIZET, offsetof(cached_object, call), READONLY, NULL},
#endif
    {NULL, 0, 0, 0, NULL},
};

static PyGetSetDef cached_getters[] = {
    {"__dict__", PyObject_GenericGetDict, PyObject_GenericSetDict, NULL, NULL},
    {NULL, NULL, NULL, NULL, NULL},
};

static PyType_Slot cached_slots[] = {
    {Py_tp_new, cached_new},
    {Py_tp_dealloc, cached_dealloc},
    {Py_tp_traverse, cached_traverse},
    {Py_tp_clear, cached_clear},
#ifdef Py_LIMITED_API
    {Py_tp_call, cached_call},
#else
    {Py_tp_call, PyVectorcall_Call},
#endif
    {Py_tp_descr_get, cached_bound},
    {Py_tp_methods, cached_methods},
    {Py_tp_members, cached_members},
    {Py_tp_getset, cached_getters},
    {0, NULL},
};

PyType_Spec cached_spec = {"luffapricot._Cached", sizeof(cached_object), 0,
                           Py_TPFLAGS_DEFAULT | Py_TPFLAGS_HAVE_GC | Py_TPFLAGS_METHOD_DESCRIPTOR
#ifndef Py_LIMITED_API
                               | Py_TPFLAGS_HAVE_VECTORCALL
#endif
                           ,
                           cached_slots};
