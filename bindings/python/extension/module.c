/* The module _luffapricot, one for each interpreter. */
#include "cache.h"

/* Adds an object to the module. Returns 0, or -1 and an exception. */
static int add(PyObject *module, const char *name, PyObject *object) {
    Py_XINCREF(object);
    if (object == NULL || PyModule_AddObject(module, name, object) < 0) {
        Py_XDECREF(object);
        return -1;
    }
    return 0;
}

static int add_all(PyObject *module, module_state *state) {
    PyObject *types = PyImport_ImportModule("types");
    state->method_type = types == NULL ? NULL : PyObject_GetAttrString(types, "MethodType");
    Py_XDECREF(types);
    state->cache_type = (PyTypeObject *)PyType_FromModuleAndSpec(module, &cache_spec, NULL);
    state->cached_type = (PyTypeObject *)PyType_FromModuleAndSpec(module, &cached_spec, NULL);
    state->error = PyErr_NewException("luffapricot.Error", PyExc_RuntimeError, NULL);
    state->missing = PyUnicode_InternFromString("__missing__");
    state->keyword_mark = PyObject_CallFunctionObjArgs((PyObject *)&PyBaseObject_Type, NULL);
    if (state->method_type == NULL || state->missing == NULL || state->keyword_mark == NULL)
        return -1;
    return add(module, "_Cache", (PyObject *)state->cache_type) < 0 ||
                   add(module, "_Cached", (PyObject *)state->cached_type) < 0 ||
                   add(module, "Error", state->error) < 0 ||
                   PyModule_AddStringConstant(module, "version", luffa_version()) < 0
               ? -1
               : 0;
}

static int module_exec(PyObject *module) { return add_all(module, PyModule_GetState(module)); }

static int module_traverse(PyObject *module, visitproc visit, void *arg) {
    module_state *state = PyModule_GetState(module);
    Py_VISIT(state->error);
    Py_VISIT(state->keyword_mark);
    Py_VISIT(state->method_type);
    Py_VISIT(state->cache_type);
    Py_VISIT(state->cached_type);
    return 0;
}

static int module_clear(PyObject *module) {
    module_state *state = PyModule_GetState(module);
    Py_CLEAR(state->error);
    Py_CLEAR(state->missing);
    Py_CLEAR(state->keyword_mark);
    Py_CLEAR(state->method_type);
    Py_CLEAR(state->cache_type);
    Py_CLEAR(state->cached_type);
    return 0;
}

static void module_free(void *module) { module_clear(module); }

/* From 3.12 on a module says that each interpreter may have one, with a lock of its own. Older ones refuse the word. */
enum { MULTIPLE_INTERPRETERS = 3 };
static PyModuleDef_Slot module_slots[] = {{Py_mod_exec, module_exec}, {0, NULL}, {0, NULL}};

PyModuleDef module_def = {
    PyModuleDef_HEAD_INIT,   .m_name = "luffapricot._luffapricot", .m_size = sizeof(module_state),
    .m_slots = module_slots, .m_traverse = module_traverse,        .m_clear = module_clear,
    .m_free = module_free,
};

PyMODINIT_FUNC PyInit__luffapricot(void) {
    int major = 0, minor = 0;
    if (sscanf(Py_GetVersion(), "%d.%d", &major, &minor) == 2 && (major > 3 || minor >= 12))
        module_slots[1] = (PyModuleDef_Slot){MULTIPLE_INTERPRETERS, (void *)2};
    return PyModuleDef_Init(&module_def);
}
