/* entries.h - what becomes of all entries of one moment. They are words: a key, its value, and so on, as Base._snapshot_words makes
   them. These functions of the module let others have the interpreter's lock, and answer signals. */
#ifndef ENTRIES_H
#define ENTRIES_H
#include "shared.h"

/* (entries, 0 or 1): all keys, or all values, as words. */
PyObject *column(PyObject *module, PyObject *const *args, Py_ssize_t count);

/* (entries): a dict. */
PyObject *dict_of(PyObject *module, PyObject *entries);

/* (entries, n): the n pairs with the greatest values, or all if n is None, as a list. */
PyObject *most_common(PyObject *module, PyObject *const *args, Py_ssize_t count);

/* (entries, entries or a dict): whether they are the same. */
PyObject *are_equal(PyObject *module, PyObject *const *args, Py_ssize_t count);

#endif
