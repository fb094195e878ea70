/* shared.h - what the sources of the extension share: the interpreter's lock, whole numbers that are given, and words. They are over the
   stable ABI of CPython 3.10; a CPython without a global lock has none, so there they are over that version's own. */
#ifndef SHARED_H
#define SHARED_H

#include <pyconfig.h>
#ifndef Py_GIL_DISABLED
#define Py_LIMITED_API 0x030a0000
#endif
#define PY_SSIZE_T_CLEAN
#include <Python.h>
#include "samvolip_map.h"
#include <stdbool.h>
#include <stdlib.h>

/* ---- the interpreter's lock ---------------------------------------------------------------- */

/* What is shorter than this keeps the lock: to let go of it and take it again costs more, and others may have it for milliseconds. */
enum { FEW = 64 };

void *let_go(void);
void take_back(void *state);

/* Work with the interpreter's objects, which needs the lock, calls this at each step: after 8192 of them others get the lock, and signals
   are answered. False if a handler raised. */
enum { BREATH = 1 << 13 };
bool breathe(void);
static inline bool goes_on(size_t step) { return (step + 1) % BREATH != 0 || breathe(); }

/* Does steps of some nanoseconds, of which none needs the lock, without it; signals are answered between parts. False if a handler
   raised. */
typedef void part_of(void *work, size_t from, size_t to);
bool in_parts(size_t count, part_of *some, void *work);

/* ---- whole numbers ------------------------------------------------------------------------- */

/* What a whole number stands for, in words, and its range. */
typedef struct kind {
    const char *one, *many, *range;
    uint64_t most;
} kind;

static const kind a_key = {"a key", "keys", "a key is from 0 to 2**64 - 3", SAMVOLIP_KEY_MAX};
static const kind a_value = {"a value", "values", "a value is from 0 to 2**60 - 1", SAMVOLIP_VALUE_MAX};

/* RAISED: there is an exception, by the number's own __index__. */
enum reading { READ, NO_NUMBER, OUT_OF_RANGE, RAISED };

enum reading read_index(PyObject *given, uint64_t most, uint64_t *number);

/* Reads a whole number up to `most`. */
static inline enum reading read_number(PyObject *given, uint64_t most, uint64_t *number)
{
    if (!PyLong_Check(given))
        return read_index(given, most, number);
    *number = PyLong_AsUnsignedLongLong(given);
    if (*number <= most && (*number != UINT64_MAX || !PyErr_Occurred()))
        return READ;
    PyErr_Clear(); /* where no word of 64 bits holds it */
    return OUT_OF_RANGE;
}

/* Raises what says why a number wasn't read. */
bool refuse_number(enum reading how, PyObject *given, const kind *as);

/* Reads a whole number of a kind; false with an exception. */
static inline bool number_of(PyObject *given, const kind *as, uint64_t *number)
{
    enum reading how = read_number(given, as->most, number);
    return how == READ || refuse_number(how, given, as);
}

/* Whether a call has so many arguments; false with an exception. */
bool refuse_count(const char *name, Py_ssize_t count, Py_ssize_t least, Py_ssize_t most);
static inline bool takes(const char *name, Py_ssize_t count, Py_ssize_t least, Py_ssize_t most)
{
    return (count >= least && count <= most) || refuse_count(name, count, least, most);
}

/* ---- words --------------------------------------------------------------------------------- */

/* Words of 64 bits. They lie in a bytearray, which was made here or in samvolip/__init__.py, so nobody else changes it. */
typedef struct words {
    const uint64_t *at;
    size_t count;
} words;

/* The words of a bytearray; the second refuses those that are out of the range of their kind. False with an exception. */
bool all_words(PyObject *given, words *read);
bool words_of(PyObject *given, const kind *as, words *read);

/* Functions of the module. Both have which kind of number it is as their second argument: 0 for keys, 1 for values. */
PyObject *read_words(PyObject *module, PyObject *const *args, Py_ssize_t count);  /* of what is iterated over */
PyObject *check_signs(PyObject *module, PyObject *const *args, Py_ssize_t count); /* refuses words that are negative numbers */

/* ---- refusals ------------------------------------------------------------------------------ */

/* What a code means, and its exception. */
const char *meaning(int code);
PyObject *exception_of(int code);

/* Raises it. NULL. */
PyObject *refuse(int code);

#endif
