/* Turns: one thread at a time uses a machine. Their fields change with the interpreter's lock held. */
#include "native.h"

static void append(turn *turn, waiter *self) {
    waiter **end = &turn->first;
    while (*end) end = &(*end)->next;
    *end = self;
}

static void remove_waiter(turn *turn, waiter *self) {
    waiter **at = &turn->first;
    while (*at != self) at = &(*at)->next;
    *at = self->next;
}

/* Waits until the turn was passed to this waiter. */
static int wait_for(turn *turn, waiter *self) {
    for (;;) {
        PyLockStatus status;
        Py_BEGIN_ALLOW_THREADS
        status = PyThread_acquire_lock_timed(self->gate, -1, 1);
        Py_END_ALLOW_THREADS
        if (status == PY_LOCK_ACQUIRED) return 0;
        if (PyErr_CheckSignals() < 0) {
            if (turn->owner == self->thread) pass_turn(turn);
            else remove_waiter(turn, self);
            return -1;
        }
    }
}

int take_turn(turn *turn) {
    unsigned long self = PyThread_get_thread_ident();
    if (!turn->owner) {
        turn->owner = self;
        return 0;
    }
    if (turn->owner == self) {
        PyErr_SetNone(busy_error);
        return -1;
    }
    waiter waiting = {0, self, PyThread_allocate_lock()};
    if (!waiting.gate) {
        PyErr_NoMemory();
        return -1;
    }
    PyThread_acquire_lock(waiting.gate, WAIT_LOCK);
    append(turn, &waiting);
    int status = wait_for(turn, &waiting);
    PyThread_release_lock(waiting.gate);
    PyThread_free_lock(waiting.gate);
    return status;
}

void pass_turn(turn *turn) {
    waiter *next = turn->first;
    turn->owner = next ? next->thread : 0;
    if (!next) return;
    turn->first = next->next;
    PyThread_release_lock(next->gate);
}
