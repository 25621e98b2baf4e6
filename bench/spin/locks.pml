/* The program of locks.cp: two processes that take two locks in opposite order. */

#define TIMES 20
#define MONITORS 2
#define QUEUES 2
#include "monitors.pml"

bool is_taken[MONITORS];

inline acquire(lock) {
  atomic {
    enter(lock);
    if
    :: is_taken[lock] -> delay(lock, lock)
    :: else
    fi;
    is_taken[lock] = true;
    leave(lock)
  }
}

inline release(lock) {
  atomic {
    enter(lock);
    is_taken[lock] = false;
    resume(lock, lock)
  }
}

active [2] proctype user() {
  byte me = _pid + 1, first = _pid, second = 1 - _pid, time = 1;
  do
  :: time <= TIMES ->
    acquire(first);
    acquire(second);
    release(second);
    release(first);
    time++
  :: else -> break
  od
}
