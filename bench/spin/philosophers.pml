/* The program of philosophers.cp: five philosophers, each of whom takes the fork at the left first. */

#define COUNT 5
#define MEALS 3
#define MONITORS COUNT
#define QUEUES COUNT
#include "monitors.pml"

bool is_taken[COUNT];

inline take(f) {
  atomic {
    enter(f);
    if
    :: is_taken[f] -> delay(f, f)
    :: else
    fi;
    is_taken[f] = true;
    leave(f)
  }
}

inline put(f) {
  atomic {
    enter(f);
    is_taken[f] = false;
    resume(f, f)
  }
}

active [COUNT] proctype philosopher() {
  byte me = _pid + 1, left = _pid, right = (_pid + 1) % COUNT, meal = 1;
  do
  :: meal <= MEALS ->
    take(left);
    take(right);
    put(right);
    put(left);
    meal++
  :: else -> break
  od
}
