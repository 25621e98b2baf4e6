/* The program of buffer.cp: two senders and two receivers of a buffer with two places. */

#define ITEMS 6
#define PLACES 2
#define MONITORS 1
#define QUEUES 4
#define BUFFER 0
#include "monitors.pml"

byte contents[PLACES];
byte head, length;

/* The queue in which sender or receiver k waits. */
#define SENDERS(k) (k)
#define RECEIVERS(k) (2 + k)

inline resume_one_of(a, b) {
  if
  :: queue[a] == NOBODY -> resume(BUFFER, b)
  :: else -> resume(BUFFER, a)
  fi
}

inline send(k, item) {
  atomic {
    enter(BUFFER);
    if
    :: length == PLACES -> delay(BUFFER, SENDERS(k))
    :: else
    fi;
    contents[(head + length) % PLACES] = item;
    length++;
    resume_one_of(RECEIVERS(0), RECEIVERS(1))
  }
}

inline receive(k, item) {
  atomic {
    enter(BUFFER);
    if
    :: length == 0 -> delay(BUFFER, RECEIVERS(k))
    :: else
    fi;
    item = contents[head];
    head = (head + 1) % PLACES;
    length--;
    resume_one_of(SENDERS(0), SENDERS(1))
  }
}

active [2] proctype sender() {
  byte me = _pid + 1, number = _pid, n = 1;
  do
  :: n <= ITEMS -> send(number, n); n++
  :: else -> break
  od
}

active [2] proctype receiver() {
  byte me = _pid + 1, number = _pid - 2, k = 1, n;
  do
  :: k <= ITEMS -> receive(number, n); k++
  :: else -> break
  od
}
