/* Gates and queues, as monitors of Concurrent Pascal have them.

   A model defines MONITORS and QUEUES first. A process is known by `me`, which isn't NOBODY. It
   calls an entry by `enter`, and ends it by `leave` or by `resume`. A process that asks for a gate
   or is delayed waits until it holds the gate. */

#define NOBODY 0
#define MAX_ASKERS 8

byte gate[MONITORS];
chan askers[MONITORS] = [MAX_ASKERS] of { byte };
byte queue[QUEUES];

/* The gate is free, or the process asks for it and waits until it is given the gate. */
inline enter(m) {
  if
  :: gate[m] == NOBODY -> gate[m] = me
  :: else -> askers[m] ! me; gate[m] == me
  fi
}

/* The first asker holds the gate, or it is free. */
inline leave(m) {
  if
  :: len(askers[m]) > 0 -> askers[m] ? gate[m]
  :: else -> gate[m] = NOBODY
  fi
}

/* The process opens the gate, and waits in the queue until it is given the gate. */
inline delay(m, q) {
  assert(queue[q] == NOBODY);
  queue[q] = me;
  leave(m);
  gate[m] == me
}

/* `continue`: the process leaves, and the one in the queue holds the gate, ahead of all askers. */
inline resume(m, q) {
  if
  :: queue[q] != NOBODY -> gate[m] = queue[q]; queue[q] = NOBODY
  :: else -> leave(m)
  fi
}
