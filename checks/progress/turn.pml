/* A job's turn: one poll of its handler, which makes a call and waits for the reply, or answers, or finds no memory. */

#define ASKS 1
#define ANSWERS 2
#define FAILS 3

byte outcome[JOBS];
byte calls_left[JOBS] = CALLS;

inline turn(slot, job) {
  pass();
  turn_passed(slot, job)
}

inline turn_passed(slot, job) {
  atomic {
    turns[slot]++;
    if
    :: calls_left[job] > 0 -> calls_left[job]--; outcome[job] = ASKS
    :: outcome[job] = ANSWERS
#if FAULTS
    :: outcome[job] = FAILS
#endif
    fi
  }
}
