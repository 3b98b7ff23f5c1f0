/* The slots: a word and a place for one job each. What is in a place is plain memory, and only who holds the slot
   touches it, as is proved; so a plain access goes in one step with the atomic one next to it. */

#define EMPTY 0
#define FILLING 1
#define READY 2
#define RUNNING 3
#define DONE 4
#define NO_JOB JOBS

byte word[SLOTS];
byte held[SLOTS] = NO_JOB;
/* How often the job was turned that is in the slot. */
byte turns[SLOTS];

#define peek(slot) word[slot]
#define load(slot) word[slot]

inline exchange(slot, hand) {
  in_hand = held[slot];
  held[slot] = hand;
  hand = in_hand;
  in_hand = NO_JOB
}

/* The clerk's side. Its map of the slots in use is its own. */

#define in_use(slot) (used & bit(slot))
#define has_room() (used != bit(SLOTS) - 1)

inline next_in_use(from) {
  d_step {
    slot = from;
    do
    :: slot < SLOTS && !in_use(slot) -> slot++
    :: else -> break
    od
  }
}

inline least() {
  d_step {
    slot = 0;
    do
    :: in_use(slot) -> slot++
    :: else -> break
    od
  }
}

inline offer(job) {
  least();
  fill(slot, job);
  used = used | bit(slot)
}

/* Whether a slot is free or filling, no worker tells apart. */
inline fill(slot, job) {
  together {
    store(word[slot], FILLING);
    d_step {
      exchange(slot, job);
      assert(job == NO_JOB);
      store(word[slot], READY)
    }
  }
}

#define is_turned(slot) (peek(slot) == DONE)

inline collect(slot) {
  take_home(slot);
  used = used & ~bit(slot)
}

inline take_home(slot) {
  d_step {
    assert(load(slot) == DONE && turns[slot] == 1);
    turns[slot] = 0;
    exchange(slot, job);
    store(word[slot], EMPTY)
  }
}

/* The workers' side. */

inline run_one_from(from) {
  run_among(from, SLOTS);
  if
  :: !has_run && from > 0 -> run_among(0, from)
  :: else
  fi
}

inline run_among(from, to) {
  slot = from;
  do
  :: run_at(slot, to)
  :: slot >= to -> break
  od
}

/* At the last of the slots, and where a job was run, it breaks out of the loop around it. */
inline run_at(slot, to) {
  if
  :: slot < to && peek(slot) == READY ->
     run_ready(slot);
     if
     :: has_run -> break
     :: else
     fi
  :: together {
       slot < to && word[slot] != READY -> slot++;
       if
       :: slot >= to -> break
       :: else
       fi
     }
  fi
}

inline run_ready(slot) {
  together {
    compare_exchange(slot, READY, RUNNING);
    if
    :: has_run -> exchange(slot, job)
    :: else -> slot++
    fi
  };
  if
  :: together {
       has_run -> turn(slot, job);
       exchange(slot, job);
       store(word[slot], DONE)
     }
  :: else
  fi
}

inline compare_exchange(slot, before, after) {
  atomic {
    if
    :: word[slot] == before -> word[slot] = after; has_run = true
    :: else
    fi
  }
}
