/* EventCount of crossbeam_utils: a bell.

   Nobody uses a bell's epoch but to compare it with that of a key. So the model keeps no number: `fresh` has, as
   bits, the threads whose key has the bell's epoch, and what raises the epoch takes them all out. (A number of 32
   bits that comes round to the same value during one sleep is left out.)

   The count of waiters only spares work: where it is 0 nobody has a key or sleeps, and a ring would change nothing.
   So it is kept only with FINE, as the steps that it adds.

   The system wakes any one of those who sleep, not the first: that is more than it does. */

#define CLERK_BELL 0
#define READER_BELL 1
#define WORKERS_BELL 2
#define BELLS 3

byte fresh[BELLS];
byte asleep[BELLS];
#if FINE
byte waiters[BELLS];
#define has_waiters(bell) (waiters[bell] != 0)
#else
#define has_waiters(bell) true
#endif

#define bit(place) (1 << (place))
#define is_fresh(bell, place) (fresh[bell] & bit(place))
#define sleeps(bell, place) (asleep[bell] & bit(place))

inline prepare_wait(bell, place) {
#if FINE
  waiters[bell]++;
#endif
  fresh[bell] = fresh[bell] | bit(place)
}

/* A bell of one thread wakes it at once with the ring: before, it wouldn't have done anything but sleep. Of several,
   one may fall asleep by a newer key before another is woken, and may then be woken in its place. */
inline notify_one(bell) {
  together {
    if
    :: has_waiters(bell) ->
       fresh[bell] = 0;
       if
       :: bell == WORKERS_BELL -> is_heard = true
       :: else -> asleep[bell] = 0
       fi
    :: else
    fi
  };
  if
  :: is_heard -> wake_one(bell); is_heard = false
  :: else
  fi
}

/* One that falls asleep by a newer key before the last step would be woken, see that its key is fresh, and sleep on. */
inline notify_all(bell) {
  together {
    if
    :: has_waiters(bell) -> fresh[bell] = 0; asleep[bell] = 0
    :: else
    fi
  }
}

inline wake_one(bell) {
  if
  :: sleeps(bell, 0) -> asleep[bell] = asleep[bell] & ~bit(0)
  :: sleeps(bell, 1) -> asleep[bell] = asleep[bell] & ~bit(1)
  :: sleeps(bell, 2) -> asleep[bell] = asleep[bell] & ~bit(2)
  :: asleep[bell] == 0
  fi
}

/* The look before the system's call finds what the system then finds, or less. */
inline wait(bell, place) {
  do
  :: together { !sleeps(bell, place) && is_fresh(bell, place) -> park(bell, place) }
  :: together { !sleeps(bell, place) && !is_fresh(bell, place) -> drop_key(bell, place); break }
  od
}

/* The system compares the epoch and puts the thread to sleep in one step. */
inline park(bell, place) {
  d_step {
    if
    :: is_fresh(bell, place) -> asleep[bell] = asleep[bell] | bit(place)
    :: else
    fi
  }
}

/* What the model keeps of a key goes with it. */
inline drop_key(bell, place) {
#if FINE
  waiters[bell]--;
#endif
  fresh[bell] = fresh[bell] & ~bit(place)
}
