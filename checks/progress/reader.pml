/* The reader's thread. */

inline read_into() {
  if
#if FAULTS
  :: arrival = ENDS_WITHOUT_MEMORY; send(arrival)
#endif
  :: do
     :: next_arrival(arrival);
        if
        :: arrival != ENDS && arrival != ENDS_WITHOUT_MEMORY ->
           send(arrival);
           if
           :: has_left -> break
           :: else
           fi
        :: else -> send(arrival); break
        fi
     od
  fi
}

inline send(arrival) {
  do
  :: together {
       announce(READER_BELL, 0);
       if
       :: stopped() -> leave_round(READER_BELL, 0); has_left = true; arrival = 0; break
       :: else
       fi
     };
     push(arrival);
     if
     :: together {
          was_pushed -> notify_one(CLERK_BELL);
          leave_round(READER_BELL, 0);
          was_pushed = false;
          arrival = 0;
          break
        }
     :: else
     fi;
     rest(READER_BELL, 0)
  od
}

bool reader_has_ended;

proctype Reader() {
  bool has_key, is_heard, was_pushed, has_left;
  byte arrival;
  read_into();
  reader_has_ended = true
}
