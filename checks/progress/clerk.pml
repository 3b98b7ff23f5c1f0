/* The clerk, in the thread that serves. */

inline serve() {
  do
  :: announce(CLERK_BELL, 0);
     settle();
     if
     :: together { fault || is_done() -> leave_round(CLERK_BELL, 0); break }
     :: else -> hand_out()
     fi;
     if
     :: together { has_come || has_gone -> renew(CLERK_BELL, 0); has_come = false; has_gone = false }
     :: together { !has_come && !has_gone -> rest(CLERK_BELL, 0) }
     fi
  od
}

inline settle() {
  bring_home();
  take_in_if_few_wait();
  if
  :: fault
  :: else -> drain()
  fi
}

inline bring_home() {
  next_in_use(0);
  do
  :: together {
       slot < SLOTS -> bring_home_if_turned(slot);
       next_in_use(slot + 1)
     }
  :: together { else -> slot = 0; break }
  od
}

/* What was turned stays so until the clerk takes it home. */
inline bring_home_if_turned(slot) {
  if
  :: is_turned(slot) -> bring_home_from(slot); has_come = true
  :: else
  fi
}

inline bring_home_from(slot) {
  collect(slot);
  gates++;
  back(job)
}

inline take_in_if_few_wait() {
  if
  :: count_ready() > SLOTS
  :: else -> take_in()
  fi
}

inline take_in() {
  together {
    if
    :: is_open() -> pop(arrival)
    :: else
    fi
  };
  if
  :: together {
       has_popped -> notify_one(READER_BELL);
       take_arrival(arrival);
       has_come = true;
       has_popped = false
     }
  :: else
  fi
}

inline hand_out() {
  hand_out_jobs();
  has_gone = (gone != 0);
  jobs_were_offered(gone);
  gone = 0
}

inline hand_out_jobs() {
  do
  :: together {
       hand_out_one();
       if
       :: has_offered -> gone++; has_offered = false
       :: else -> break
       fi
     }
  od
}

inline hand_out_one() {
  if
  :: count_ready() == 0 || !has_room()
  :: else ->
     if
     :: gates > 0 -> gates--; next_job(); offer(job); slot = 0; has_offered = true
     :: else
     fi
  fi
}
