/* A worker's thread. */

inline work() {
  do
  :: together {
       announce(WORKERS_BELL, me);
       if
       :: stopped() -> leave_round(WORKERS_BELL, me); break
       :: else
       fi
     };
     run_one_from(last);
     if
     :: together {
          has_run -> notify_one(CLERK_BELL);
          last = slot;
          renew(WORKERS_BELL, me);
          slot = 0;
          has_run = false
        }
     :: together { !has_run -> slot = 0; rest(WORKERS_BELL, me) }
     fi
  od
}

byte workers_at_work;

proctype Worker(byte me) {
  bool has_key, is_heard, has_run;
  byte last, slot, ticket;
  byte job = NO_JOB;
  byte in_hand = NO_JOB;
  work();
  workers_at_work--
}
