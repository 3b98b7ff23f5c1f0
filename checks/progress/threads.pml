/* The threads of a server: the clerk's, which starts the others and waits for them. */

inline hire() {
  do
  :: workers_hired < WORKERS ->
     if
#if FAULTS
     :: is_refused = true; break
#endif
     :: atomic { workers_at_work++; run Worker(workers_hired); workers_hired++ }
     fi
  :: else -> break
  od
}

inline begin_reading() {
  if
#if FAULTS
  :: is_refused = true
#endif
#if READER
  :: run Reader()
#else
  :: d_step { ring!JOBS; ring!ENDS; reader_has_ended = true }
#endif
  fi
}

inline run_threads() {
  hire();
  if
  :: is_refused -> stop()
  :: else ->
     begin_reading();
     if
     :: is_refused -> stop()
     :: else ->
        serve();
        stop();
        reader_has_ended
     fi
  fi;
  /* The scope ends once all its threads have. */
  workers_at_work == 0
}
