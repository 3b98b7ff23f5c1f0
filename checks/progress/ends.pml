/* What holds once a server has ended. That it ends is what spin finds: no thread is left that waits. */

bool is_over;

inline check_end() {
  d_step {
    slot = 0;
    do
    :: slot < SLOTS ->
       /* No job was left half turned. */
       assert(word[slot] != FILLING && word[slot] != RUNNING);
       assert((held[slot] != NO_JOB) == (word[slot] != EMPTY));
       assert(turns[slot] == (word[slot] == DONE));
       slot++
    :: else -> break
    od;
    if
    :: fault || is_refused
    :: else ->
       /* All came home, were turned to their ends, and were answered. */
       assert(used == 0 && ready == 0 && gates == SLOTS);
       assert(is_closed && answered == opened);
       assert(opened == JOBS || FAULTS || BROKEN);
       job = 0;
       do
       :: job < opened -> assert(stage[job] == IS_OVER); job++
       :: else -> break
       od
    fi;
    is_over = true
  }
}
