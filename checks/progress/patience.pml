/* How a thread waits.

   A look may be taken at once with the key before it. If a bell rang between the two, the key is old; then either the
   round finds something, and the key makes no difference, or it is as if it had never been, and the next one begins.

   Looks without a key only read. A round of looks that finds nothing is as if it had never been, and one that finds
   something does the same with a key as without. So the model takes a key in each round. With FINE each round is
   free to take one or not, which is more than any number of looks: so it doesn't matter what a thread has learnt of how
   many looks pay, nor what it learns that by. */

inline announce(bell, place) {
  together {
    if
#if FINE
    :: skip
#endif
    :: prepare_wait(bell, place); has_key = true
    fi
  }
}

inline rest(bell, place) {
  if
  :: has_key -> wait(bell, place); has_key = false
  :: else
  fi
}

/* The round has found something. Its key, if it took one, goes with the round. */
inline renew(bell, place) {
  leave_round(bell, place)
}

inline leave_round(bell, place) {
  if
  :: has_key -> drop_key(bell, place); has_key = false
  :: else
  fi
}
