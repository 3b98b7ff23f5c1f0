/* What a job passes before its turn. Jobs that wait for one another are the hardest gate: of each GATE that come, none
   passes before all of them have come, so as many workers have to be at it at once. */

byte came;

inline pass() {
#if GATE > 1
  d_step {
    came++;
    ticket = (came + GATE - 1) / GATE * GATE
  };
  came >= ticket;
  ticket = 0
#else
  skip
#endif
}
