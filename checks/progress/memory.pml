/* Steps in memory. Each atomic access is a step of its own, and all threads see the steps in one order.

   `together { .. }` takes some steps of the code at once. At most one of them touches what another thread sees, or
   else a comment says why the others can't tell: that a key goes, they never can. With FINE the steps are taken one
   by one. */

#if FINE
#define together
#else
#define together atomic
#endif

inline store(word, value) {
  word = value
}
