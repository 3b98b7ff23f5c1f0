/* How large the server is, and what may happen to it. The script gives other sizes by -D. */

#ifndef WORKERS
#define WORKERS 2
#endif

/* MOST_SLOTS of the code, which makes so many. */
#ifndef SLOTS
#define SLOTS 2
#endif

/* PIECES of the code. */
#ifndef PIECES
#define PIECES 1
#endif

/* So many requests come, and so many at most in one piece. */
#ifndef JOBS
#define JOBS 2
#endif
#ifndef AT_ONCE
#define AT_ONCE 2
#endif

/* So many calls back may each request's method make, and wait for the reply. */
#ifndef CALLS
#define CALLS 0
#endif

/* So many pieces may complete no content, and so many may be a cancel. */
#ifndef SCRAPS
#define SCRAPS 0
#endif
#ifndef CANCELS
#define CANCELS 0
#endif

/* So many jobs wait for one another at the gate: none passes before so many have come. */
#ifndef GATE
#define GATE 1
#endif

/* Whether reads, writes, requests for memory and the starts of threads may fail. */
#ifndef FAULTS
#define FAULTS 0
#endif

/* Whether a broken frame may end the input while the client goes on sending. */
#ifndef BROKEN
#define BROKEN 0
#endif

/* Whether the reader is a thread beside the others. If not, it has ended before they begin: all requests came in one
   piece, and the end behind it. */
#ifndef READER
#define READER 1
#endif

/* Whether steps that may be taken at once are taken one by one. */
#ifndef FINE
#define FINE 0
#endif
