/* The session, which is the clerk's alone: of each request, how far it is. It is modelled in the words of
   docs/protocol.md and not as the code has it, whose calls are proved: requests open in order, a turn asks back or
   answers, a reply or the end of the input makes who waits for it ready, a cancel ends what isn't out, and answers
   go out in order of arrival. */

#define TO_COME 0
#define IS_READY 1
#define IS_OUT 2
#define WAITS 3
#define IS_OVER 4

local byte stage[JOBS];
local byte opened;
local byte ready;
local bool is_closed;
local bool has_failed;
local byte answered;
/* As bits: the requests that a cancel has reached while they were out, and those with a call that isn't written. */
local byte cancelled;
local byte unsent;

#define is_open() (!is_closed)
#define count_ready() ready
#define is_done() (is_closed && answered == opened)
#define is_due() (unsent != 0 || (answered < opened && stage[answered] == IS_OVER))

inline make_ready(job) {
  stage[job] = IS_READY;
  ready++
}

inline open_requests(count) {
  do
  :: count > 0 -> make_ready(opened); opened++; count--
  :: else -> break
  od
}

inline take_reply(job) {
  if
  :: stage[job] == WAITS -> make_ready(job)
  :: else
  fi
}

inline take_cancel(job) {
  if
  :: stage[job] == IS_READY -> ready--; stage[job] = IS_OVER
  :: stage[job] == WAITS -> stage[job] = IS_OVER
  :: stage[job] == IS_OUT -> cancelled = cancelled | bit(job)
  :: else
  fi
}

/* No reply comes any more, so who waits for one is ready. */
inline close() {
  is_closed = true;
  job = 0;
  do
  :: job < JOBS -> take_reply(job); job++
  :: else -> break
  od
}

inline take_arrival(arrival) {
  d_step {
    if
    :: arrival == SCRAP
    :: arrival == ENDS || arrival == BREAKS -> close()
    :: arrival == ENDS_WITHOUT_MEMORY -> fault = true
    :: arrival >= CANCEL && arrival < CANCEL + JOBS -> take_cancel(arrival - CANCEL)
    :: arrival >= REPLY && arrival < REPLY + JOBS -> take_reply(arrival - REPLY)
    :: arrival > 0 && arrival <= JOBS -> open_requests(arrival)
    fi;
    arrival = 0;
    job = NO_JOB
  }
}

/* The first that is ready. */
inline next_job() {
  d_step {
    job = 0;
    do
    :: stage[job] != IS_READY -> job++
    :: else -> break
    od;
    ready--;
    stage[job] = IS_OUT
  }
}

inline back(job) {
  d_step {
    if
    :: outcome[job] == ASKS && (cancelled & bit(job)) -> stage[job] = IS_OVER
    :: outcome[job] == ASKS && !(cancelled & bit(job)) ->
       unsent = unsent | bit(job);
       if
       :: is_closed -> make_ready(job)
       :: else -> stage[job] = WAITS
       fi
    :: outcome[job] == ANSWERS -> stage[job] = IS_OVER
    :: outcome[job] == FAILS -> has_failed = true; stage[job] = IS_OVER
    fi;
    outcome[job] = 0;
    cancelled = cancelled & ~bit(job);
    job = NO_JOB
  }
}

/* Writes what is due: calls, and answers in order. */
inline drain() {
  if
  :: has_failed -> fault = true
  :: !has_failed && is_due() ->
     if
#if FAULTS
     :: fault = true
#endif
     :: write_due()
     fi
  :: else
  fi
}

inline write_due() {
  d_step {
    owed = owed | unsent;
    unsent = 0;
    do
    :: answered < opened && stage[answered] == IS_OVER -> answered++
    :: else -> break
    od;
    received = answered
  }
}
