/* The other side, as the reader sees it: what the source gives next.

   Before each piece the client may wait, or not, until it has something to reply to or all that it asked is
   answered. So among these clients are such that close their input only once all is answered, and such that send
   each piece only then: behind these nothing more comes that could hide a wake-up that was lost. A client replies
   to a call once that was written, or not at all. One whose server is gone goes on, and closes its input in the
   end. */

local byte asked;
/* So many answers. */
byte received;
/* As bits: the requests with a call that was written and has no reply yet. */
byte owed;
local byte scraps = SCRAPS;
local byte cancels = CANCELS;
local bool broken;

/* What a piece brings: 1 to AT_ONCE requests, or one of these. */
#define REPLY 16
#define CANCEL 32
#define SCRAP 64
#define BREAKS 65
#define ENDS 66
#define ENDS_WITHOUT_MEMORY 67

#define may_ask(count) (asked + count <= JOBS)

/* (One that has sent some of the jobs that wait for one another sends the others too.) */
inline think() {
  if
  :: skip
  :: asked % GATE == 0 -> received == asked || owed != 0 || is_stopped
  fi
}

inline next_arrival(arrival) {
  think();
  if
  :: atomic { may_ask(1) -> arrival = 1; asked = asked + 1 }
#if AT_ONCE > 1
  :: atomic { may_ask(2) -> arrival = 2; asked = asked + 2 }
#endif
#if AT_ONCE > 2
  :: atomic { may_ask(3) -> arrival = 3; asked = asked + 3 }
#endif
#if CALLS
  :: atomic { owed & bit(0) -> arrival = REPLY; owed = owed & ~bit(0) }
#if JOBS > 1
  :: atomic { owed & bit(1) -> arrival = REPLY + 1; owed = owed & ~bit(1) }
#endif
#if JOBS > 2
  :: atomic { owed & bit(2) -> arrival = REPLY + 2; owed = owed & ~bit(2) }
#endif
#endif
#if SCRAPS
  :: atomic { scraps > 0 -> arrival = SCRAP; scraps-- }
#endif
#if CANCELS
  :: atomic { cancels > 0 && asked > 0 -> arrival = CANCEL; cancels-- }
  :: atomic { cancels > 0 && asked > 1 -> arrival = CANCEL + 1; cancels-- }
#endif
#if BROKEN
  :: atomic { !broken -> arrival = BREAKS; broken = true }
#endif
#if FAULTS
  :: arrival = ENDS
  :: arrival = ENDS_WITHOUT_MEMORY
#endif
  :: atomic { asked == JOBS -> arrival = ENDS }
  fi
}
