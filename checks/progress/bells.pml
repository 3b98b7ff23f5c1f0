/* Who wakes whom, and how the threads learn that the server has stopped. */

bool is_stopped;

#define stopped() (is_stopped)

inline jobs_were_offered(jobs) {
  if
  :: jobs >= WORKERS -> notify_all(WORKERS_BELL)
  :: else ->
     do
     :: jobs > 0 -> notify_one(WORKERS_BELL); jobs--
     :: else -> break
     od
  fi
}

inline stop() {
  store(is_stopped, true);
  notify_all(CLERK_BELL);
  notify_all(WORKERS_BELL);
  notify_all(READER_BELL)
}
