/* The threads of rpc_peer, step by step: how they hand pieces and jobs to one another, how they wake one another, and
   how they end. docs/server.md ties each step to the function of the code that it is. */

#include "sizes.pml"
#include "memory.pml"
#include "event_count.pml"
#include "bells.pml"
#include "patience.pml"
#include "ring.pml"
#include "slots.pml"
#include "gate.pml"
#include "turn.pml"
#include "client.pml"
#include "session.pml"
#include "reader.pml"
#include "worker.pml"
#include "clerk.pml"
#include "threads.pml"
#include "ends.pml"

init {
  bool has_key, is_heard, has_popped, has_come, has_gone, has_offered, fault, is_refused;
  byte arrival, slot, gone, used, workers_hired;
  byte gates = SLOTS;
  byte job = NO_JOB;
  byte in_hand = NO_JOB;
  run_threads();
  check_end()
}

ltl ends { <> is_over }
