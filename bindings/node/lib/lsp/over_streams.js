'use strict'
// A session over streams, or a reader and a writer, that belong to the program.

/** Ends a session over streams that belong to the program, which goes on. */
function endWithStreams({ peer, session }) {
  session.exited.event(status => peer.stop(status))
  peer.onClose(async ({ how }) => {
    if (how === 'Stopped') peer.cancelOpen()
    else await peer.settled()
    await peer.drained()
    peer.end()
    peer.dispose()
  })
}

module.exports = { endWithStreams }
