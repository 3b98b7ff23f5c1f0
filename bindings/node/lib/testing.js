'use strict'
// Connections that are joined in memory, without a process and without pipes.

const { PassThrough } = require('node:stream')
const { createMessageConnection } = require('./message_connection')

/**
 * A server and a client that talk to each other. Both have yet to listen.
 * @param {import('../types/testing').JoinedOptions} options
 */
function joined({ server = {}, client = {}, logger, highWaterMark } = {}) {
  const up = new PassThrough({ highWaterMark })
  const down = new PassThrough({ highWaterMark })
  const one = createMessageConnection(up, down, logger, server)
  const other = createMessageConnection(down, up, logger, client)
  const dispose = () => {
    one.dispose()
    other.dispose()
  }
  return { server: one, client: other, dispose, up, down }
}

/**
 * Carries bytes between two connections of the lower floor until neither has any, and gives how many they were. Ask
 * both for their events afterwards: these may make new bytes.
 */
function carry(one, other) {
  let carried = 0
  for (;;) {
    const before = carried
    for (const [from, to] of [[one, other], [other, one]]) {
      const bytes = from.take()
      if (bytes.length) to.feed(bytes)
      carried += bytes.length
    }
    if (carried === before) return carried
  }
}

module.exports = { joined, carry }
