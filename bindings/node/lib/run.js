'use strict'
// A server over the standard streams, from its first byte to the end of its process.

const { lateText } = require('./ends')

/** Has `console` and `process.stdout` write to the standard error, so that nothing but messages is on the stream. */
function keepFree() {
  const { stderr } = process
  Object.assign(console, { _stdout: stderr }) // (what the global console writes to)
  Object.defineProperty(process, 'stdout', { configurable: true, get: () => stderr })
}

const after = milliseconds => new Promise(resolve => setTimeout(resolve, milliseconds, false))

/** Waits, once the input is over, for what has to be answered yet, and gives the status. */
async function finish(connection, grace, tell = console.error) {
  const isAllAnswered = await Promise.race([connection.settled().then(() => true), after(grace)])
  const late = isAllAnswered ? [] : connection.cancelOpen()
  await connection.drained()
  const { how, text } = connection.reason
  if (text !== undefined) tell(`bullmyrtle: the session ended: ${text}`)
  if (late.length) tell(`bullmyrtle: ${lateText(late, grace / 1000)}`)
  if (how === 'Stopped') return connection.status ?? 0
  return how === 'Clean' && isAllAnswered ? 0 : 1
}

/**
 * Listens, and ends the process once the input is over, every handler is done, or had its grace, and all is written.
 * The status is that of `connection.stop(status)`, or 0 for an input that was closed between two messages and all of
 * whose requests were answered by their handlers, and else 1; then the standard error says why.
 */
function run(connection, { grace = 5_000 } = {}) {
  keepFree()
  connection.onClose(() => finish(connection, grace).then(status => process.exit(status)))
  connection.listen()
}

module.exports = { run, keepFree, finish }
