'use strict'
// A server over the standard streams, for the tests of `run`.

const { createMessageConnection, run } = require('..')

const after = (ms, value) => new Promise(resolve => setTimeout(resolve, ms, value))
const connection = createMessageConnection(process.stdin, process.stdout, undefined, { protocol: process.argv[2] })
connection.onRequest('late', ({ ms }) => after(ms, 'late'))
connection.onRequest('print', () => {
  console.log('by console')
  process.stdout.write('by stdout\n')
  return 'printed'
})
connection.onRequest('large', ({ size }) => 'x'.repeat(size))
connection.onRequest('never', () => new Promise(() => {}))
connection.onRequest('die', () => process.exit(9))
connection.onNotification('exit', params => connection.stop(params?.status))
void console._stdout // (from now on the console has a stream of its own, as after its first line)
run(connection, { grace: 1_000 })
