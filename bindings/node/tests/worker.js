'use strict'
// A server in a worker, or, with the word ipc, in a process that was forked.

const { parentPort } = require('node:worker_threads')
const bullmyrtle = require('..')

const [Reader, Writer, port] = process.argv[2] === 'ipc'
  ? [bullmyrtle.IPCMessageReader, bullmyrtle.IPCMessageWriter, process]
  : [bullmyrtle.PortMessageReader, bullmyrtle.PortMessageWriter, parentPort]
const connection = bullmyrtle.createMessageConnection(new Reader(port), new Writer(port))
connection.onRequest('twice', it => it.n * 2)
connection.onRequest('never', () => new Promise(() => {}))
connection.onNotification('exit', () => process.exit())
connection.listen()
