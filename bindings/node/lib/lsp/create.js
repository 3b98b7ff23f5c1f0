'use strict'
// createConnection: which transport a server talks over, and what becomes of its process.

const { isMainThread } = require('node:worker_threads')
const { IPCMessageReader, PortMessageReader, ReadableStreamMessageReader } = require('../readers')
const { IPCMessageWriter } = require('../writers')
const { createServerPipeTransport, createServerSocketTransport } = require('../transports')
const { keepFree, finish } = require('../run')
const { serverConnection } = require('./connection')
const { endWithStreams } = require('./over_streams')

const ProposedFeatures = { all: { __brand: 'features' } }

const WATCH = 3_000 // so often, in milliseconds, it is looked whether the client's process is there
const GRACE = 5_000 // so long handlers may go on once the input has ended

/** What follows an argument of the command line: behind `=`, or the next one. */
function valueOf(name, args) {
  const at = args.findIndex(it => it === name || it.startsWith(`${name}=`))
  if (at < 0) return undefined
  const value = args[at] === name ? args[at + 1] : args[at].substring(name.length + 1)
  if (!value) throw new Error(`${name} needs a value, as in ${name}=VALUE`)
  return value
}

/** The input and the output that the command line tells; the standard streams, if it tells none. */
function transportOf(args) {
  if (args.includes('--node-ipc')) {
    if (process.send === undefined) throw new Error('--node-ipc needs a process that was started by fork()')
    return [new IPCMessageReader(process), new IPCMessageWriter(process)]
  }
  const port = valueOf('--socket', args)
  if (port !== undefined) {
    if (!/^\d+$/.test(port)) throw new Error(`--socket needs the number of a port: ${port}`)
    return createServerSocketTransport(Number(port))
  }
  const pipe = valueOf('--pipe', args)
  return pipe === undefined ? [process.stdin, process.stdout] : createServerPipeTransport(pipe)
}

/** Whether an input is the process's own, which ends with it. */
function isOfProcess(input) {
  if (input instanceof IPCMessageReader) return process.send !== undefined
  if (input instanceof PortMessageReader) return !isMainThread
  return input === process.stdin || (input instanceof ReadableStreamMessageReader && input.stream === process.stdin)
}

function isThere(id) {
  try {
    return process.kill(id, 0)
  } catch (error) {
    return error.code !== 'ESRCH' // (another user's process is there)
  }
}

/** Ends the process with that of the client. (One that isn't there from the beginning is behind a wall of containers.) */
function watchClient(id, end) {
  if (!Number.isInteger(id) || id <= 0 || !isThere(id)) return
  const timer = setInterval(() => {
    if (isThere(id)) return
    clearInterval(timer)
    end()
  }, WATCH)
  timer.unref()
}

/** Has the process end when the session does. */
function endWithProcess({ peer, session }) {
  session.exited.event(status => peer.stop(status))
  session.began.event(({ processId }) => watchClient(processId, () => process.exit(session.status)))
  peer.onClose(async ({ how }) => {
    const status = await finish(peer, how === 'Stopped' ? 0 : GRACE)
    process.exit(how === 'Clean' && status === 0 ? session.status : status)
  })
}

/** Takes (features?, options?) and (features?, input, output, options?), as vscode-languageserver does. */
function sorted(given) {
  const [first, ...rest] = given[0]?.__brand === 'features' ? given.slice(1) : given
  const isInput = typeof first?.listen === 'function' || typeof first?.on === 'function'
  if (isInput) return { input: first, output: rest[0], options: rest[1] }
  return { input: undefined, output: undefined, options: first }
}

/**
 * A server's connection. Without streams it talks over what the command line tells: `--stdio`, `--node-ipc`,
 * `--socket=PORT` or `--pipe=NAME`, and the standard streams where it tells none.
 */
function createConnection(...given) {
  const { input, output, options } = sorted(given)
  const isOwn = input === undefined || isOfProcess(input)
  const [from, to] = input === undefined ? transportOf(process.argv.slice(2)) : [input, output]
  const made = serverConnection(from, to, options)
  if (isOwn) endWithProcess(made)
  else endWithStreams(made)
  // (nothing but messages may be on the stream)
  if (from === process.stdin || from.stream === process.stdin) keepFree()
  return made.connection
}

module.exports = { createConnection, ProposedFeatures }
