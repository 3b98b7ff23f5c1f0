'use strict'
// Where messages come from and go to: an `input` and an `output`, as streams, or readers and writers of messages.

const { spawn } = require('node:child_process')
const { PassThrough } = require('node:stream')

/** The standard streams of this process, which ends with its session; or others in their place, and then it doesn't. */
class StdioServerTransport {
  constructor(input = process.stdin, output = process.stdout) {
    this.input = input
    this.output = output
    this.isOfProcess = input === process.stdin
  }
}

/** So many milliseconds a server has to end when its input has ended, and then when it was told to by a signal. */
const GRACE = 2_000

/** A server that a command starts; messages are lines of its standard streams. */
class StdioClientTransport {
  #settings
  #process

  /** @param {ConstructorParameters<typeof import('../../types/mcp').StdioClientTransport>[0]} server */
  constructor({ command, args = [], env, cwd, stderr = 'inherit', grace = GRACE }) {
    if (typeof command !== 'string') throw new TypeError(`the command must be a string, got ${typeof command}`)
    /** @type {any} */
    const options = { env, cwd, stdio: ['pipe', 'pipe', stderr] }
    this.#settings = { command, args, options, grace }
  }

  /** Rejects if the command can't be started. */
  start() {
    if (this.#process !== undefined) throw new Error('a transport starts one server: make another one')
    const { command, args, options } = this.#settings
    const server = this.#process = spawn(command, args, options)
    return new Promise((resolve, reject) => {
      server.once('error', reject)
      server.once('spawn', () => resolve())
    })
  }

  get input() { return this.#process.stdout }
  get output() { return this.#process.stdin }
  /** What the server writes to its standard error, if the option `stderr` is 'pipe'. */
  get stderr() { return this.#process?.stderr ?? null }
  get pid() { return this.#process?.pid ?? null }

  /** Waits for the server's end, whose input has ended; it is ended if it takes too long. */
  async close() {
    const server = this.#process
    if (server?.pid === undefined) return
    const hasEnded = server.exitCode !== null || server.signalCode !== null
    const ended = hasEnded ? Promise.resolve() : new Promise(resolve => { server.once('exit', resolve) })
    server.stdin.end()
    for (const signal of ['SIGTERM', 'SIGKILL']) {
      if (await isSettledWithin(ended, this.#settings.grace)) return
      server.kill(signal)
    }
    await ended
  }
}

async function isSettledWithin(promise, milliseconds) {
  let timer
  const late = new Promise(resolve => { timer = setTimeout(resolve, milliseconds, true) })
  const isLate = await Promise.race([promise, late])
  clearTimeout(timer)
  return isLate !== true
}

/** A server and its client in one process. */
class InMemoryTransport {
  constructor(input, output) {
    this.input = input
    this.output = output
  }

  static createLinkedPair() {
    const up = new PassThrough()
    const down = new PassThrough()
    return [new InMemoryTransport(down, up), new InMemoryTransport(up, down)]
  }
}

module.exports = { InMemoryTransport, StdioClientTransport, StdioServerTransport }
