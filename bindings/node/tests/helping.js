'use strict'
// What the tests have in common.

const assert = require('node:assert/strict')
const { PassThrough } = require('node:stream')
const { setTimeout: sleep, setImmediate: turn } = require('node:timers/promises')
const bullmyrtle = require('..')
const { joined } = require('../lib/testing.js')

const frame = it => {
  const content = Buffer.isBuffer(it) ? it : Buffer.from(typeof it === 'string' ? it : JSON.stringify(it))
  return Buffer.concat([Buffer.from(`Content-Length: ${content.length}\r\n\r\n`), content])
}
const request = (id, method, params) => ({ jsonrpc: '2.0', id, method, params })
const notice = (method, params) => ({ jsonrpc: '2.0', method, params })

/** The messages of a stream of frames, whose last one may still be on its way. */
function messages(bytes) {
  const found = []
  let rest = bytes
  for (;;) {
    const end = rest.indexOf('\r\n\r\n')
    if (end < 0) return found
    const length = /^Content-Length: ([0-9]+)$/.exec(rest.subarray(0, end).toString())
    assert.ok(length, `a head: ${rest.subarray(0, 60)}`)
    const over = end + 4 + Number(length[1])
    if (rest.length < over) return found
    found.push(JSON.parse(rest.subarray(end + 4, over).toString()))
    rest = rest.subarray(over)
  }
}

/** Keeps what is logged. */
class Log {
  errors = []
  error(text) { this.errors.push(text) }
  warn(text) { this.errors.push(text) }
  info() {}
  log() {}
}

/** A server that is spoken to by bytes: `say` gives what it wrote, once `count` messages came. */
class Raw {
  log = new Log()
  input = new PassThrough()
  output = new PassThrough()
  #bytes = []

  constructor(options = {}) {
    this.isLines = options.protocol === 'mcp' || options.framing === 'lines'
    this.connection = bullmyrtle.createMessageConnection(this.input, this.output, this.log, options)
    this.output.on('data', it => this.#bytes.push(it))
  }

  listen() {
    this.connection.listen()
    return this
  }

  get written() {
    const bytes = Buffer.concat(this.#bytes)
    return this.isLines ? bytes.toString().split('\n').slice(0, -1).map(it => JSON.parse(it)) : messages(bytes)
  }

  write(...all) {
    const whole = it => (Buffer.isBuffer(it) ? it : this.isLines ? Buffer.from(`${JSON.stringify(it)}\n`) : frame(it))
    this.input.write(Buffer.concat(all.map(whole)))
  }

  async say(count, ...all) {
    const before = this.written.length
    this.write(...all)
    await until(() => this.written.length >= before + count)
    return this.written.slice(before)
  }
}

/** So many times longer than usual all takes: on a processor that is worked out in software. */
const TIMES_SLOWER = Number(process.env.TIMES_SLOWER ?? 1)
/** How many milliseconds something may take before it counts as wrong, of those that it may on the machine itself. */
const patience = usual => usual * TIMES_SLOWER

async function until(isReached, milliseconds = patience(60_000)) {
  const end = Date.now() + milliseconds
  while (!isReached()) {
    assert.ok(Date.now() < end, `it isn't reached in time: ${isReached}`)
    await sleep(1)
  }
}

/** Waits for so many turns of the loop that all has happened that needs no time. */
async function turns() {
  for (let i = 0; i < 50; i++) await turn()
}

/** Runs something with a server and a client that are joined in memory. */
async function withBoth(register, act, options = {}) {
  const log = new Log()
  const both = joined({ logger: log, ...options })
  register(both.server, both.client)
  both.server.listen()
  both.client.listen()
  try {
    return await act(both.client, both.server, log, both)
  } finally {
    both.dispose()
  }
}

const rejectsWith = (promise, code, message) => assert.rejects(promise, error => {
  assert.ok(error instanceof bullmyrtle.ResponseError, `${error}`)
  assert.equal(error.code, code, error.message)
  if (message instanceof RegExp) assert.match(error.message, message)
  else if (message !== undefined) assert.equal(error.message, message)
  return true
})

module.exports = { bullmyrtle, frame, messages, request, notice, Log, Raw, until, patience, sleep, turns, withBoth, rejectsWith, joined }
