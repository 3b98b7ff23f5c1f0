'use strict'
// The tables of checks/tool_rows, and sessions with a tool server, by the messages as they are on the wire.

const fs = require('node:fs')
const path = require('node:path')
const { PassThrough } = require('node:stream')
const { setImmediate: turn } = require('node:timers/promises')
const { Log, until } = require('./helping')

const TEXTS = { type: 'object', properties: { text: { type: 'string' } }, required: ['text'], additionalProperties: false }

const rows = name => (
  JSON.parse(fs.readFileSync(path.join(__dirname, '..', '..', '..', 'checks', 'tool_rows', `${name}.json`), 'utf8'))
)

/** A session with a server, by the messages as they are on the wire. */
class Talk {
  log = new Log()
  input = new PassThrough()
  output = new PassThrough()
  #bytes = []
  #last = 0

  constructor() {
    this.output.on('data', it => this.#bytes.push(it))
  }

  get written() {
    return Buffer.concat(this.#bytes).toString().split('\n').slice(0, -1).map(it => JSON.parse(it))
  }

  /** Sends messages, or texts that are none, and gives what came once these are so many. */
  async say(sent, count) {
    const before = this.written.length
    this.input.write(sent.map(it => `${typeof it === 'string' ? it : JSON.stringify(whole(it))}\n`).join(''))
    await until(() => this.written.length >= before + count)
    await turn()
    return this.written.slice(before)
  }

  /** A request's answer. */
  async ask(method, params) {
    const id = ++this.#last
    const found = await this.say([{ id, method, params }], 1)
    return found.find(it => it.id === id && !('method' in it)) ?? found
  }

  async begin(version, capabilities = {}) {
    const params = { protocolVersion: version, capabilities, clientInfo: { name: 'h', version: '1' } }
    const [answer] = await this.say(
      [{ id: 'begin', method: 'initialize', params }, { method: 'notifications/initialized' }], 1
    )
    return answer
  }
}

const whole = it => (Array.isArray(it) ? it.map(whole) : { jsonrpc: '2.0', ...it })

/** Does something with a session that has begun, if a version is given. */
async function talking(server, act, { version, capabilities } = {}) {
  const talk = new Talk()
  await server.connect(talk)
  if (version !== undefined) talk.begun = await talk.begin(version, capabilities)
  try {
    return await act(talk)
  } finally {
    talk.input.end()
    talk.output.resume()
  }
}

module.exports = { TEXTS, Talk, rows, talking }
