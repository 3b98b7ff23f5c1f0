'use strict'
// A client of a server behind node:http that says each request itself, and cuts connections if a test wants that.

const http = require('node:http')
const { until } = require('./helping')

const POST = { 'content-type': 'application/json', accept: 'application/json, text/event-stream' }
const GET = { accept: 'text/event-stream' }
const VERSION = '2025-11-25'

/** One request and its response, as far as it has come. */
class Answer {
  status
  headers = {}
  data = ''
  isOver = false

  constructor(url, { method, headers, body, ends = true, reads = true }) {
    this.whole = new Promise(resolve => {
      const done = () => {
        this.isOver = true
        resolve(this)
      }
      const request = this.request = http.request(url, { method, headers, agent: false }, response => {
        this.status = response.statusCode
        this.headers = response.headers
        if (!reads) response.pause()
        else response.setEncoding('utf8').on('data', it => { this.data += it })
        response.on('end', done).on('error', done).on('close', done)
      })
      request.on('error', done)
      if (body !== undefined) request.write(body)
      if (ends) request.end()
    })
  }

  cut() {
    this.request.destroy()
  }

  until(isReached) {
    return until(() => isReached(this))
  }

  /** The answer: by JSON, or by the last event where it was late, as it may be on a busy machine. */
  get json() { return this.isStream ? this.messages.at(-1) : JSON.parse(this.data) }
  get isStream() { return this.headers['content-type'] === 'text/event-stream' }

  /** The id and the data of each event; comments and an end that is cut off are left out. */
  get events() {
    const blocks = this.data.split('\n\n').slice(0, -1).map(block => (
      Object.fromEntries(block.split('\n').filter(it => !it.startsWith(':')).map(it => it.split(/: (.*)/s)))
    ))
    return blocks.filter(it => 'data' in it).map(it => [it.id, it.data])
  }

  /** What came, by JSON or by events. */
  get messages() {
    if (this.isStream) return this.events.filter(it => it[1]).map(it => JSON.parse(it[1]))
    return this.data ? [JSON.parse(this.data)] : []
  }
}

/** A client of a server at a URL. */
class Web {
  session
  version = VERSION
  #last = 0

  constructor(url, headers = {}) {
    this.url = url
    this.headers = headers
  }

  ask(method, { headers = {}, body = undefined, path = undefined, ...more } = {}) {
    const session = this.session === undefined ? {} : { 'mcp-session-id': this.session }
    const version = this.version === undefined ? {} : { 'mcp-protocol-version': this.version }
    const all = { ...session, ...version, ...this.headers, ...headers }
    for (const name of Object.keys(all)) if (all[name] === undefined) delete all[name]
    const text = body === undefined || typeof body === 'string' || Buffer.isBuffer(body) ? body : JSON.stringify(body)
    if (text !== undefined && !('content-length' in all) && more.ends !== false) all['content-length'] = Buffer.byteLength(text)
    return new Answer(path === undefined ? this.url : new URL(path, this.url), { method, headers: all, body: text, ...more })
  }

  post(body, { headers = {}, ...more } = {}) {
    return this.ask('POST', { body, headers: { ...POST, ...headers }, ...more })
  }

  get(last, more = {}) {
    return this.ask('GET', { headers: { ...GET, ...(last && { 'last-event-id': last }) }, ...more })
  }

  message(method, params) {
    return { jsonrpc: '2.0', id: ++this.#last, method, params }
  }

  get last() { return this.#last }

  send(method, params, more) {
    return this.post(this.message(method, params), more)
  }

  call(name, args = {}, meta, more) {
    return this.send('tools/call', { name, arguments: args, ...(meta && { _meta: meta }) }, more)
  }

  /** Sends a notification, and gives the status. */
  async tell(method, params) {
    return (await this.post({ jsonrpc: '2.0', method, params }).whole).status
  }

  /** Begins a session, and gives what the server says. */
  async begin(version = VERSION, capabilities = {}) {
    this.session = this.version = undefined
    const about = { protocolVersion: version, capabilities, clientInfo: { name: 't', version: '1' } }
    const answer = await this.send('initialize', about).whole
    this.session = answer.headers['mcp-session-id']
    const { result } = answer.json
    this.version = result.protocolVersion
    await this.tell('notifications/initialized')
    return result
  }
}

/** Serves a handler on a port of this machine. */
async function served(handler, act) {
  const server = http.createServer(handler)
  await new Promise(resolve => server.listen(0, '127.0.0.1', () => resolve(undefined)))
  try {
    return await act(`http://127.0.0.1:${/** @type {any} */ (server.address()).port}/mcp`)
  } finally {
    server.closeAllConnections()
    server.close()
  }
}

module.exports = { POST, Web, served }
