'use strict'
// A client's way to a tool server over HTTP: each message is a POST by fetch, and streams that break are taken up again.

const { setTimeout: sleep } = require('node:timers/promises')
const { Emitter } = require('../../events')
const { messageOf } = require('../../thrown')
const { cut } = require('../shown')
const { idKey } = require('./posts')

/**
 * After how many milliseconds a stream is asked for again if the server says nothing of that, how many more each time
 * that it isn't there, and how often in vain.
 */
const RETRY = 1_000
const MORE = 2_000
const TRIES = 6
/** How long the next message waits for a request to be on its way. */
const SENT = 10
const MOST = 1 << 24
const EVENTS = 'text/event-stream'
const READS = `application/json, ${EVENTS}`
const FAILED = -32000

/** A response that isn't one of success. */
class Status extends Error {
  constructor(status, message, code) {
    super(message)
    this.status = status
    this.code = code
  }

  static async of(response) {
    let error = {}
    try {
      error = Object(JSON.parse(await wholeOf(response, 1 << 16)).error)
    } catch {} // (it has no body that says more)
    const words = typeof error.message === 'string' ? cut(error.message, 500) : undefined
    const parts = [`status ${response.status}`, words, response.headers.get('www-authenticate')]
    const code = Number.isInteger(error.code) ? error.code : FAILED
    return new Status(response.status, parts.filter(Boolean).join(': '), code)
  }
}

async function * textsOf(response) {
  const decoder = new TextDecoder('utf-8', { ignoreBOM: true })
  for await (const piece of response.body ?? []) yield decoder.decode(piece, { stream: true })
}

async function wholeOf(response, most = MOST) {
  let text = ''
  for await (const piece of textsOf(response)) {
    text += piece
    if (text.length > most) throw new RangeError(`a response has more than ${most} bytes`)
  }
  return text
}

/** The events of a stream, over all of its connections. */
class Events {
  last = ''
  retry = RETRY

  /** The messages of a response. What is cut off in the middle isn't one. */
  async * of(response) {
    let rest = ''
    let data = []
    let id = this.last
    for await (const piece of textsOf(response)) {
      const lines = (rest + piece).split('\n')
      rest = lines.pop()
      if (rest.length > MOST) throw new RangeError(`a line of a response has more than ${MOST} bytes`)
      for (const whole of lines) {
        const line = whole.replace(/\r$/, '')
        const [, name, value] = /^([^:]*):? ?(.*)$/s.exec(line)
        if (name === 'data') data.push(value)
        else if (name === 'id') id = value
        else if (name === 'retry' && /^\d{1,9}$/.test(value)) this.retry = Number(value)
        else if (line === '') {
          this.last = id
          const message = data.join('\n')
          data = []
          if (message) yield message
        }
      }
    }
  }
}

const isStream = response => (response.headers.get('content-type') ?? '').split(';')[0].trim().toLowerCase() === EVENTS

/** What is sent, as far as it is one message. */
function messageIn(text) {
  const found = JSON.parse(text)
  return Array.isArray(found) ? {} : found
}

const isId = it => typeof it === 'string' || typeof it === 'number'

/** A tool server at a URL, by MCP's Streamable HTTP. */
class StreamableHTTPClientTransport {
  #url
  #headers
  /** @type {any} */
  #fetch
  #sent = Promise.resolve() // what is sent before
  #asked = new Map() // what isn't answered, with what tells that it is
  #over = new AbortController()
  #version = ''
  #closed = new Emitter()
  #errors = new Emitter()
  #feed
  sessionId = ''
  input
  output

  /** @param {string | URL} url @param {import('../../../types/mcp').HttpClientOptions} options */
  constructor(url, { headers = {}, fetch: by = fetch } = {}) {
    this.#url = new URL(String(url))
    if (!/^https?:$/.test(this.#url.protocol)) throw new TypeError(`a server's URL begins with http:// or https://: ${url}`)
    this.#headers = headers
    this.#fetch = by
    const events = { onError: this.#errors.event, dispose() {} }
    const listenBytes = feed => {
      this.#feed = feed
      return { dispose: () => { this.#feed = undefined } }
    }
    this.input = { ...events, listen() {}, listenBytes, onClose: this.#closed.event }
    this.output = { ...events, write() {}, writeText: it => this.#send(it), onClose: () => ({ dispose() {} }), end() {} }
  }

  /** Ends the session at the server, once all that was said is sent, and lets go of everything. */
  async close() {
    await this.#sent
    if (this.sessionId && !this.#over.signal.aborted) {
      await this.#opened('DELETE').then(it => it.body?.cancel(), () => {}) // (a server may know of no such end)
    }
    this.#over.abort()
  }

  get #isOver() { return this.#over.signal.aborted }

  #report(error) {
    if (!this.#isOver) this.#errors.fire(error instanceof Error ? error : new Error(String(error)))
  }

  /** Sends a message behind those before. The answer of a request isn't waited for. */
  #send(text) {
    this.#sent = this.#sent.then(() => this.#sendNow(text, messageIn(text))).catch(error => this.#report(error))
  }

  #sendNow(text, message) {
    return message.method !== undefined && isId(message.id) ? this.#ask(text, message) : this.#tell(text, message)
  }

  async #ask(text, message) {
    const answered = new Promise(resolve => this.#asked.set(idKey(message.id), resolve))
    const sent = this.#exchange(text, message, answered)
    // (a cancel, for one, is to come behind its request; and all else behind the session's id)
    await (message.method === 'initialize' ? sent : Promise.race([sent, sleep(SENT)]))
  }

  #answered(id) {
    this.#asked.get(idKey(id))?.()
    this.#asked.delete(idKey(id))
  }

  #isAsked(id) {
    return this.#asked.has(idKey(id))
  }

  async #opened(method, body, last = '') {
    const given = typeof this.#headers === 'function' ? await this.#headers() : this.#headers
    const own = {
      'Accept': method === 'DELETE' ? undefined : body === undefined ? EVENTS : READS,
      'Content-Type': body === undefined ? undefined : 'application/json',
      'Mcp-Session-Id': this.sessionId, 'MCP-Protocol-Version': this.#version, 'Last-Event-ID': last
    }
    const headers = new Headers(given)
    for (const [name, it] of Object.entries(own)) if (it) headers.set(name, it)
    // (no token goes elsewhere by a redirect)
    return this.#fetch(this.#url, { method, headers, body, redirect: 'manual', signal: this.#over.signal })
  }

  async #check(response) {
    if (response.ok) return response
    if (response.status === 404 && this.sessionId) this.#closed.fire(undefined)
    throw await Status.of(response)
  }

  /** Sends what has no answer. */
  async #tell(text, { method, params }) {
    if (method === 'notifications/cancelled' && isId(params?.requestId)) this.#answered(params.requestId)
    const response = await this.#check(await this.#opened('POST', text))
    await response.body?.cancel()
    if (method === 'notifications/initialized') this.#listen()
  }

  /** Sends a request, and reads until it is answered. A request that can't be is answered with an error. */
  async #exchange(text, message, answered) {
    const { id } = message
    let [why, code] = ['the server has ended its response without an answer', FAILED]
    try {
      await this.#request(text, message, answered)
    } catch (error) {
      why = messageOf(error?.cause ?? error) ?? 'the server is not there'
      if (error instanceof Status) code = error.code
    }
    if (!this.#isAsked(id) || this.#isOver) return
    this.#answered(id)
    this.#feed?.(Buffer.from(JSON.stringify({ jsonrpc: '2.0', id, error: { code, message: `HTTP: ${why}` } })))
  }

  async #request(text, message, answered) {
    const response = await this.#check(await this.#opened('POST', text))
    if (message.method === 'initialize') this.sessionId = response.headers.get('mcp-session-id') ?? ''
    if (!isStream(response)) return this.#came(await wholeOf(response))
    const events = new Events()
    if (!(await this.#read(response, events, message.id, answered))) await this.#takeUp(events, message.id, answered)
  }

  /** Reads a stream until a request is answered, and gives whether it is; or until the connection ends. */
  async #read(response, events, id, answered) {
    const reading = (async () => {
      for await (const it of events.of(response)) {
        this.#came(it)
        if (id !== undefined && !this.#isAsked(id)) return true
      }
      return false
    })().catch(error => {
      if (error instanceof RangeError) throw error
      return false // (it broke)
    })
    if (answered === undefined) return reading
    return Promise.race([reading, answered.then(() => true)])
  }

  /** Asks for the rest of a stream, until a request is answered. */
  async #takeUp(events, id, answered) {
    for (let tries = 0; events.last && tries < TRIES && !this.#isOver;) {
      await sleep(events.retry + tries * MORE, undefined, { signal: this.#over.signal })
      if (id !== undefined && !this.#isAsked(id)) return
      let response
      try {
        response = await this.#opened('GET', undefined, events.last)
      } catch {
        tries++
        continue
      }
      if (await this.#read(await this.#check(response), events, id, answered)) return
      tries = 0 // (one that is there and says nothing is asked for again, as in polling)
    }
  }

  /** Reads what belongs to no request of ours, if the server has a stream for that. */
  async #listen() {
    const events = new Events()
    try {
      while (!this.#isOver) {
        await this.#read(await this.#check(await this.#opened('GET')), events, undefined, undefined)
        if (events.last) return await this.#takeUp(events, undefined, undefined)
        await sleep(events.retry, undefined, { signal: this.#over.signal })
      }
    } catch (error) {
      if (error?.status !== 405) this.#report(error)
    }
  }

  /** A message came. */
  #came(text) {
    if (text === '') return
    const found = JSON.parse(text)
    for (const it of [found].flat()) {
      const version = it?.result?.protocolVersion
      if (!this.#version && typeof version === 'string') this.#version = version
    }
    this.#feed?.(Buffer.from(text))
    for (const it of [found].flat()) if (isId(it?.id) && it.method === undefined) this.#answered(it.id)
  }
}

module.exports = { StreamableHTTPClientTransport }
