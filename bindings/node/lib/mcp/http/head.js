'use strict'
// The head of a request over HTTP, and what of it is refused.

const INVALID_REQUEST = -32600
const TOO_MANY = -32000

const JSON_TYPE = 'application/json'
const EVENTS = 'text/event-stream'
/** (One that stands twice could mean one thing to a proxy and another one here.) */
const ONCE = new Set([
  'authorization', 'content-encoding', 'content-length', 'content-type', 'host', 'last-event-id', 'mcp-protocol-version',
  'mcp-session-id', 'origin'
])
const LOCAL = ['localhost', '127.0.0.1', '[::1]']
const LOCAL_ORIGIN = /^https?:\/\/(localhost|127\.0\.0\.1|\[::1\])(:\d{1,5})?$/i

/** An error's text, of JSON-RPC. */
const faultText = (code, message) => JSON.stringify({ jsonrpc: '2.0', error: { code, message }, id: null })

/** What a request is answered without its session: an error of JSON-RPC, with the id null. */
class Refusal extends Error {
  constructor(status, words, headers = {}) {
    super(words)
    this.status = status
    this.headers = headers
  }

  get body() {
    return faultText(this.status === 429 || this.status === 503 ? TOO_MANY : INVALID_REQUEST, this.message)
  }
}

/** One range of an Accept, with its quality. */
function rangeOf(text) {
  const [kind, ...parameters] = text.split(';').map(it => it.trim())
  const quality = parameters.map(it => /^q\s*=\s*(.*)$/i.exec(it)?.[1]).find(it => it !== undefined)
  return [kind.toLowerCase(), quality === undefined ? 1 : Number(quality) || 0]
}

class Head {
  method
  path
  #values = new Map()

  /** Of a request of node:http. Throws a Refusal if a header stands twice that may not. */
  constructor(request) {
    this.method = request.method
    this.path = request.url.replace(/[?#].*/s, '')
    for (let at = 0; at < request.rawHeaders.length; at += 2) {
      const name = request.rawHeaders[at].toLowerCase()
      const found = this.#values.get(name)
      if (found === undefined) this.#values.set(name, [request.rawHeaders[at + 1]])
      else if (ONCE.has(name)) throw new Refusal(400, `Bad Request: the header ${name} stands twice`)
      else found.push(request.rawHeaders[at + 1])
    }
  }

  get(name) {
    return this.#values.get(name)?.[0].trim()
  }

  /** Refuses a page of another site, and a name by which the server isn't known. */
  checkOrigin(origins, hosts) {
    const origin = this.get('origin')
    const isKnown = origin === undefined || (origins === undefined ? LOCAL_ORIGIN.test(origin) : origins.includes(origin))
    if (!isKnown) throw new Refusal(403, 'Forbidden: this Origin may not call the server')
    const host = (this.get('host') ?? '').replace(/:\d*$/, '').toLowerCase()
    if (hosts !== undefined && !hosts.includes(host)) {
      throw new Refusal(403, "Forbidden: the server isn't known by this Host")
    }
  }

  /** Refuses a client that can't read one of these kinds. */
  checkAccept(...kinds) {
    const found = this.#values.get('accept')
    if (found === undefined) return
    const ranges = found.join(',').split(',').map(rangeOf)
    for (const kind of kinds) {
      const wanted = [kind, `${kind.split('/')[0]}/*`, '*/*']
      const quality = Math.max(0, ...ranges.filter(it => wanted.includes(it[0])).map(it => it[1]))
      if (quality <= 0) throw new Refusal(406, `Not Acceptable: the client has to accept ${kinds.join(' and ')}`)
    }
  }

  /** Refuses a body that isn't JSON in UTF-8. */
  checkContent() {
    const [kind, ...more] = (this.get('content-type') ?? '').split(';')
    const charset = /charset\s*=\s*"?([^\s";]+)/i.exec(more.join(';'))?.[1].toLowerCase() ?? 'utf-8'
    if (kind.trim().toLowerCase() !== JSON_TYPE || !['utf-8', 'utf8'].includes(charset)) {
      throw new Refusal(415, `Unsupported Media Type: the body has to be ${JSON_TYPE}, in UTF-8`)
    }
    if ((this.get('content-encoding') ?? 'identity').toLowerCase() !== 'identity') {
      throw new Refusal(415, 'Unsupported Media Type: the body has to be without a Content-Encoding')
    }
  }

  /** The stream and the number of the last event that the client has. */
  get event() {
    const given = this.get('last-event-id')
    if (given === undefined) return undefined
    const [, name, number] = /^(.*)-(\d{1,15})$/.exec(given) ?? []
    if (name === undefined) throw new Refusal(400, "Bad Request: Last-Event-ID isn't one of this session's")
    return [name, Number(number)]
  }
}

module.exports = { EVENTS, Head, JSON_TYPE, LOCAL, Refusal, faultText }
