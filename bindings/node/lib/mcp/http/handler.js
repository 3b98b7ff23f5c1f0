'use strict'
// A tool server behind node:http: MCP's Streamable HTTP. What is called with (request, response) is made here.

const { randomBytes } = require('node:crypto')
const { isDeepStrictEqual } = require('node:util')
const { WELL_KNOWN } = require('./bearer')
const { EVENTS, Head, JSON_TYPE, Refusal, faultText } = require('./head')
const { Posts, idKey, isResult } = require('./posts')

/** How long a POST's answer may take, in milliseconds, until a stream is made for it. */
const PATIENCE = 50
/** What a session's first message may have, since it is kept. */
const MOST_OF_INITIALIZE = 1 << 16
/** The version of a client that says none, the one version with batches, and the first one whose clients ask again. */
const SAYS_NONE = '2025-03-26'
const WITH_BATCHES = '2025-03-26'
const POLLS = '2025-11-25'
/** (A proxy that waits for the whole of a stream would hold up every event.) */
const STREAMED = { 'Content-Type': EVENTS, 'Cache-Control': 'no-cache, no-transform', 'X-Accel-Buffering': 'no' }
const PARSE_ERROR = -32700
const INTERNAL_ERROR = -32603

/** The client has left. */
class Left extends Error {}

/** What a body that can't be read is answered. */
class Fault extends Refusal {
  #text

  constructor(text) {
    super(400, '')
    this.#text = text
  }

  get body() { return this.#text }
}

/** What a body says of itself. */
class Said {
  constructor(value) {
    this.isBatch = Array.isArray(value)
    const entries = (this.isBatch ? value : [value]).filter(it => typeof it === 'object' && it !== null)
    this.methods = entries.map(it => it.method).filter(it => typeof it === 'string')
    /** Of its requests. */
    this.ids = entries.filter(it => 'method' in it && 'id' in it).map(it => it.id)
    this.isInitialize = !this.isBatch && this.methods[0] === 'initialize' && this.ids.length === 1
  }
}

/** One request over HTTP. */
class Call {
  #request
  #response
  user
  left

  constructor(request, response) {
    this.#request = request
    this.#response = response
    /** Settled when the client has left. */
    this.left = new Promise(resolve => response.once('close', resolve))
    response.on('error', () => {}) // (it is closed then)
    request.on('error', () => {})
    this.head = new Head(request)
  }

  get hasLeft() { return this.#response.destroyed }

  /** The body. Rejects with a Refusal, or with Left. */
  async body(most, milliseconds) {
    const { body } = this.#request // (which a framework has read)
    if (body !== undefined && this.#request.readableEnded) return Buffer.isBuffer(body) ? body : Buffer.from(JSON.stringify(body))
    const tooLarge = () => new Refusal(413, `Payload Too Large: a body may have ${most} bytes`, { Connection: 'close' })
    if (Number(this.head.get('content-length')) > most) throw tooLarge()
    return new Promise((resolve, reject) => {
      const parts = []
      let size = 0
      const late = () => reject(new Refusal(408, "Request Timeout: the body didn't come in time", { Connection: 'close' }))
      const timer = setTimeout(late, milliseconds)
      const settled = act => it => {
        clearTimeout(timer)
        act(it)
      }
      this.#request.on('data', piece => {
        size += piece.length
        if (size > most) settled(reject)(tooLarge())
        else parts.push(piece)
      })
      this.#request.once('end', settled(() => resolve(Buffer.concat(parts))))
      this.#request.once('close', settled(() => reject(new Left('the client has left'))))
    })
  }

  whole(status, text = '', headers = {}) {
    if (this.hasLeft || this.#response.headersSent) return
    const own = text === '' ? {} : { 'Content-Type': JSON_TYPE }
    this.#response.writeHead(status, { ...headers, ...own, 'Content-Length': Buffer.byteLength(text) }).end(text)
  }

  begin() {
    this.#response.writeHead(200, STREAMED)
    this.#response.flushHeaders()
  }

  /** Says a part of a stream. Rejects with Left if the client reads nothing for so long. */
  async say(text, milliseconds) {
    if (this.hasLeft) throw new Left('the client has left')
    if (this.#response.write(text)) return
    let timer
    const late = new Promise(resolve => { timer = setTimeout(resolve, milliseconds, true) })
    const drained = new Promise(resolve => this.#response.once('drain', resolve))
    const isLate = await Promise.race([drained, this.left, late]).finally(() => clearTimeout(timer))
    if (isLate !== true) return
    this.#response.destroy()
    throw new Left('the client reads nothing')
  }

  end() {
    this.#response.end()
  }
}

/** One session. */
class Visit {
  id = randomBytes(24).toString('base64url')
  isKept = false
  /** Over HTTP, that last. */
  requests = 0
  used = Date.now()
  timer

  constructor(session, posts, user) {
    this.session = session
    this.posts = posts
    this.user = user
  }

  /** Ends it: what still runs has its grace. */
  end() {
    clearTimeout(this.timer)
    this.posts.end()
    this.session.stop()
  }
}

class Http {
  #settings
  #begun
  #versions
  #logger
  #body
  #visits = new Map() // those that requests find, by their ids
  #all = new Set()
  #requests = 0

  /** `begun(posts, about)` begins a session over posts, and gives it. */
  constructor(settings, { begun, versions, logger, content = 1 << 24 }) {
    this.#settings = settings
    this.#begun = begun
    this.#versions = versions
    this.#logger = logger
    // (a message that is too large for the connection would end the session)
    this.#body = Math.min(settings.body, content)
  }

  /** How many sessions there are, with those that are ending. */
  get sessions() { return this.#all.size }

  /** Ends all sessions, and waits for what they still do, for as long as their grace is. */
  async close() {
    const all = [...this.#all]
    for (const it of all) it.end()
    await Promise.all(all.map(it => it.session.ended))
  }

  async handle(request, response) {
    let call
    this.#requests++
    try {
      call = new Call(request, response)
      await this.#answer(call)
    } catch (error) {
      this.#failed(call, response, error)
    } finally {
      this.#requests--
    }
  }

  #failed(call, response, error) {
    if (error instanceof Left) return
    const refusal = error instanceof Refusal
    if (!refusal) this.#logger.error(`a request over HTTP failed: ${error?.stack ?? error}`)
    const [status, text] = refusal ? [error.status, error.body] : [500, faultText(INTERNAL_ERROR, 'Internal error')]
    if (call !== undefined) return call.whole(status, text, refusal ? error.headers : {})
    response.writeHead(status, { 'Content-Type': JSON_TYPE }).end(text)
  }

  async #answer(call) {
    const { head } = call
    const { bearer, origins, hosts, path, stateless, streams } = this.#settings
    if (bearer !== undefined && head.path.includes(WELL_KNOWN)) {
      if (head.method !== 'GET') throw new Refusal(405, 'Method Not Allowed', { Allow: 'GET' })
      return call.whole(200, bearer.metadata, { 'Access-Control-Allow-Origin': '*' })
    }
    head.checkOrigin(origins, hosts)
    if (path !== undefined && head.path.replace(/\/+$/, '') !== path.replace(/\/+$/, '')) {
      throw new Refusal(404, 'Not Found: there is no such path')
    }
    const methods = stateless ? ['POST'] : ['GET', 'POST', 'DELETE']
    if (!methods.includes(head.method)) {
      throw new Refusal(405, `Method Not Allowed: ${head.method}`, { Allow: methods.join(', ') })
    }
    if (this.#requests > streams) {
      throw new Refusal(503, 'Service Unavailable: too many requests', { 'Retry-After': '5' })
    }
    if (bearer !== undefined) call.user = await bearer.user(head)
    if (head.method === 'POST') return this.#post(call)
    if (head.method === 'GET') return this.#get(call)
    this.#forget(this.#visit(call))
    return call.whole(204)
  }

  // Sessions

  /** The session of a request. */
  #visit(call) {
    const id = call.head.get('mcp-session-id')
    if (id === undefined) throw new Refusal(400, 'Bad Request: the header Mcp-Session-Id is missing')
    const visit = this.#visits.get(id)
    // (what another user's token asks for isn't told from what isn't there)
    if (visit === undefined || !isDeepStrictEqual(visit.user, call.user)) {
      throw new Refusal(404, 'Not Found: there is no such session, or no more')
    }
    this.#version(call.head)
    visit.used = Date.now()
    return visit
  }

  #version(head) {
    const version = head.get('mcp-protocol-version')
    if (version === undefined || this.#versions.includes(version)) return version ?? SAYS_NONE
    throw new Refusal(400, `Bad Request: MCP-Protocol-Version has to be one of ${this.#versions.join(', ')}`)
  }

  /** A new session; one without state has a version, unless it is for `initialize`. */
  #begin(call, version) {
    const { sessions, stateless, events, unread, sessionStreams } = this.#settings
    if (this.#all.size >= sessions) {
      throw new Refusal(503, 'Service Unavailable: too many sessions', { 'Retry-After': '30' })
    }
    const posts = new Posts(events(), unread, sessionStreams)
    const session = this.#begun(posts, { user: call.user, isStateless: stateless, version })
    const visit = new Visit(session, posts, call.user)
    session.sessionId = stateless ? undefined : visit.id
    this.#all.add(visit)
    session.ended.then(() => {
      this.#all.delete(visit)
      this.#visits.delete(visit.id)
    })
    return visit
  }

  /** A session has begun: requests find it until it is unused for long. */
  #keep(visit) {
    visit.isKept = true
    this.#visits.set(visit.id, visit)
    this.#watch(visit)
  }

  #watch(visit) {
    const { sessionTimeout } = this.#settings
    const left = visit.requests ? sessionTimeout : visit.used + sessionTimeout - Date.now()
    if (left <= 0) return this.#forget(visit)
    visit.timer = setTimeout(() => this.#watch(visit), left).unref()
  }

  #forget(visit) {
    this.#visits.delete(visit.id)
    visit.end()
  }

  // POST

  async #post(call) {
    const { head } = call
    const { answers, stateless, bodyTimeout } = this.#settings
    head.checkContent()
    head.checkAccept(...(answers === 'json' ? [JSON_TYPE] : [JSON_TYPE, EVENTS]))
    const isNew = stateless || head.get('mcp-session-id') === undefined
    let visit = isNew ? undefined : this.#visit(call)
    const body = await call.body(this.#body, bodyTimeout)
    const said = saidIn(body)
    if (visit === undefined) {
      const version = this.#versionOf(call, said)
      if (version === undefined && body.length > MOST_OF_INITIALIZE) {
        throw new Refusal(413, `Payload Too Large: initialize may have ${MOST_OF_INITIALIZE} bytes`)
      }
      visit = this.#begin(call, version)
    }
    visit.requests++
    try {
      const exchange = this.#feed(visit, said, body)
      await this.#reply(call, visit, exchange)
    } finally {
      visit.requests--
      visit.used = Date.now()
      if (!visit.isKept) visit.end()
    }
  }

  /** The version of a session that begins; undefined if `initialize` says it. */
  #versionOf(call, said) {
    if (said.isInitialize) return undefined
    if (!this.#settings.stateless) throw new Refusal(400, 'Bad Request: the header Mcp-Session-Id is missing')
    return this.#version(call.head)
  }

  #feed({ posts, session }, said, body) {
    const { sessionStreams, answers } = this.#settings
    if (said.isBatch && session.version !== WITH_BATCHES) {
      throw new Refusal(400, `Bad Request: version ${session.version} has no batches`)
    }
    if (said.isBatch && said.methods.includes('initialize')) {
      throw new Refusal(400, "Bad Request: initialize can't be in a batch")
    }
    const ids = said.ids.filter(it => typeof it === 'string' || typeof it === 'number').map(idKey)
    if (posts.open >= sessionStreams && ids.length) {
      throw new Refusal(429, "Too Many Requests: the session has too many that aren't answered")
    }
    if (said.ids.includes(null) || !posts.areFree(ids)) {
      throw new Refusal(400, "Bad Request: a request's id is null, or that of one which isn't answered yet")
    }
    if (posts.isOver) throw new Refusal(404, 'Not Found: the session is over')
    return posts.feed(body, ids, answers !== 'json')
  }

  async #reply(call, visit, exchange) {
    const { answers, stateless } = this.#settings
    if (answers === 'stream' && exchange.hasRequests && (visit.isKept || stateless)) visit.posts.streamOf(exchange)
    await this.#wait(call, visit, exchange)
    if (exchange.fault !== undefined) throw new Fault(exchange.fault)
    if (exchange.stream !== undefined) return this.#stream(call, visit, exchange.stream, exchange.reader)
    if (exchange.isLost) throw new Refusal(404, 'Not Found: the session is over')
    if (exchange.answer === undefined) return call.whole(202) // (nothing was asked, or it was cancelled)
    const isFirst = !visit.isKept && !stateless && isResult(exchange.answer)
    if (isFirst) this.#keep(visit)
    return call.whole(200, exchange.answer, isFirst ? { 'Mcp-Session-Id': visit.id } : {})
  }

  /** Waits for an answer, for a while. Rejects with Left if the client has left before. */
  async #wait(call, visit, exchange) {
    const { answers, stateless } = this.#settings
    const isPatient = !exchange.mayStream || answers === 'json' || !(visit.isKept || stateless)
    let timer
    const late = new Promise(resolve => { timer = isPatient ? undefined : setTimeout(resolve, PATIENCE, 'late') })
    const left = call.left.then(() => 'left')
    const how = await Promise.race([exchange.ready, left, late]).finally(() => clearTimeout(timer))
    if (how === 'late') visit.posts.streamOf(exchange)
    if (how !== 'left') return
    visit.posts.leave(exchange)
    throw new Left('the client has left')
  }

  // Streams

  async #get(call) {
    call.head.checkAccept(EVENTS)
    const visit = this.#visit(call)
    const last = call.head.event
    const found = last === undefined ? visit.posts.ownStream() : visit.posts.takeUp(...last)
    if (found === undefined && last === undefined) {
      throw new Refusal(429, 'Too Many Requests: the session has too many streams')
    }
    if (found === undefined) throw new Refusal(400, "Bad Request: Last-Event-ID isn't kept, or isn't one of this session's")
    visit.requests++
    try {
      await this.#stream(call, visit, ...found)
    } finally {
      visit.requests--
      visit.used = Date.now()
    }
  }

  /** Sends events until there are no more, the client leaves, or it is to ask again. */
  async #stream(call, visit, stream, reader) {
    call.left.then(() => reader.end())
    try {
      call.begin()
      await this.#sendEvents(call, visit, stream, reader)
      call.end()
    } finally {
      reader.end()
      stream.leave(reader)
    }
  }

  async #sendEvents(call, { session }, stream, reader) {
    const { poll, retry, ping, stateless, unreadTimeout } = this.#settings
    const asksAgain = session.version >= POLLS && !stateless
    const end = poll !== undefined && asksAgain ? Date.now() + poll : Infinity
    const say = text => call.say(text, unreadTimeout)
    const again = `retry: ${Math.round(retry)}\n`
    // (so that the client can ask for the rest, even if nothing has come yet)
    if (asksAgain && call.head.method === 'POST') await say(`${again}id: ${stream.name}-0\ndata: \n\n`)
    for (;;) {
      const event = await reader.next(Math.min(ping, Math.max(0, end - Date.now())))
      if (event !== undefined) {
        // (without state a client can't ask for what follows)
        await say(`${stateless ? '' : `id: ${stream.name}-${event[0]}\n`}event: message\ndata: ${event[1]}\n\n`)
      } else if (reader.isOver) {
        return reader.why ? say(`: ${reader.why}\n\n`) : undefined
      } else if (Date.now() >= end) {
        return say(`${again}\n`)
      } else await say(':\n\n')
    }
  }
}

/** What a body says of itself. Throws a Refusal if it isn't JSON. */
function saidIn(body) {
  try {
    return new Said(JSON.parse(new TextDecoder('utf-8', { fatal: true, ignoreBOM: true }).decode(body)))
  } catch {
    throw new Fault(faultText(PARSE_ERROR, 'Parse error'))
  }
}

module.exports = { Http }
