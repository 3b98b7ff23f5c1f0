'use strict'
// One session over HTTP: what POSTs bring goes to its connection, and what that says to the streams where it belongs.

const { randomBytes } = require('node:crypto')
const { Stream } = require('./streams')

const CANCELLED = 'notifications/cancelled'
/** The result of a request, and the id that it is of. (Large ones needn't be read whole.) */
const RESULT = /^\{"id":("(?:[^"\\]|\\.)*"|-?\d+),"jsonrpc":"2\.0","result":/
/** So many messages wait that no stream is there for. */
const HELD = 100

const idKey = id => `${typeof id} ${id}`
const isResult = text => RESULT.test(text)
const none = () => ({ dispose() {} })

/** One POST: the requests that it brought, and what they are answered. */
class Exchange {
  /** The keys of the requests that aren't answered. */
  open
  /** The answer, if it isn't on a stream; of what can't be read, the fault. */
  answer
  fault
  stream
  reader
  isOver = false
  /** Whether the session ended before. */
  isLost = false
  /** Whether a stream may be made for it. */
  mayStream
  /** Settled once it is over, or there is more to send than an answer. */
  ready
  /** @type {(value?: any) => void} */
  tell = () => {}

  constructor(ids, mayStream) {
    this.open = new Set(ids)
    this.hasRequests = ids.length > 0
    this.mayStream = mayStream
    this.ready = new Promise(resolve => { this.tell = resolve })
  }
}

class Posts {
  #store
  #unread
  #most
  #connection
  #feed
  #name = randomBytes(8).toString('hex') // (an event's id is of this session alone)
  #streams = 0
  #byId = new Map()
  #broken = [] // what can't be read, and isn't answered yet
  #fed // what is being fed, whose fault may be answered at once
  #waiting = new Set()
  #asked = new Map() // the POSTs on whose behalf the client is asked, by the ids of these requests
  #owners = [] // of what is about to be sent: the methods, and the POSTs
  #all = new Map() // the streams that aren't over, by their names
  #own = [] // of these, the ones of GETs, the newest last
  #held = []
  #heldSize = 0
  isOver = false
  /** Messages come whole, and go whole. */
  input = { listen() {}, listenBytes: feed => { this.#feed = feed; return none() }, onError: none, onClose: none, dispose() {} }
  output = { write() {}, writeText: text => this.#write(text), onError: none, onClose: none, end() {}, dispose() {} }

  /** With what keeps events, how many bytes of a stream may be unread, and how many streams there may be. */
  constructor(store, unread, most) {
    this.#store = store
    this.#unread = unread
    this.#most = most
  }

  attach(connection) {
    this.#connection = connection
  }

  // What comes

  /** How many POSTs wait for an answer, and how many streams there are besides. */
  get open() {
    return this.#waiting.size + this.#own.length
  }

  /** Whether requests of these ids may come: none is open, or twice among them. */
  areFree(ids) {
    return new Set(ids).size === ids.length && !ids.some(it => this.#byId.has(it))
  }

  /** What a POST brought, with the keys of its requests. */
  feed(body, ids, mayStream) {
    const exchange = new Exchange(ids, mayStream)
    for (const it of ids) this.#byId.set(it, exchange)
    if (exchange.hasRequests) this.#waiting.add(exchange)
    const before = this.#connection.counts()
    this.#fed = exchange
    this.#feed(body)
    this.#fed = undefined
    const after = this.#connection.counts()
    const isBroken = after.unreadable > before.unreadable || after.invalid > before.invalid
    if (isBroken && !exchange.isOver) this.#broken.push(exchange)
    else if (!exchange.hasRequests) exchange.tell()
    return exchange
  }

  /** The POST that brought a request. */
  exchangeOf(id) {
    return this.#byId.get(idKey(id))
  }

  // What goes out

  /** A message of a method is about to be sent on behalf of a POST. What is given takes that back, if it isn't sent. */
  owes(method, exchange) {
    const owner = { method, exchange }
    this.#owners.push(owner)
    return () => this.#taken(it => it === owner)
  }

  #taken(isIt) {
    const at = this.#owners.findIndex(isIt)
    return at < 0 ? undefined : this.#owners.splice(at, 1)[0]
  }

  #write(text) {
    const found = RESULT.exec(text)
    if (found !== null) return this.#answered([JSON.parse(found[1])], text)
    const message = JSON.parse(text)
    const first = Array.isArray(message) ? message[0] : message
    if (first.method === undefined) return this.#answered([message].flat().map(it => it.id), text)
    const exchange = this.#ownerOf(first)
    if (first.id !== undefined && exchange !== undefined) this.#asked.set(first.id, exchange)
    this.#say(exchange, text)
  }

  /** On whose behalf a message is sent: a cancel is on that of the request which it takes back. */
  #ownerOf({ method, params }) {
    const owner = this.#taken(it => it.method === method)
    if (owner !== undefined || method !== CANCELLED) return owner?.exchange
    const exchange = this.#asked.get(params?.requestId)
    this.#asked.delete(params?.requestId)
    return exchange
  }

  #answered(ids, text) {
    const id = ids.find(it => it !== null)
    const exchange = id === undefined ? this.#broken.shift() ?? this.#fed : this.#byId.get(idKey(id))
    if (exchange === undefined) return
    this.#broken = this.#broken.filter(it => it !== exchange)
    if (id === undefined) exchange.fault = text
    this.#end(exchange, text)
  }

  /** Says a message that is no answer, on the stream of a POST or on one of a GET. */
  #say(exchange, text) {
    const isOfPost = exchange !== undefined && !exchange.isOver && (exchange.stream !== undefined || exchange.mayStream)
    if (isOfPost) return this.streamOf(exchange).send(text)
    const own = [...this.#own].reverse().find(it => it.isRead)
    if (own !== undefined) return own.send(text)
    this.#held.push(text)
    this.#heldSize += text.length
    while (this.#held.length > 1 && (this.#held.length > HELD || this.#heldSize > this.#unread)) this.#refuse(this.#unheld())
  }

  #unheld() {
    const text = this.#held.shift()
    this.#heldSize -= text.length
    return text
  }

  /** What no client reads goes; who waits for its answer is told, as by the client. */
  #refuse(text) {
    const { id, method } = JSON.parse(text)
    if (id === undefined || method === undefined) return
    const error = { code: -32000, message: 'the client reads no stream' }
    this.#feed(Buffer.from(JSON.stringify({ jsonrpc: '2.0', id, error })))
  }

  /** A request was cancelled, and has no answer. */
  unanswered(id) {
    const exchange = this.exchangeOf(id)
    if (exchange === undefined) return
    exchange.open.delete(idKey(id))
    this.#byId.delete(idKey(id))
    if (exchange.open.size === 0) this.#end(exchange)
  }

  /** A POST is answered, or never will be. */
  #end(exchange, text) {
    if (exchange.isOver) return
    exchange.isOver = true
    this.#waiting.delete(exchange)
    for (const it of exchange.open) this.#byId.delete(it)
    for (const [id, it] of this.#asked) if (it === exchange) this.#asked.delete(id)
    exchange.answer = text
    if (exchange.stream !== undefined) this.#endStream(exchange.stream, text)
    exchange.tell()
  }

  #endStream(stream, text) {
    if (text !== undefined) stream.send(text)
    stream.end()
    this.#all.delete(stream.name)
  }

  // Streams

  #newStream() {
    const stream = new Stream(`${this.#name}-${++this.#streams}`, this.#store, this.#unread)
    this.#all.set(stream.name, stream)
    return stream
  }

  /** A stream for what a POST is answered. */
  streamOf(exchange) {
    if (exchange.stream === undefined) {
      exchange.stream = this.#newStream()
      exchange.reader = exchange.stream.read()
      if (exchange.isOver) this.#endStream(exchange.stream, exchange.answer)
      exchange.tell()
    }
    return exchange.stream
  }

  /** Nobody waits for a POST's answer any more that isn't on a stream: what it asks goes to a stream of a GET. */
  leave(exchange) {
    if (exchange.stream === undefined) exchange.mayStream = false
  }

  /** A stream for what belongs to no POST; undefined if there are too many. */
  ownStream() {
    if (this.#own.length >= this.#most) {
      const left = this.#own.findIndex(it => !it.isRead)
      if (left < 0) return undefined
      this.#all.delete(this.#own.splice(left, 1)[0].name)
    }
    const stream = this.#newStream()
    this.#own.push(stream)
    const reader = stream.read()
    this.#handOver(stream)
    return [stream, reader]
  }

  #handOver(stream) {
    while (this.#held.length) stream.send(this.#unheld())
  }

  /** A stream, from behind an event on; undefined if that isn't one of this session's, or what follows is lost. */
  takeUp(name, number) {
    const stream = this.#all.get(name) ?? Stream.over(name, this.#store, this.#unread)
    const reader = stream.read(number)
    if (reader === undefined) return undefined
    const at = this.#own.indexOf(stream)
    if (at >= 0) {
      this.#own.push(...this.#own.splice(at, 1))
      this.#handOver(stream)
    }
    return [stream, reader]
  }

  /** The session is over: who waits is told. */
  end() {
    this.isOver = true
    for (const exchange of [...this.#waiting, ...this.#broken]) {
      exchange.isLost = true
      this.#end(exchange)
    }
    for (const it of this.#all.values()) it.end('the session is over')
    this.#all.clear()
    this.#own = []
    this.#held = []
  }
}

module.exports = { Posts, idKey, isResult }
