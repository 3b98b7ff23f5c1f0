'use strict'
// The lower floor: one end of a JSON-RPC conversation, without input and output. Its texts are JSON.

const { inspect, types: { isUint8Array } } = require('node:util')
const {
  native, CODES, HOWS, FRAMINGS, ORDERS, CANCELS, DEFECTS, TOLD, LARGE_CODE, SAY, BEFORE_HEADS, HEAD, packedOf, largeOf,
  borrowHeads, returnHeads
} = require('./native')
const { check } = require('./refused')

const NOTHING = Buffer.alloc(0)
const BLANK = Buffer.from(' ') // (bytes that aren't JSON: none at all would be no text)
const NOT_UTF8 = Buffer.from([0xff])
const KEY = 2 // where the key of a call stands in what is said
const LARGEST = 2n ** 64n

const isWellFormed = 'isWellFormed' in String.prototype
  ? text => text.isWellFormed()
  : text => !/[\ud800-\udbff](?![\udc00-\udfff])|(?<![\ud800-\udbff])[\udc00-\udfff]/.test(text)

function whole(value, name) {
  const isWhole = typeof value === 'bigint' ? value >= 0n && value < LARGEST : Number.isSafeInteger(value) && value >= 0
  if (!isWhole) throw new TypeError(`${name} has to be a whole number from 0 on, and is ${inspect(value)}`)
  return value
}

function errorCode(value) {
  const isWhole = typeof value === 'bigint' ? BigInt.asIntN(64, value) === value : Number.isSafeInteger(value)
  if (!isWhole) throw new TypeError(`the code of an error has to be a whole number, and is ${inspect(value)}`)
  return value
}

/** The UTF-8 of a text. Half a surrogate pair has none, so the connection is given bytes that it refuses. */
function text(value, name) {
  if (typeof value === 'string') return isWellFormed(value) ? Buffer.from(value) : NOT_UTF8
  if (isUint8Array(value)) return value
  throw new TypeError(`${name} has to be a string or a Uint8Array, and is ${inspect(value)}`)
}

function json(value, name) {
  if (value === undefined) return NOTHING
  const bytes = text(value, name)
  return bytes.length === 0 ? BLANK : bytes
}

function oneOf(names, value, name) {
  const at = names.indexOf(value)
  const wanted = names.map(it => `'${it}'`).join(' or ')
  if (at < 0) throw new TypeError(`${name} has to be ${wanted}, and is ${inspect(value)}`)
  return at
}

/** Whose cancels, as the addon takes it. A boolean says whether LSP's. */
function cancelsOf(value) {
  if (typeof value === 'boolean') return value ? 1 : 0
  return value === null ? 0 : 1 + oneOf(CANCELS.slice(1), value, 'cancels')
}

/** The greatest number of entries, which stands for any. */
const ANY_ENTRIES = 2n ** 32n - 1n

/** A limit as the addon takes it. There 0 is the usual one, and here it is none. */
function limit(value, name, greatest) {
  if (value === undefined) return 0
  const it = BigInt(whole(value, name))
  if (it === 0n) check(CODES.indexOf('BadSettings'))
  return it > greatest ? greatest : it
}

/** Gives the events that one crossing told. */
function read({ heads }, texts) {
  const told = []
  const packed = packedOf(texts)
  const large = largeOf(texts)
  const end = BEFORE_HEADS + HEAD * heads[1]
  let bodies = 1
  let at = heads[3]
  const next = length => (length ? packed.substring(at, (at += length)) : '')
  for (let head = BEFORE_HEADS; head < end - (large ? HEAD : 0); head += HEAD) {
    const name = next(heads[head + 3])
    const id = next(heads[head + 5])
    const length = heads[head + 4]
    told.push(event(heads, head, name, packed.substring(bodies, bodies + length) || undefined, id || undefined))
    if (length) bodies += length + 1
  }
  if (large) told.push(event(heads, end - HEAD, large[0], large[1] || undefined, large[2] || undefined))
  return told
}

function event(heads, head, name, body, id) {
  const kind = heads[head] & 15
  const flags = (heads[head] & (LARGE_CODE - 1)) >> 4
  const number = heads[head + 1]
  switch (kind) {
    case TOLD.call: return { kind: 'call', number, method: name, params: body, id, isRequest: flags === 1 }
    case TOLD.cancelled: return { kind: 'cancelled', number }
    case TOLD.replied:
      if (flags === 0) return { kind: 'replied', key: number, result: body }
      return { kind: 'failed', key: number, code: codeIn(heads, head), message: name, data: body }
    case TOLD.unanswered: return { kind: 'unanswered', key: number }
    case TOLD.broken: return { kind: 'broken', ...brokenOf(number, flags, heads[head + 2], name, id) }
    default: return { kind: 'over', how: HOWS[flags] }
  }
}

/** What is told of broken input. The addon has each of its bytes as a letter, and a number as the name. */
function brokenOf(offset, flags, entries, name, letters = '') {
  return { offset, first: Buffer.from(letters, 'latin1'), what: DEFECTS[flags], entry: Number(name), entries }
}

/** An error's code: a BigInt where a number wouldn't be exact. */
function codeIn(heads, head) {
  if (!(heads[head] & LARGE_CODE)) return heads[head + 2]
  return new BigInt64Array(heads.buffer, heads.byteOffset, heads.length)[head + 2]
}

function countsOf([calls, requests, open, waiting, ownCalls, answersWritten, unreadable, invalid, ignored]) {
  return { calls, requests, open, waiting, ownCalls, answersWritten, unreadable, invalid, ignored }
}

class Connection {
  #handle
  #framing
  #kept = [] // events that were told before memory was refused

  /** @param {import('../types').ConnectionSettings} settings */
  constructor({
    framing = 'frames', order = 'as-answered', cancels = 'lsp', content, calls, broken = false, entries,
    nullParams = false
  } = {}) {
    const made = native.open(
      oneOf(FRAMINGS, framing, 'framing'), oneOf(ORDERS, order, 'order'), cancelsOf(cancels),
      Number(limit(content, 'content', 2n ** 32n - 1n)), limit(calls, 'calls', LARGEST - 1n), !!broken,
      Number(limit(entries, 'entries', ANY_ENTRIES)), !!nullParams
    )
    if (typeof made === 'number') check(made)
    this.#handle = made
    this.#framing = framing
  }

  // The input

  feed(bytes) {
    check(native.feed(this.#handle, bytes))
  }

  end(isFailed = false) {
    check(native.end(this.#handle, isFailed))
  }

  // Events

  /** `feed` and then `events`, in one crossing. */
  fed(bytes) {
    return this.#all(place => native.fed(this.#handle, bytes, place, true), true)
  }

  events() {
    return this.#all(place => native.events(this.#handle, place, true, false), false)
  }

  nextEvent() {
    if (this.#kept.length) return this.#kept.shift()
    const room = borrowHeads()
    try {
      const texts = native.events(this.#handle, room.place, true, true)
      check(room.heads[0])
      return texts === undefined ? undefined : read(room, texts)[0]
    } finally {
      returnHeads(room)
    }
  }

  /** (bytes that were fed must not be fed again, so nothing is thrown behind them: other events come later) */
  #all(first, isFed) {
    const room = borrowHeads()
    const { heads, place } = room
    const told = this.#kept
    try {
      let texts = first(place)
      if (isFed) check(heads[0])
      while (texts !== undefined) {
        for (const it of read(room, texts)) told.push(it)
        texts = heads[2] ? native.events(this.#handle, place, true, false) : undefined
      }
      if (!isFed) check(heads[0])
      this.#kept = []
      return told
    } finally {
      returnHeads(room)
    }
  }

  // Saying

  /** @param {Uint8Array} first @param {Uint8Array} second */
  #say(kind, number, code, first = NOTHING, second = NOTHING) {
    check(native.sayOne(this.#handle, kind, number, code, first, second))
  }

  call(number, method, params) {
    this.#say(SAY.call, whole(number, 'the number'), 0, text(method, 'the method'), json(params, 'params'))
    return native.says[KEY]
  }

  callBatch(number, calls) {
    const parts = []
    for (const [method, params] of calls) parts.push(text(method, 'the method'), json(params, 'params'))
    const lengths = Uint32Array.from(parts, it => it.length)
    check(native.callBatch(this.#handle, whole(number, 'the number'), Buffer.concat(parts), lengths))
    return native.says[KEY]
  }

  notify(method, params) {
    this.#say(SAY.notify, 0, 0, text(method, 'the method'), json(params, 'params'))
  }

  withdraw(key) {
    this.#say(SAY.withdraw, whole(key, 'the key'), 0)
  }

  answer(number, result) {
    this.#say(SAY.answer, whole(number, 'the number'), 0, json(result, 'the result'))
  }

  fail(number, code, message = '', data) {
    const words = [text(message, 'the message'), json(data, 'data')]
    this.#say(SAY.fail, whole(number, 'the number'), errorCode(code), ...words)
  }

  cancel(number) {
    this.#say(SAY.cancel, whole(number, 'the number'), 0)
  }

  // The output

  get pending() {
    return native.pending(this.#handle)
  }

  /** For how many bytes its buffers have room: small once all is taken, whatever was written before. */
  get held() {
    return native.held(this.#handle)
  }

  take(most = Infinity) {
    const size = native.pending(this.#handle)
    if (this.#framing === 'contents' && size > most) return Buffer.alloc(0)
    const room = Buffer.allocUnsafe(Math.min(size, most))
    native.take(this.#handle, room)
    return room
  }

  // What has happened

  get isDone() {
    return native.isDone(this.#handle)
  }

  /** Where the frame or line at fault begins, counted from the first byte that was fed; undefined without a fault. */
  get faultOffset() {
    return native.faultAt(this.#handle)
  }

  counts() {
    return countsOf(native.counts(this.#handle))
  }

  close() {
    native.close(this.#handle)
  }
}

module.exports = { Connection, isWellFormed, countsOf, brokenOf }
