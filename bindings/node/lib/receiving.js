'use strict'
// Input goes to the addon, and events are received from it: a piece of input and the answers to it cross twice.

const {
  native, CODES, OK, LARGE_CODE, BEFORE_HEADS, HEAD, packedOf, largeOf, borrowHeads, returnHeads
} = require('./native')

const NOTHING = Buffer.alloc(0)
const RETRY = 10 // so many milliseconds after memory was refused, what it was for is done again
const FIRST = 64 // so many bytes of a message at fault are kept

class Receiving {
  #state
  #said
  #writing
  #hearer
  #wantsIds
  #later = []
  #hasEnded = false
  #isFeedingLater = false
  // how many bytes came before the piece that is received now, and that piece
  #before = 0
  #piece = NOTHING

  /** The hearer gets events and faults. */
  constructor(state, said, writing, hearer, wantsIds) {
    this.#state = state
    this.#said = said
    this.#writing = writing
    this.#hearer = hearer
    this.#wantsIds = wantsIds
  }

  get hasEnded() { return this.#hasEnded }

  wantIds() {
    this.#wantsIds = true
  }

  /** Bytes came. A stream in memory may bring some while others are received: they wait. */
  feed(bytes) {
    if (this.#hasEnded || this.#state.isFreed) return
    if (this.#state.isHeld) return void this.#later.push(bytes)
    this.#piece = bytes
    this.#receive(bytes)
    this.#piece = NOTHING // (an idle connection holds none)
    this.#before += bytes.length
    this.#writing.flush() // (also without events: broken input has answers)
    if (this.#later.length) this.#feedLater()
  }

  #feedLater() {
    while (this.#later.length && !this.#state.isHeld && !this.#isFeedingLater) {
      this.#isFeedingLater = true
      const it = this.#later.shift()
      if (typeof it === 'boolean') this.end(it)
      else this.feed(it)
      this.#isFeedingLater = false
    }
  }

  /** The input ended. */
  end(isFailed) {
    if (this.#hasEnded || this.#state.isFreed) return
    if (this.#state.isHeld) return void this.#later.push(isFailed)
    this.#hasEnded = true
    native.end(this.#state.handle, isFailed)
    this.#receive()
    this.#writing.flush()
  }

  /** Receives the events that there are, after a piece of input, if one is given. */
  #receive(piece) {
    const state = this.#state
    let isFed = piece !== undefined
    let room
    try {
      room = borrowHeads()
    } catch { // (memory is refused)
      return isFed ? this.#fault('NoMemory') : this.#receiveLater()
    }
    state.isHeld = true
    try {
      const { heads, place } = room
      let texts = isFed
        ? native.fed(state.handle, piece, place, this.#wantsIds)
        : native.events(state.handle, place, this.#wantsIds, false)
      for (;;) {
        if (heads[0] !== OK) return isFed ? this.#fault(CODES[heads[0]]) : this.#receiveLater()
        if (texts === undefined) return heads[2] ? this.#receiveLater() : undefined
        this.#told(heads, texts)
        if (state.isFreed || !heads[2]) return
        // (few open calls cost the connection less than many)
        if (this.#said.count && !state.isFlushing) this.#said.cross(NOTHING)
        texts = native.events(state.handle, place, this.#wantsIds, false)
        isFed = false
      }
    } finally {
      state.isHeld = false
      returnHeads(room)
    }
  }

  /** What a crossing told: the bodies of events are read together. */
  #told(heads, texts) {
    const packed = packedOf(texts)
    const large = largeOf(texts)
    const end = BEFORE_HEADS + HEAD * heads[1]
    let at = heads[3]
    const bodies = JSON.parse(packed.substring(0, at))
    let next = 0
    for (let head = BEFORE_HEADS; head < end - (large ? HEAD : 0); head += HEAD) {
      if (this.#state.isFreed) return
      const name = packed.substring(at, at += heads[head + 3])
      const id = heads[head + 5] ? packed.substring(at, at += heads[head + 5]) : undefined
      this.#one(heads, head, name, heads[head + 4] ? bodies[next++] : undefined, id)
    }
    if (!large || this.#state.isFreed) return
    this.#one(heads, end - HEAD, large[0], large[1] ? JSON.parse(large[1]) : undefined, large[2] || undefined)
  }

  #one(heads, head, name, body, id) {
    const word = heads[head]
    const code = word & LARGE_CODE ? codeIn(heads, head) : heads[head + 2]
    this.#hearer.received(word & 15, (word & (LARGE_CODE - 1)) >> 4, heads[head + 1], code, name, body, id)
  }

  /** A piece wasn't taken, so that nothing behind it can be read. */
  #fault(why) {
    this.#later = []
    this.#hearer.fault(why)
  }

  /** There was no memory for an event, which comes again. */
  #receiveLater() {
    this.retry(() => {
      if (this.#state.isHeld) return
      this.#receive()
      this.#writing.flush()
    })
  }

  /** Does once more, later, what memory was refused for. */
  retry(act) {
    setTimeout(() => { if (!this.#state.isFreed) act() }, RETRY)
  }

  /** Does something during which nothing crosses; what is said in it is written later, with what follows. */
  together(act) {
    const state = this.#state
    if (state.isHeld) return void act()
    state.isHeld = true
    try {
      act()
    } finally {
      state.isHeld = false
    }
    this.#feedLater()
    this.#writing.scheduleLater()
  }

  /** Where the frame or line at fault begins, if there is one; its first bytes, if it began in the piece that is received
   * now. */
  faultPlace() {
    const { handle } = this.#state
    const offset = handle === undefined ? undefined : native.faultAt(handle)
    if (offset === undefined || offset < this.#before) return { offset }
    const at = offset - this.#before
    return { offset, first: Buffer.from(this.#piece.subarray(at, at + FIRST)) }
  }

  clear() {
    this.#later = []
  }
}

function codeIn(heads, head) {
  return Number(new BigInt64Array(heads.buffer, heads.byteOffset, heads.length)[head + 2])
}

module.exports = { Receiving }
