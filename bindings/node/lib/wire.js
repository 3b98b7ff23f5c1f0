'use strict'
// Between a connection of the addon and a stream: what comes goes in and is received, what is said crosses together and
// is written.

const { native, CODES, FRAMINGS, ORDERS } = require('./native')
const { Crossing } = require('./crossing')
const { Receiving } = require('./receiving')
const { Writing } = require('./writing')

class Wire {
  /** What is said. */
  said
  /** What is written. */
  writing
  /** What is received. */
  receiving
  #state
  #lastCounts

  /** Settings: framing, order, cancels, content, calls, pauseOver, stalled, wantsIds. The hearer gets the events. */
  constructor(settings, output, hearer) {
    const made = native.open(
      FRAMINGS.indexOf(settings.framing), ORDERS.indexOf(settings.order), settings.cancels, settings.content,
      settings.calls, true
    )
    if (typeof made === 'number') throw new RangeError(`there are no such settings (${CODES[made]})`)
    const state = this.#state = {
      handle: made,
      isHeld: false, // something is received: what is said meanwhile crosses after it
      isScheduled: false,
      isToBeWritten: false, // something was said alone
      isFlushing: false,
      isFreed: false,
      free: () => this.free()
    }
    this.said = new Crossing(state, hearer)
    this.writing = new Writing(state, this.said, output, hearer, settings)
    this.receiving = new Receiving(state, this.said, this.writing, hearer, settings.wantsIds)
  }

  /** Frees the connection, once all that was said is with the stream. */
  free() {
    const state = this.#state
    state.isFreed = true
    if (state.handle === undefined || state.isFlushing) return // (what flushes now frees it)
    this.writing.force()
    this.writing.endStall()
    this.#lastCounts = native.counts(state.handle)
    native.close(state.handle)
    state.handle = undefined
    this.receiving.clear()
    this.writing.end()
  }

  get pending() { return this.#state.handle === undefined ? 0 : native.pending(this.#state.handle) }
  get counts() { return this.#state.handle === undefined ? this.#lastCounts : native.counts(this.#state.handle) }
}

module.exports = { Wire }
