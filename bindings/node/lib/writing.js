'use strict'
// What crosses is written, until the stream takes no more for now.

const { native } = require('./native')
const { sharedRoom, MOST } = require('./outputs')

const NOTHING = Buffer.alloc(0)
const flushOf = writing => writing.flush()

class Writing {
  #state
  #said
  #output
  #hearer
  #isContents
  #pauseOver
  #stalled
  #isBlocked = false
  #isGone = false
  #isPaused = false
  #stall
  #unblocked = []
  #written = [] // who waits until it is written

  /** `said` is what crosses; settings: framing, pauseOver, stalled. The hearer is told of faults, and of pauses. */
  constructor(state, said, output, hearer, settings) {
    this.#state = state
    this.#said = said
    this.#output = output
    this.#hearer = hearer
    this.#isContents = settings.framing === 'contents'
    this.#pauseOver = settings.pauseOver
    this.#stalled = settings.stalled
    said.writing = this
  }

  schedule() {
    const state = this.#state
    state.isToBeWritten = true
    if (state.isHeld || state.isScheduled || state.isFlushing) return
    state.isScheduled = true
    // (where more messages wait for their immediates, what is said of these goes out together)
    if (this.#hearer.isBusy) setImmediate(flushOf, this)
    else process.nextTick(flushOf, this)
  }

  /** Something was said while nothing crossed: it is written with what follows in this turn. */
  scheduleLater() {
    const state = this.#state
    if ((!this.#said.count && !state.isToBeWritten) || state.isScheduled) return
    state.isScheduled = true
    setImmediate(flushOf, this)
  }

  /** Hands over what was said, and writes what is to be written, until the stream takes no more for now. */
  flush() {
    const state = this.#state
    state.isScheduled = false
    if (state.isFlushing || state.handle === undefined) return
    state.isToBeWritten = false
    state.isFlushing = true
    try {
      this.#writeAll(false)
    } finally {
      state.isFlushing = false
    }
    if (state.isFreed) state.free()
    else if (this.#isBlocked) this.#pause()
    else if (this.#written.length) this.#tellWritten()
  }

  #writeAll(isForced) {
    const state = this.#state
    let isMore
    do {
      const waits = this.#isBlocked && !isForced
      let room = waits ? NOTHING : sharedRoom()
      let taken = this.#said.cross(room)
      while (!waits && (taken || this.#isContents)) {
        if (taken) this.#write(room, taken)
        if ((this.#isBlocked && !isForced) || (taken < room.length && !this.#isContents)) break
        const rest = native.pending(state.handle)
        if (rest === 0) break
        room = this.#roomFor(rest)
        taken = native.take(state.handle, room)
      }
      // (a stream in memory may have brought bytes, and they answers, before write returned)
      isMore = this.#said.count > 0
      if (!isMore) {
        isMore = state.isToBeWritten && !this.#isBlocked
        state.isToBeWritten = false
      }
    } while (isMore)
  }

  #roomFor(length) {
    if (length <= sharedRoom().length) return sharedRoom()
    return Buffer.allocUnsafeSlow(this.#isContents ? length : Math.min(length, MOST))
  }

  #write(room, taken) {
    if (this.#isGone) return
    let takesMore = true
    try {
      takesMore = this.#output.write(room, taken)
    } catch (error) {
      this.#hearer.outputFailed(error)
    }
    if (takesMore || this.#isBlocked) return
    this.#isBlocked = true
    this.#output.onDrain(() => this.#drained())
    if (this.#stalled) {
      this.#stall = setTimeout(() => this.#hearer.stalled(this.#stalled), this.#stalled)
      this.#stall.unref()
    }
  }

  #drained() {
    this.#isBlocked = false
    clearTimeout(this.#stall)
    this.flush()
    if (this.#isBlocked) return
    if (this.#isPaused) {
      this.#isPaused = false
      this.#hearer.resume()
    }
    for (const it of this.#unblocked.splice(0)) it()
  }

  /** Stops the input where very much waits. Two sides that stop as soon as a write does wait for each other. */
  #pause() {
    if (this.#isPaused || native.pending(this.#state.handle) <= this.#pauseOver) return
    this.#isPaused = true
    this.#hearer.pause()
  }

  /** Nothing can be written any more. */
  gone() {
    this.#isGone = true
    if (this.#isBlocked) this.#drained()
  }

  whenWritten(resolve) {
    this.#written.push(resolve)
  }

  #tellWritten() {
    for (const it of this.#written.splice(0)) it()
  }

  /** Whether all that was said so far is out. */
  async drained() {
    this.flush()
    while (this.#isBlocked && this.#state.handle !== undefined) {
      await new Promise(resolve => this.#unblocked.push(resolve))
    }
    if (!this.#isGone) await this.#output.written()
  }

  /** Writes all, whether or not the stream takes more now. */
  force() {
    const state = this.#state
    if (state.handle === undefined || state.isFlushing) return
    state.isFlushing = true
    try {
      this.#writeAll(true)
    } finally {
      state.isFlushing = false
    }
  }

  /** Nobody waits any more: the connection is freed. */
  end() {
    for (const it of this.#unblocked.splice(0)) it()
    this.#tellWritten()
  }

  /** The stream isn't watched for a stall any more. */
  endStall() {
    clearTimeout(this.#stall)
  }
}

module.exports = { Writing }
