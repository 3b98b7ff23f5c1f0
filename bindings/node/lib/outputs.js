'use strict'
// Where bytes, or whole messages, go.

const net = require('node:net')

/** The most bytes that are taken at once where much is to be written, and the room for less. */
const MOST = 1 << 20
const ROOM = 1 << 16
// One room for all connections of a thread. It is given away only where a stream keeps it.
let room = Buffer.allocUnsafeSlow(ROOM)
const sharedRoom = () => room

/** A stream of Node.js. A plain socket hands a write to the kernel at once, so its bytes need no copy. */
class StreamOutput {
  #keeps
  stream

  constructor(stream) {
    this.stream = stream
    this.#keeps = stream.constructor !== net.Socket
  }

  /** Writes the first bytes of a room, and gives whether the stream takes more now. */
  write(from, length) {
    const bytes = length === from.length ? from : from.subarray(0, length)
    if (from !== room) return this.stream.write(bytes)
    if (this.#keeps) return this.stream.write(Buffer.from(bytes))
    const goesOn = this.stream.write(bytes)
    // (what the kernel didn't take is read later)
    if (this.stream.writableLength !== 0) room = Buffer.allocUnsafeSlow(ROOM)
    return goesOn
  }

  onDrain(listener) {
    this.stream.once('drain', listener)
  }

  /** Whether all that was written is out. */
  written() {
    const { stream } = this
    if (!stream.writableLength || stream.destroyed || stream.writableEnded) return Promise.resolve()
    return new Promise(resolve => stream.write(Buffer.alloc(0), () => resolve()))
  }

  get isMessages() { return false }
}

/** A writer of messages, or of their texts. */
class MessageOutput {
  #writer
  #onError

  constructor(writer, onError) {
    this.#writer = writer
    this.#onError = onError
  }

  write(from, length) {
    const text = from.utf8Slice(0, length)
    try {
      const writing = this.#writer.writeText ? this.#writer.writeText(text) : this.#writer.write(JSON.parse(text))
      writing?.then?.(undefined, this.#onError)
    } catch (error) {
      this.#onError(error)
    }
    return true
  }

  written() { return Promise.resolve() }

  get isMessages() { return true }
}

module.exports = { StreamOutput, MessageOutput, sharedRoom, MOST }
