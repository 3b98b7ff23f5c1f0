'use strict'
// Streams of events: what is said on one goes to the response that has it now, and to the next one where that breaks.

/** One HTTP response that has a stream: what isn't sent on it yet. */
class Reader {
  #most
  #first
  #queue = []
  #waiting = 0
  #wake
  /** Whether nothing more comes, and what is to be said of that. */
  isOver = false
  why = ''

  /** With how many bytes may wait, and what goes first, which doesn't count. */
  constructor(most, first) {
    this.#most = most
    this.#first = first
  }

  /** More to send. For a client that doesn't read only so much waits. */
  put(event) {
    if (this.isOver) return
    if (this.#waiting > this.#most) {
      this.#queue = []
      this.end('the client reads too slowly')
      return
    }
    this.#queue.push(event)
    this.#waiting += event[1].length
    this.#wake?.()
  }

  /** Nothing more comes. */
  end(why = '') {
    if (this.isOver) return
    this.isOver = true
    this.why = why
    this.#wake?.()
  }

  /** The next event; undefined at the end, or if none comes in so many milliseconds. */
  async next(milliseconds) {
    if (this.#first.length) return this.#first.shift()
    if (!this.#queue.length && !this.isOver) {
      await new Promise(resolve => {
        const timer = setTimeout(resolve, milliseconds)
        this.#wake = () => {
          clearTimeout(timer)
          resolve(undefined)
        }
      })
      this.#wake = undefined
    }
    const event = this.#queue.shift()
    if (event !== undefined) this.#waiting -= event[1].length
    return event
  }
}

/** What is said on a stream, of this name. */
class Stream {
  #store
  #unread
  #last = 0
  name
  isOver = false
  /** @type {Reader | undefined} the response that has it now */
  reader

  constructor(name, store, unread) {
    this.name = name
    this.#store = store
    this.#unread = unread
  }

  /** One that is over, of which there is what the store has. */
  static over(name, store, unread) {
    const stream = new Stream(name, store, unread)
    stream.#last = -1
    stream.isOver = true
    return stream
  }

  get isRead() {
    return this.reader !== undefined && !this.reader.isOver
  }

  send(message) {
    this.#last++
    this.#store.add(this.name, this.#last, message)
    this.reader?.put([this.#last, message])
  }

  end(why) {
    this.isOver = true
    this.reader?.end(why)
  }

  /**
   * A response has it from now on, after the event of this number or from here; undefined if what is between is lost.
   * One that had it until now ends.
   */
  read(number) {
    const first = number === undefined || number === this.#last ? [] : this.#store.after(this.name, number)
    if (first === undefined) return undefined
    this.reader?.end('the stream was taken up again')
    this.reader = new Reader(this.#unread, first)
    if (this.isOver) this.reader.end()
    return this.reader
  }

  /** A response has it no more. */
  leave(reader) {
    if (this.reader === reader) this.reader = undefined
  }
}

module.exports = { Stream }
