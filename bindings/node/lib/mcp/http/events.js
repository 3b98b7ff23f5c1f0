'use strict'
// What was sent on streams of events, kept so that a client whose stream broke can go on where it was.

/** Events in memory. The oldest ones go first, and the newest one always stays. */
class MemoryEvents {
  #most
  #mostBytes
  #size = 0
  #kept = new Map() // messages by `stream number`, the oldest first
  #last = new Map() // of streams of which something is kept

  constructor(most = 500, mostBytes = 1 << 20) {
    this.#most = most
    this.#mostBytes = mostBytes
  }

  /** Keeps a message. The numbers of a stream follow one another. */
  add(stream, number, message) {
    this.#kept.set(`${stream} ${number}`, message)
    this.#last.set(stream, number)
    this.#size += message.length
    while (this.#kept.size > 1 && (this.#kept.size > this.#most || this.#size > this.#mostBytes)) this.#drop()
  }

  #drop() {
    const [key, dropped] = this.#kept.entries().next().value
    const [stream, number] = key.split(' ')
    this.#kept.delete(key)
    this.#size -= dropped.length
    if (this.#last.get(stream) === Number(number)) this.#last.delete(stream)
  }

  /** The messages of a stream after this number, with theirs; undefined if one isn't kept, or nothing of it is. */
  after(stream, number) {
    const last = this.#last.get(stream)
    if (last === undefined || number < 0 || number > last) return undefined
    if (number < last && !this.#kept.has(`${stream} ${number + 1}`)) return undefined
    // (the oldest go first, so what follows a message that is kept is kept too)
    return Array.from({ length: last - number }, (_, at) => {
      const of = number + 1 + at
      return [of, this.#kept.get(`${stream} ${of}`)]
    })
  }
}

module.exports = { MemoryEvents }
