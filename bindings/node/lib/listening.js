'use strict'
// What a connection reads and writes: streams of bytes, or readers and writers of messages.

const { types: { isUint8Array } } = require('node:util')

class Listening {
  #from
  #to
  #heard // who hears of what comes
  #detach = []

  /** `heard` has bytes(piece), end(), failed(error), closed(error) of the output, and report(error). */
  constructor(from, to, heard) {
    this.#from = from
    this.#to = to
    this.#heard = heard
  }

  begin() {
    if (this.#from.stream) {
      this.#read(this.#from.stream)
      this.#watch(this.#to.stream)
    } else this.#hearMessages()
  }

  #hearMessages() {
    const [from, to, heard] = [this.#from, this.#to, this.#heard]
    this.#detach.push(
      from.onError(heard.report), from.onClose(heard.end),
      to.onError(it => heard.report(...(Array.isArray(it) ? it : [it]))), to.onClose(() => heard.closed()),
      from.listenBytes ? from.listenBytes(heard.bytes)
        : from.listen(message => heard.bytes(Buffer.from(JSON.stringify(message))))
    )
  }

  #on(stream, name, listener) {
    stream.on(name, listener)
    this.#detach.push({ dispose: () => stream.off(name, listener) })
  }

  #read(stream) {
    const { bytes, end } = this.#heard
    this.#on(stream, 'data', piece => {
      if (isUint8Array(piece)) bytes(piece)
      else if (typeof piece === 'string') bytes(Buffer.from(piece))
      else this.#failed(new TypeError(`a stream of bytes is needed, and it gave a ${typeof piece}`))
    })
    this.#on(stream, 'end', end)
    this.#on(stream, 'close', () => {
      end()
      this.#from.fireClose()
    })
    stream.on('error', error => this.#failed(error)) // (it stays: an error that nobody hears ends the process)
    if (stream.readableEnded || stream.destroyed) setImmediate(end)
  }

  #failed(error) {
    this.#heard.failed(error, () => this.#from.fireError(error))
  }

  #watch(stream) {
    stream.on('error', error => {
      if (stream !== this.#from.stream) this.#heard.report(error)
      this.#to.fireError(error)
      this.#heard.closed(error)
    })
    this.#on(stream, 'close', () => {
      this.#heard.closed()
      this.#to.fireClose()
    })
  }

  pause() { this.#from.stream?.pause() }
  resume() { this.#from.stream?.resume() }

  end() {
    this.#to.end?.()
  }

  /** Hears no more. */
  detach() {
    for (const it of this.#detach.splice(0)) it?.dispose?.()
  }

  dispose() {
    this.#to.dispose?.()
    this.#from.dispose?.()
  }
}

module.exports = { Listening }
