'use strict'
// How far a connection is, and why it ended.

const { ConnectionError, ConnectionErrors } = require('./errors')
const { endText } = require('./ends')

const NEW = 1
const LISTENING = 2
const CLOSED = 3
const DISPOSED = 4

class Life {
  #state = NEW
  #isStopped = false
  #readError
  /** @type {{ offset?: number, first?: Buffer }} of a fault of the input */
  place = {}
  reason

  get isOver() {
    return this.#state >= CLOSED
  }

  listen() {
    this.checkUsable()
    if (this.#state === LISTENING) {
      throw new ConnectionError(ConnectionErrors.AlreadyListening, 'Connection is already listening')
    }
    this.#state = LISTENING
  }

  checkUsable() {
    if (this.#state === CLOSED) throw new ConnectionError(ConnectionErrors.Closed, 'Connection is closed.')
    if (this.#state === DISPOSED) throw new ConnectionError(ConnectionErrors.Disposed, 'Connection is disposed.')
  }

  checkListening() {
    this.checkUsable()
    if (this.#state === NEW) throw new Error('Call listen() first.')
  }

  /** A read failed. */
  failed(error) {
    this.#readError = error
  }

  /** The program has said that the input is over. */
  stop() {
    this.#isStopped = true
  }

  /** It has ended: gives the reason, or undefined if it had before. An error that nobody knows yet is reported. */
  end(how, error, report) {
    if (this.isOver) return undefined
    this.#state = CLOSED
    const reason = { how: this.#isStopped ? 'Stopped' : how, error: error ?? this.#readError }
    if (reason.how !== 'Clean' && reason.how !== 'Stopped') {
      if (this.place.offset !== undefined) reason.offset = this.place.offset
      reason.text = endText(how, this.place, reason.error)
    }
    if (reason.text !== undefined && reason.error === undefined) {
      reason.error = new Error(`the connection ended: ${reason.text}`)
      report(reason.error)
    }
    return (this.reason = reason)
  }

  /** Whether it is only disposed of now. */
  dispose() {
    const isFirst = this.#state !== DISPOSED
    this.#state = DISPOSED
    this.reason ??= { how: 'Disposed' }
    return isFirst
  }
}

module.exports = { Life }
