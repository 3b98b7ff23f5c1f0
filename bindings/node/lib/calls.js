'use strict'
// Calls of ours, from when they are made until they are settled.

const { ResponseError, ErrorCodes, ConnectionError, ConnectionErrors, REQUEST_CANCELLED } = require('./errors')
const { TEXTS } = require('./refused')
const { print } = require('./thrown')

const refusal = why => (why === 'InputOver'
  ? new ConnectionError(ConnectionErrors.Closed, 'Connection is closed.')
  : new ResponseError(ErrorCodes.MessageWriteError, TEXTS[why]))

const rejected = why => new ResponseError(ErrorCodes.PendingResponseRejected, `Pending response rejected since ${why}`)

/** One call. Its key, which is its id, is known once it has crossed. */
class Call {
  key = 0
  started = 0
  json // its params, if it is traced
  #calls
  #resolve
  #reject
  #subscription
  #isUnwanted = false

  constructor(calls, method, resolve, reject, token) {
    this.#calls = calls
    this.method = method
    this.#resolve = resolve
    this.#reject = reject
    if (token !== undefined) this.#subscription = token.onCancellationRequested(() => this.#cancel())
  }

  /** It has crossed. */
  sent(key) {
    this.key = key
    this.#calls.sent(this)
    if (this.#isUnwanted) this.#cancel()
  }

  refused(why) {
    this.#calls.unsent--
    this.reject(refusal(why))
  }

  #cancel() {
    this.#isUnwanted = true
    if (this.key !== 0 && this.#calls.has(this)) this.#calls.cancel(this)
  }

  resolve(result) {
    this.#resolve(result)
    this.#unsubscribe()
  }

  reject(error) {
    this.#reject(error)
    this.#unsubscribe()
  }

  #unsubscribe() {
    try {
      this.#subscription?.dispose()
    } catch (error) { // (of a token that isn't ours)
      print(error)
    }
  }
}

/** The calls that wait for their replies, by their keys. How one is cancelled is the connection's matter. */
class Calls {
  #waiting = new Map()
  #onSent
  #onCancel
  #isOver
  unsent = 0

  constructor(onSent, onCancel) {
    this.#onSent = onSent
    this.#onCancel = onCancel
  }

  make(method, resolve, reject, token) {
    const call = new Call(this, method, resolve, reject, token) // (whose token may throw)
    this.unsent++
    return call
  }

  sent(call) {
    this.unsent--
    if (this.#isOver) return call.reject(this.#isOver)
    this.#waiting.set(call.key, call)
    this.#onSent(call)
  }

  has(call) {
    return this.#waiting.get(call.key) === call
  }

  cancel(call) {
    this.#onCancel(call)
  }

  /** The call that this key is of, which waits no longer. */
  take(key) {
    const call = this.#waiting.get(key)
    if (call !== undefined) this.#waiting.delete(key)
    return call
  }

  /** Gives a call up whose reply nobody will send. */
  giveUp(call) {
    if (this.take(call.key)) call.reject(new ResponseError(REQUEST_CANCELLED, 'Request cancelled'))
  }

  rejectAll(why) {
    this.#isOver = rejected(why)
    for (const it of this.#waiting.values()) it.reject(this.#isOver)
    this.#waiting.clear()
  }

  get count() {
    return this.#waiting.size + this.unsent
  }
}

module.exports = { Calls, refusal, rejected }
