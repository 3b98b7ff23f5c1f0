'use strict'
// Requests and notifications of ours, from when they are sent until they are answered or written.

const { isWellFormed } = require('./connection')
const { CancellationSenderStrategy } = require('./cancellation')
const { ErrorCodes, ResponseError } = require('./errors')
const { messageOf } = require('./thrown')
const signatures = require('./signatures')
const { Calls, refusal, rejected } = require('./calls')

class Outgoing {
  #shared
  #sender // what tells of cancels
  #connection
  #calls = new Calls(it => this.#sent(it), it => this.#withdraw(it))

  /** `sender` is a strategy that gets the connection. */
  constructor(shared, sender, connection) {
    this.#shared = shared
    this.#sender = sender
    this.#connection = connection
  }

  request(type, args) {
    const { method, params, token } = signatures.request(type, args)
    const { json, error } = written(method, params)
    if (error) return Promise.reject(error)
    return new Promise((resolve, reject) => {
      const call = this.#calls.make(method, resolve, reject, token)
      if (this.#shared.tracing) call.json = json
      this.#shared.said.call(method, json, call)
    })
  }

  notification(type, args) {
    const { said, tracing, writing } = this.#shared
    const { method, params } = signatures.notification(type, args)
    const { json, error } = written(method, params)
    if (error) return Promise.reject(error)
    tracing?.notification(true, method, params)
    return new Promise((resolve, reject) => {
      said.notify(method, json, { sent: () => writing.whenWritten(resolve), refused: why => reject(refusal(why)) })
    })
  }

  /** Several calls in one message: each is [method, ..arguments]. */
  batch(calls, isSettled) {
    const all = Array.from(calls, ([type, ...args]) => signatures.request(type, args))
    const texts = all.map(({ method, params }) => written(method, params))
    const wrong = texts.find(it => it.error)
    if (wrong) return Promise.reject(wrong.error)
    const key = this.#shared.said.callBatch(all.map(({ method }, at) => [method, texts[at].json]))
    if (typeof key === 'string') return Promise.reject(refusal(key))
    const replies = all.map(({ method, token }, at) => new Promise((resolve, reject) => {
      const call = this.#calls.make(method, resolve, reject, token)
      if (this.#shared.tracing) call.json = texts[at].json
      call.sent(key + at)
    }))
    return isSettled ? Promise.allSettled(replies) : Promise.all(replies)
  }

  #sent(call) {
    const { tracing } = this.#shared
    if (tracing === undefined) return
    call.started = Date.now()
    tracing.request(true, call.key, call.method, call.json && JSON.parse(call.json))
  }

  replied(key, isError, code, message, value) {
    const call = this.#calls.take(key)
    if (call === undefined) return
    const { tracing, turns } = this.#shared
    const error = isError ? new ResponseError(code, message, value) : undefined
    turns.wait()
    tracing?.receivedResponse(key, call.method, call.started, error?.toJson(), value)
    if (isError) call.reject(error)
    else call.resolve(value)
    if (this.#sender !== CancellationSenderStrategy.Message) this.#sender.cleanup(key)
  }

  unanswered(key) {
    this.#calls.take(key)?.reject(rejected('the input is over'))
  }

  rejectAll(why) {
    this.#calls.rejectAll(why)
  }

  get count() {
    return this.#calls.count
  }

  // Cancels

  #withdraw(call) {
    const { isMcp, said } = this.#shared
    if (this.#shared.isNeverCancelled(call.method)) return
    if (isMcp) {
      said.withdraw(call.key)
      return this.#calls.giveUp(call)
    }
    if (this.#sender === CancellationSenderStrategy.Message) return said.withdraw(call.key)
    new Promise(resolve => resolve(this.#sender.sendCancellation(this.#connection, call.key))).catch(() => {
      this.#shared.logError(`Sending cancellation messages for id ${call.key} failed`)
    })
  }
}

/** Params as JSON, or the error with which what is sent is rejected. */
function written(method, params) {
  try {
    if (typeof method !== 'string' || !isWellFormed(method)) throw new TypeError('the method is no text')
    return { json: params === undefined ? undefined : JSON.stringify(params), error: undefined }
  } catch (error) {
    const text = messageOf(error) ?? 'Unknown reason'
    return { json: undefined, error: new ResponseError(ErrorCodes.MessageWriteError, text) }
  }
}

module.exports = { Outgoing }
