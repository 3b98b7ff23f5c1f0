'use strict'
// Requests and notifications of the other side: what their handlers are called with, and how what these give is sent.

const { types: { isPromise } } = require('node:util')
const { CancellationReceiverStrategy, Token } = require('./cancellation')
const { ErrorCodes, ResponseError, REQUEST_CANCELLED } = require('./errors')
const { messageOf, responseOf, watch } = require('./thrown')
const { ConnectionStrategy } = require('./messages')
const { Handlers, handleRequest, handleNotification } = require('./handlers')
const { LogTraceNotification } = require('./trace')

const INITIALIZE = 'initialize'
const PROGRESS = '$/progress'
const MCP_CANCEL = 'notifications/cancelled'

function isThenable(it) {
  return it !== null && (typeof it === 'object' || typeof it === 'function') && typeof it.then === 'function'
}

/** The other side's requests, from when they begin until they are answered. */
class IncomingRequests {
  handlers = new Handlers()
  #shared
  #receiver // what makes tokens
  #hasOwnTokens
  #strategy
  #running = new Map() // requests whose handlers go on, by their numbers
  #early = new Set() // requests that were cancelled before they began
  #idle = []

  /** `shared` is what the parts of a connection have in common; the options have strategies of the program's. */
  constructor(shared, receiver, strategy) {
    this.#shared = shared
    this.#receiver = receiver
    this.#hasOwnTokens = receiver === CancellationReceiverStrategy.Message
    this.#strategy = ConnectionStrategy.is(strategy) ? strategy : undefined
  }

  get hasOwnTokens() {
    return this.#hasOwnTokens
  }

  begin(number, method, params, id) {
    const { tracing, turns } = this.#shared
    const one = this.handlers.named.get(method)
    const { star } = this.handlers
    const started = tracing ? Date.now() : 0
    tracing?.request(false, JSON.parse(id), method, params)
    if (one === undefined && star === undefined) {
      const response = { code: ErrorCodes.MethodNotFound, message: `Unhandled method ${method}` }
      return this.#fail(number, { method, id, started }, response)
    }
    const request = { source: undefined, method, id, started }
    try {
      const source = request.source = this.#hasOwnTokens ? new Token() : this.#sourceOf(method, params, id)
      if (this.#early.size && this.#early.delete(number)) source.cancel()
      const token = this.#hasOwnTokens ? source : source.token
      const result = one === undefined ? star(method, params, token) : handleRequest(one, method, params, token)
      if (!isThenable(result)) return this.#settle(number, request, result)
      this.#running.set(number, request)
      turns.wait()
      const failed = error => this.#finish(number, request, undefined, error, true)
      const answered = result.then(it => this.#finish(number, request, it), failed)
      if (!isPromise(result)) watch(answered, failed) // (a `then` of its own may be async)
    } catch (error) {
      this.#running.delete(number)
      this.threw(number, request, error)
    }
  }

  #sourceOf(method, params, id) {
    return this.#receiver.createCancellationTokenSource(this.#receiver.kind === 'request'
      ? { jsonrpc: '2.0', id: JSON.parse(id), method, params } : JSON.parse(id))
  }

  /** A handler's promise is settled. */
  #finish(number, request, result, error, hasThrown = false) {
    if (this.#shared.isDisposed) return
    if (this.#running.get(number) !== request) {
      return this.#shared.logError(`Request ${request.method} was answered twice.`)
    }
    this.#running.delete(number)
    if (hasThrown) this.threw(number, request, error)
    else this.#settle(number, request, result)
    this.lookWhetherIdle()
  }

  #settle(number, request, result) {
    const { isMcp, tracing, said } = this.#shared
    if (this.#shared.isDisposed) return
    const response = typeof result === 'object' ? responseOf(result) : undefined
    if (response !== undefined) return this.#fail(number, request, response)
    if (isMcp && isCancelled(request)) return said.cancel(number)
    const value = result === undefined ? null : result
    let json
    try {
      json = JSON.stringify(value)
    } catch (error) {
      return this.threw(number, request, error)
    }
    if (json === undefined) {
      return this.threw(number, request, new Error(`the result is no JSON, but a ${typeof result}`))
    }
    said.answer(number, json)
    tracing?.sentResponse(JSON.parse(request.id), request.method, request.started, undefined, value)
  }

  /** Answers with what a handler has thrown. */
  threw(number, request, error) {
    if (this.#shared.isDisposed) return
    const response = responseOf(error)
    if (response !== undefined) return this.#fail(number, request, response)
    const message = messageOf(error)
    const text = message === undefined ? 'unexpectedly without providing any details.' : `with message: ${message}`
    this.#failInternally(number, request, `Request ${request.method} failed ${text}`)
  }

  #failInternally(number, request, message) {
    this.#fail(number, request, { code: ErrorCodes.InternalError, message })
  }

  /** @param {number} number @param {any} request @param {{ code: number, message: string, data?: any }} response */
  #fail(number, request, { code, message, data }) {
    const { isMcp, tracing, said } = this.#shared
    if (isMcp && isCancelled(request)) return said.cancel(number)
    const error = new ResponseError(code, message, data)
    let json
    try {
      json = data === undefined ? undefined : JSON.stringify(data)
    } catch (reason) {
      return this.#failInternally(number, request, `the error's data are no JSON: ${messageOf(reason) ?? 'unknown'}`)
    }
    const whole = Number.isSafeInteger(error.code) ? error.code : ErrorCodes.UnknownErrorCode
    said.fail(number, whole, error.message, json)
    tracing?.sentResponse(JSON.parse(request.id), request.method, request.started, error.toJson())
  }

  // Cancels

  /** The other side has cancelled a request. */
  cancelled(number) {
    const running = this.#running.get(number)
    const call = running ?? this.#shared.turns.call(number)
    if (call === undefined || this.#shared.isNeverCancelled(call.method)) return
    if (running !== undefined) return running.source.cancel()
    if (this.#strategy === undefined || !this.#isAnsweredByStrategy(number, call)) this.#early.add(number)
  }

  /** Whether a strategy answers a request that hasn't begun. */
  #isAnsweredByStrategy(number, { method, params, id }) {
    const message = { jsonrpc: '2.0', id: JSON.parse(id), method, params }
    const response = this.#strategy.cancelUndispatched(message, () => undefined)
    if (!response || (response.error === undefined && response.result === undefined)) return false
    const { error, result } = response
    const failure = error && { code: error.code, message: String(error.message), data: error.data }
    this.#shared.turns.drop(number)
    const request = { method, id, started: Date.now() }
    if (failure) this.#fail(number, request, failure)
    else this.#settle(number, request, result)
    return true
  }

  /** Answers as cancelled the requests whose handlers still go on, and gives their methods. */
  cancelOpen() {
    const { said } = this.#shared
    const cancelled = [...this.#running]
    for (const [number, { source, method }] of cancelled) {
      this.#running.delete(number)
      this.#shared.tryTo(() => source.cancel())
        // (a cancel of theirs that played no part doesn't leave it without an answer)
      if (this.#shared.isNeverCancelled(method)) said.fail(number, REQUEST_CANCELLED, 'Request cancelled')
      else said.cancel(number)
    }
    this.lookWhetherIdle()
    return cancelled.map(([, { method }]) => method)
  }

  // How many there are

  /** How many requests' handlers go on, and calls wait for theirs to begin. */
  get open() {
    return this.#running.size + this.#shared.turns.count
  }

  /** Settled once none are open. */
  settled() {
    return this.open === 0 ? Promise.resolve() : new Promise(resolve => this.#idle.push(resolve))
  }

  lookWhetherIdle() {
    if (this.#idle.length && this.open === 0) for (const it of this.#idle.splice(0)) it()
  }

  clear() {
    this.#running.clear()
  }
}

/** Nobody waits for an answer that MCP's cancel has made unwanted. */
function isCancelled({ source }) {
  return source !== undefined && (source.token ?? source).isCancellationRequested
}

/** MCP's `initialize` is never cancelled, by either side. */
const isNeverCancelledIn = isMcp => method => isMcp && method === INITIALIZE

/** The other side's notifications. */
class IncomingNotifications {
  handlers = new Handlers()
  /** Those of progress, by their tokens. */
  progress
  /** What is told of notifications that have no handler. */
  unhandled
  unhandledProgress
  #shared

  constructor(shared) {
    this.#shared = shared
  }

  handle(method, params) {
    this.#shared.tracing?.notification(false, method, params)
    const one = this.handlers.named.get(method)
    try {
      const result = one === undefined
        ? this.#withoutHandler(method, params)
        : handleNotification(one, method, params, this.#shared.logError)
      if (!isThenable(result)) return
      this.#shared.turns.wait()
      const failed = error => this.#failed(method, error)
      const heard = result.then(undefined, failed)
      if (!isPromise(result)) watch(heard, failed)
    } catch (error) {
      this.#failed(method, error)
    }
  }

  #withoutHandler(method, params) {
    if (method === PROGRESS && !this.#shared.isMcp && params !== undefined) return this.#progressed(params)
    if (this.#isOwn(method, params)) return undefined
    if (this.handlers.star !== undefined) return this.handlers.star(method, params)
    this.unhandled?.fire(params === undefined ? { jsonrpc: '2.0', method } : { jsonrpc: '2.0', method, params })
    return undefined
  }

  #failed(method, error) {
    const message = messageOf(error)
    const text = message === undefined ? 'unexpectedly.' : `with message: ${message}`
    this.#shared.logError(`Notification handler '${method}' failed ${text}`)
  }

  #progressed(given) {
    const params = Array.isArray(given) ? { token: given[0], value: given[1] } : given
    const handler = this.progress?.get(params.token)
    return handler ? handler(params.value) : this.unhandledProgress?.fire(params)
  }

  /** Notifications that the connection itself handles: what is to be traced, and MCP's cancels. */
  #isOwn(method, params) {
    const isLog = method === LogTraceNotification.type.method
    if (isLog && params !== undefined) this.#shared.tracing?.log(params.message, params.verbose)
    return isLog || (this.#shared.isMcp && method === MCP_CANCEL)
  }
}

module.exports = { IncomingNotifications, IncomingRequests, PROGRESS, isNeverCancelledIn }
