'use strict'
// createMessageConnection, as vscode-jsonrpc has it, over a proved connection. An event is *received* by the wire, and
// the turns say when it is *handled*.

const net = require('node:net')
const { TOLD, HOWS, SAY } = require('./native')
const { countsOf, brokenOf } = require('./connection')
const { Emitter, Disposable } = require('./events')
const { CancellationStrategy } = require('./cancellation')
const { ErrorCodes } = require('./errors')
const { print, watch } = require('./thrown')
const { NullLogger, ConnectionStrategy } = require('./messages')
const { IncomingNotifications, IncomingRequests, PROGRESS, isNeverCancelledIn } = require('./incoming')
const { Outgoing } = require('./outgoing')
const { refusal } = require('./calls')
const { TEXTS } = require('./refused')
const { Tracing, inspectorsTracer, Trace, TraceFormat, SetTraceNotification } = require('./trace')
const { ReadableStreamMessageReader, StreamMessageReader } = require('./readers')
const { WriteableStreamMessageWriter, StreamMessageWriter } = require('./writers')
const { StreamOutput, MessageOutput } = require('./outputs')
const { Life } = require('./life')
const { Listening } = require('./listening')
const { Wire } = require('./wire')
const { Turns } = require('./turns')
const { settingsOf } = require('./settings')

const NO_JSON = 'the result, or the data of the error, is no JSON of at most 120 levels, or has half a surrogate pair'

/** What works without its connection before it, as in `const { sendRequest } = connection`. */
const BOUND = [
  'sendRequest', 'sendNotification', 'sendBatch', 'sendProgress', 'onRequest', 'onNotification', 'onProgress', 'trace',
  'listen', 'end', 'dispose', 'drained', 'settled', 'stop', 'hasPendingResponse', 'inspect'
]

class MessageConnection {
  #shared // what its parts have in common
  #wire
  #turns
  #listening
  #life = new Life()
  #requests
  #notifications
  #outgoing
  #messages // how each message is handled, if not at once
  #logger
  #errors
  #closes
  #disposes
  #broken
  status

  constructor(from, to, logger, options) {
    const isBytes = from instanceof ReadableStreamMessageReader
    if (isBytes !== to instanceof WriteableStreamMessageWriter) {
      throw new TypeError('a reader of a stream needs a writer of a stream, and one of messages one of messages')
    }
    const settings = settingsOf(options, isBytes)
    const isMcp = options.protocol === 'mcp'
    const { receiver, sender } = options.cancellationStrategy ?? CancellationStrategy.Message
    this.#logger = logger ?? NullLogger
    this.#messages = options.messageStrategy
    const shared = this.#shared = {
      said: undefined, writing: undefined, turns: undefined, tracing: undefined, isDisposed: false, isMcp,
      isNeverCancelled: isNeverCancelledIn(isMcp), logError: text => this.#logError(text),
      report: (error, message, count) => this.#errors?.fire([error, message, count]), tryTo: act => this.#tryTo(act)
    }
    this.#requests = new IncomingRequests(shared, receiver, options.connectionStrategy)
    this.#notifications = new IncomingNotifications(shared)
    this.#outgoing = new Outgoing(shared, sender, this)
    const output = isBytes ? new StreamOutput(to.stream) : new MessageOutput(to, shared.report)
    settings.wantsIds = !!(options.connectionStrategy || this.#messages) || !this.#requests.hasOwnTokens
    const { said, writing } = this.#wire = new Wire(settings, output, this)
    Object.assign(shared, { said, writing })
    const isSocket = isBytes && from.stream.constructor === net.Socket
    this.#turns = shared.turns = new Turns(this, isSocket)
    this.#listening = new Listening(from, to, this.#heard(isSocket))
    for (const it of BOUND) this[it] = this[it].bind(this)
    if (options.trace === undefined) return
    this.trace(Trace.Verbose, inspectorsTracer(options.trace), { traceFormat: TraceFormat.JSON })
  }

  /** What hears of the input and of the output. */
  #heard(isSocket) {
    const { receiving } = this.#wire
    const turns = this.#turns
    const { report } = this.#shared
    return {
      report,
      bytes: piece => {
        if (isSocket) turns.piece()
        receiving.feed(piece)
      },
      end: () => receiving.end(false),
      closed: error => this.#outputClosed(error),
      failed: (error, tell) => {
        if (!receiving.hasEnded) this.#life.failed(error)
        report(error)
        tell()
        receiving.end(true)
      }
    }
  }

  // What is received: called by the wire

  received(kind, flags, number, code, name, body, id) {
    if (kind === TOLD.cancelled) return this.#tryTo(() => this.#requests.cancelled(number))
    if (kind === TOLD.over) this.#life.place = this.#wire.receiving.faultPlace()
    this.#turns.received(kind, flags, number, code, name, body, id)
  }

  #tryTo(act) {
    try {
      act()
    } catch (error) { // (of a strategy)
      this.#shared.report(error)
    }
  }

  fault(why) {
    const error = new Error(`the connection can't go on: ${refusal(why).message}`)
    this.#life.failed(error)
    this.#shared.report(error)
    this.#wire.receiving.end(true)
  }

  refused(kind, number, why) {
    const fail = text => this.#wire.said.fail(number, ErrorCodes.InternalError, text)
    if (kind === SAY.withdraw) return // (it was too late)
    if (why === 'NotJson') fail(NO_JSON)
    else if (why !== 'NoMemory') this.#logError(`what was said of call ${number} was refused: ${why}`)
    else if (kind === SAY.answer) fail(TEXTS.NoMemory) // (which needs less)
    else this.#wire.receiving.retry(() => {
      if (kind === SAY.close) this.#wire.said.close(number)
      else if (kind === SAY.cancel) this.#wire.said.cancel(number)
      else fail(TEXTS.NoMemory)
    })
  }

  stalled(milliseconds) {
    const seconds = milliseconds / 1000
    const text = `nothing of the output was taken for ${seconds} seconds: ${this.#wire.pending} bytes wait`
    this.#shared.report(new Error(text))
  }

  outputFailed(error) {
    this.#shared.report(error)
    this.#outputClosed(error)
  }

  pause() { this.#listening.pause() }
  resume() { this.#listening.resume() }

  // When it is handled: called by the turns

  together(act) {
    this.#wire.receiving.together(act)
  }

  handle(kind, flags, number, code, name, body, id) {
    try {
      if (kind === TOLD.call) this.#handleCall(number, flags === 1, name, body, id)
      else if (kind === TOLD.replied) this.#outgoing.replied(number, flags === 1, code, name, body)
      else if (kind === TOLD.unanswered) this.#outgoing.unanswered(number)
      else if (kind === TOLD.broken) this.#broken?.fire(brokenOf(number, flags, code, name, id))
      else this.#over(HOWS[flags])
    } catch (error) { // (of a strategy; what handlers throw is an answer)
      this.#shared.report(error)
    }
  }

  #handleCall(number, isRequest, method, params, id) {
    if (!isRequest) this.#wire.said.close(number)
    if (this.#messages !== undefined) return this.#handleByStrategy(number, isRequest, method, params, id)
    if (isRequest) this.#requests.begin(number, method, params, id)
    else this.#notifications.handle(method, params)
  }

  #handleByStrategy(number, isRequest, method, params, id) {
    const message = { jsonrpc: '2.0', method }
    if (isRequest) message.id = JSON.parse(id)
    if (params !== undefined) message.params = params
    let hasBegun = false
    const failed = error => {
      if (!isRequest || hasBegun) return this.#shared.report(error)
      this.#requests.threw(number, { method, id, started: 0 }, error)
    }
    try {
      watch(this.#messages.handleMessage(message, it => {
        hasBegun = true
        if (isRequest) this.#requests.begin(number, it.method, it.params, id)
        else this.#notifications.handle(it.method, it.params)
      }), failed)
    } catch (error) {
      failed(error)
    }
  }

  // Sending

  sendRequest(type, ...args) {
    this.#life.checkListening()
    return this.#outgoing.request(type, args)
  }

  sendNotification(type, ...args) {
    this.#life.checkUsable()
    return this.#outgoing.notification(type, args)
  }

  /** Beyond vscode-jsonrpc: calls several times in one message. The calls are [method, ..arguments]. */
  sendBatch(calls, { settled = false } = {}) {
    this.#life.checkListening()
    return this.#outgoing.batch(calls, settled)
  }

  sendProgress(_type, token, value) {
    return this.sendNotification(PROGRESS, { token, value })
  }

  // Handlers

  onRequest(type, handler) {
    this.#life.checkUsable()
    return this.#requests.handlers.register(type, handler)
  }

  onNotification(type, handler) {
    this.#life.checkUsable()
    return this.#notifications.handlers.register(type, handler)
  }

  onProgress(_type, token, handler) {
    const progress = this.#notifications.progress ??= new Map()
    if (progress.has(token)) throw new Error(`Progress handler for token ${token} already registered`)
    progress.set(token, handler)
    return Disposable.create(() => progress.delete(token))
  }

  get onError() { return (this.#errors ??= new Emitter()).event }
  get onClose() { return (this.#closes ??= new Emitter()).event }
  /** Beyond vscode-jsonrpc: messages that can't be read, or that are neither a call nor a reply. */
  get onBroken() { return (this.#broken ??= new Emitter()).event }
  get onDispose() { return (this.#disposes ??= new Emitter()).event }
  get onUnhandledNotification() { return (this.#notifications.unhandled ??= new Emitter()).event }
  get onUnhandledProgress() { return (this.#notifications.unhandledProgress ??= new Emitter()).event }

  hasPendingResponse() {
    return this.#outgoing.count > 0
  }

  async trace(value, tracer, options) {
    const { sendNotification = options === true, traceFormat = TraceFormat.Text } = Object(options)
    const tracing = new Tracing()
    tracing.set(value, tracer, traceFormat)
    this.#shared.tracing = tracing.isOn ? tracing : undefined
    if (tracing.isOn) this.#wire.receiving.wantIds()
    if (!sendNotification || this.#life.isOver) return
    await this.sendNotification(SetTraceNotification.type, { value: Trace.toString(value) })
  }

  // The life of a connection

  listen() {
    this.#life.listen()
    this.#listening.begin()
  }

  #outputClosed(error) {
    this.#wire.writing.gone()
    if (!this.#wire.receiving.hasEnded) this.#over('OutputClosed', error)
  }

  /** Beyond vscode-jsonrpc: the input is over for us, though the other side may go on. */
  stop(status) {
    this.status = status
    this.#life.stop()
    this.#listening.pause()
    this.#wire.receiving.end(false)
  }

  #over(how, error) {
    const reason = this.#life.end(how, error, this.#shared.report)
    if (reason === undefined) return
    this.#outgoing.rejectAll('the input is over')
    this.#closes?.fire(reason)
  }

  /** Why it ended, once it has. */
  get reason() {
    return this.#life.reason
  }

  /** Beyond vscode-jsonrpc: settled once all that was said so far is out. */
  drained() {
    return this.#wire.writing.drained()
  }

  /** Whether messages wait for their immediates. */
  get isBusy() {
    return this.#turns.isBusy
  }

  /** How many requests' handlers go on, and calls wait for theirs to begin. */
  get open() {
    return this.#requests.open
  }

  /** Settled once none are open. */
  settled() {
    return this.#requests.settled()
  }

  lookWhetherIdle() {
    this.#requests.lookWhetherIdle()
  }

  /** How many bytes wait, beyond those that the stream has. */
  get pending() {
    return this.#wire.pending
  }

  /** What has happened, as Connection.counts has it. */
  counts() {
    return countsOf(this.#wire.counts)
  }

  /** Answers as cancelled the requests whose handlers still go on, and gives their methods. */
  cancelOpen() {
    return this.#requests.cancelOpen()
  }

  end() {
    this.#wire.writing.force()
    this.#listening.end()
  }

  inspect() {
    console.error(this)
  }

  dispose() {
    if (!this.#life.dispose()) return
    this.#shared.isDisposed = true
    this.#wire.free()
    this.#outgoing.rejectAll('connection got disposed')
    this.#listening.detach()
    this.#requests.clear()
    this.#turns.clear()
    this.lookWhetherIdle()
    this.#disposes?.fire(undefined)
    this.#listening.dispose()
  }

  #logError(text) {
    try {
      watch(this.#logger.error(text))
    } catch (error) {
      print(error)
    }
  }
}

function createMessageConnection(input, output, logger, options = {}) {
  if (typeof input?.listen !== 'function' && typeof input?.on !== 'function') {
    throw new TypeError('an input has to be a stream or a reader')
  }
  if (typeof output?.write !== 'function') throw new TypeError('an output has to be a stream or a writer')
  const from = typeof input?.listen === 'function' ? input : new StreamMessageReader(input)
  const isWriter = typeof output?.dispose === 'function' || typeof output?.on !== 'function'
  const to = isWriter ? output : new StreamMessageWriter(output)
  const given = ConnectionStrategy.is(options) ? { connectionStrategy: options } : options
  return new MessageConnection(from, to, logger, given ?? {})
}

module.exports = { createMessageConnection, MessageConnection }
