'use strict'
// A server's connection with the names of vscode-languageserver, over a MessageConnection.

const { Emitter } = require('../events')
const { ErrorCodes, ResponseError } = require('../errors')
const { createMessageConnection } = require('../message_connection')
const { responseOf } = require('../thrown')
const { Trace } = require('../trace').words
const { Life } = require('./life')
const { Dispatch } = require('./dispatch')
const { Remote, remoteConsole, Tracer } = require('./remote')
const { Progresses } = require('./progress')
const { Client } = require('./registering')
const { windowOf, Workspace } = require('./workspace')
const { Untold } = require('./untold')
const { METHODS } = require('./specification')

const NONE = 0 // (TextDocumentSyncKind.None)
const isThenable = it => it !== null && typeof it === 'object' && typeof it.then === 'function'

/** Puts a value at a path, as 'languages.hover.on', of an object. */
function put(into, path, value) {
  const names = path.split('.')
  const last = names.pop()
  let group = into
  for (const name of names) group = group[name] ??= {}
  group[last] = value
}

/** Calls `act` when what was given is there, at once if it is no promise. */
const then = (given, act) => (isThenable(given) ? given.then(act) : act(given))

/** What a server does in each part of its life, around the handlers that the program has for it. */
class Session {
  /** @type {Record<string, any>} */
  handlers = {}
  sync = NONE // that of documents that are kept by TextDocuments
  /** Fired with the params of `initialize`, once it is answered; and with the status, once the client says `exit`. */
  began = new Emitter()
  exited = new Emitter()
  #parts

  constructor(parts) {
    this.#parts = parts
    const { dispatch } = parts
    dispatch.onRequest('initialize', (params, token) => this.#initialize(params, token), true)
    dispatch.onNotification('initialized', params => this.#initialized(params), true)
    dispatch.onRequest('shutdown', (...given) => this.#shutdown(given.at(-1)), true)
    dispatch.onNotification('exit', () => this.#exit(), true)
    dispatch.onNotification('$/setTrace', ({ value }) => { parts.tracer.level = Trace.fromString(value) }, true)
    dispatch.onNotification('window/workDoneProgress/cancel', it => parts.progresses.cancelled(it), true)
  }

  #initialize(params, token) {
    const { life, tracer, progresses } = this.#parts
    life.begin(params)
    if (typeof params.trace === 'string') tracer.level = Trace.fromString(params.trace)
    const call = withReporters((...given) => this.handlers.initialize?.(...given), progresses)
    const failed = error => {
      life.failed()
      throw error
    }
    try {
      const told = call(params, token)
      return isThenable(told) ? told.then(it => this.#begun(it, params)).then(undefined, failed) : this.#begun(told, params)
    } catch (error) {
      return failed(error)
    }
  }

  /** What `initialize` is answered: what the program says, with what it left to us. */
  #begun(told, params) {
    const { life } = this.#parts
    const error = responseOf(told)
    if (error !== undefined) throw new ResponseError(error.code, error.message, error.data)
    const result = told ?? {}
    const given = result.capabilities ?? {}
    if (typeof result !== 'object' || typeof given !== 'object' || Array.isArray(given)) {
      throw new ResponseError(ErrorCodes.InternalError, 'onInitialize has to give an object with capabilities')
    }
    const capabilities = { ...given }
    const sync = given.textDocumentSync
    if (sync === undefined || sync === null) capabilities.textDocumentSync = this.sync
    else if (typeof sync === 'object' && typeof sync.change !== 'number') {
      capabilities.textDocumentSync = { ...sync, change: this.sync }
    }
    this.#checkEncoding(capabilities.positionEncoding)
    life.began(capabilities)
    this.began.fire(params)
    return { ...result, capabilities }
  }

  #checkEncoding(encoding) {
    const { life } = this.#parts
    const offered = life.clientCapabilities.general?.positionEncodings ?? ['utf-16']
    if (encoding === undefined || encoding === 'utf-16' || offered.includes(encoding)) return
    const text = `onInitialize tells the position encoding ${encoding}, which the client didn't offer`
    throw new ResponseError(ErrorCodes.InternalError, text)
  }

  #initialized(params) {
    const { workspace, untold } = this.#parts
    return then(this.handlers.initialized?.(params ?? {}), () => {
      workspace.ask()
      untold.begin()
    })
  }

  #shutdown(token) {
    this.#parts.life.shut()
    return then(this.handlers.shutdown?.(token), () => null)
  }

  async #exit() {
    try {
      await this.handlers.exit?.()
    } finally {
      this.exited.fire(this.status)
    }
  }

  get status() {
    return this.#parts.life.isShut ? 0 : 1
  }
}

/** The parts of a connection, each of which knows those before it. */
function partsOf(peer, life, remote, isChecked) {
  const log = text => remote.say('error', text)
  const dispatch = new Dispatch(peer, life, log, isChecked)
  const progresses = new Progresses(remote, life)
  const client = new Client(remote)
  const workspace = new Workspace(remote, life, client, dispatch)
  const untold = new Untold(life, dispatch, client, text => remote.say('warn', text))
  return { life, remote, dispatch, progresses, client, workspace, untold, tracer: new Tracer(remote) }
}

/** A handler of a request as vscode-languageserver has it: params, token, progress, and parts of the result. */
function withReporters(handler, progresses) {
  return (...given) => {
    const token = given.pop()
    const { workDoneToken, partialResultToken } = given[0] ?? {}
    const reporter = progresses.attach(workDoneToken)
    const parts = progresses.parts(partialResultToken)
    if (workDoneToken === undefined && parts === undefined) return handler(given[0], token, reporter, undefined)
    const params = { ...given[0] }
    delete params.workDoneToken
    delete params.partialResultToken
    const end = () => {
      reporter.close?.()
      parts?.close()
    }
    return new Promise(resolve => resolve(handler(params, token, reporter, parts))).finally(end)
  }
}

/** What TextDocuments passes along with its handlers, of which no capability needs to tell. */
const OPTIONAL = Symbol('optional')

/** The members that LSP's methods have: handlers of what is sent to a server, and refreshes. */
function addMethods(connection, { dispatch, progresses, remote }) {
  const register = (kind, method) => (handler, mark) => {
    if (typeof handler !== 'function') throw new TypeError('a handler has to be a function')
    const isOptional = mark === OPTIONAL
    if (kind === 'notification') return dispatch.onNotification(method, handler, isOptional)
    return dispatch.onRequest(method, withReporters(handler, progresses), isOptional)
  }
  for (const [method, { to, kind, member }] of METHODS) {
    if (member === undefined) continue
    put(connection, member, to === 'client' ? () => remote.ask(method) : register(kind, method))
  }
}

/** The handlers of a session's own life, by their methods. A second one takes the place of the first. */
const LIFE = { initialize: 'onInitialize', initialized: 'onInitialized', shutdown: 'onShutdown', exit: 'onExit' }

function addLife(connection, session) {
  for (const [method, member] of Object.entries(LIFE)) {
    connection[member] = handler => {
      if (typeof handler !== 'function') throw new TypeError('a handler has to be a function')
      session.handlers[method] = handler
      return { dispose: () => { if (session.handlers[method] === handler) delete session.handlers[method] } }
    }
  }
}

/** Registers a handler by a type or a name; those of the life keep what is done around them. */
function registering(connection, register) {
  return (type, handler) => {
    const own = typeof type === 'function' ? undefined : LIFE[typeof type === 'string' ? type : type.method]
    return own === undefined ? register(type, handler) : connection[own](handler)
  }
}

/** @param {any} input @param {any} output @param {any} options */
function serverConnection(input, output, options) {
  const life = new Life()
  const logger = Object.fromEntries(['error', 'warn', 'info', 'log'].map(it => [it, text => remote.say(it, text)]))
  const peer = createMessageConnection(input, output, logger, options)
  const remote = new Remote(peer, life)
  const parts = partsOf(peer, life, remote, options?.checks !== false)
  const session = new Session(parts)
  const { dispatch, workspace } = parts
  /** @type {any} */
  const connection = {
    listen: () => peer.listen(),
    dispose: () => peer.dispose(),
    sendRequest: peer.sendRequest,
    sendNotification: peer.sendNotification,
    sendProgress: peer.sendProgress,
    onProgress: peer.onProgress,
    console: remoteConsole(remote),
    tracer: { log: parts.tracer.log },
    telemetry: { logEvent: data => { remote.notify('telemetry/event', data) } },
    client: { register: parts.client.register },
    window: windowOf(remote, parts.progresses),
    workspace, languages: {}, notebooks: {},
    sendDiagnostics: params => remote.notify('textDocument/publishDiagnostics', params),
    get positionEncoding() { return life.positionEncoding },
    get __textDocumentSync() { return session.sync },
    set __textDocumentSync(kind) { session.sync = kind }
  }
  addLife(connection, session)
  addMethods(connection, parts)
  connection.onRequest = registering(connection, (type, handler) => dispatch.onRequest(type, handler))
  connection.onNotification = registering(connection, (type, handler) => dispatch.onNotification(type, handler))
  return { connection, peer, session }
}

module.exports = { serverConnection, OPTIONAL }
