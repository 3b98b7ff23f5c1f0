'use strict'
// What a tool, a resource or a prompt knows of the request that it answers, and what it can ask the host.

const { CancellationTokenSource } = require('../cancellation')
const { elicited, formIn, pageOf } = require('./eliciting')
const { ToolError } = require('./faults')
const { text } = require('./content')
const { checked } = require('./results')
const { quiet } = require('./quiet')
const { turnFault } = require('./sampling')
const { shown } = require('./shown')

const CHOICES = ['auto', 'required', 'none']
const MOST_TOKENS = 1000

/** One request, as the last argument of the function that answers it. */
class Extra {
  #session
  #source = new CancellationTokenSource()
  #controller
  #isOver = false
  #reached
  requestId
  _meta

  constructor(session, id, params, token) {
    this.#session = session
    this.requestId = id
    const meta = params?._meta
    this._meta = typeof meta === 'object' && meta !== null && !Array.isArray(meta) ? meta : {}
    if (token.isCancellationRequested) this.#source.cancel()
    else token.onCancellationRequested(() => this.#source.cancel())
  }

  /** Aborted once the host has cancelled the request, or its time is over. */
  get signal() {
    if (this.#controller === undefined) {
      const controller = this.#controller = new AbortController()
      if (this.#source.token.isCancellationRequested) controller.abort()
      else this.#source.token.onCancellationRequested(() => controller.abort())
    }
    return this.#controller.signal
  }

  get isCancelled() {
    return this.#source.token.isCancellationRequested
  }

  /** The version of the protocol that was agreed on. */
  get protocolVersion() {
    return this.#session.version
  }

  /** Who calls over HTTP, as the check of tokens gave it; undefined if there is none. */
  get user() {
    return this.#session.user
  }

  /** The id of the session over HTTP; undefined without state, and over streams. */
  get sessionId() {
    return this.#session.sessionId
  }

  /** The id of the task that it runs as; undefined if it is none. */
  get taskId() {
    return undefined
  }

  /** The id of the request on whose stream goes what is said (over HTTP). */
  get streamId() {
    return this.requestId
  }

  /** Params of what is said, with what they belong to. */
  marked(params) {
    return params
  }

  /** A capability of the host's, as 'sampling' or 'roots.listChanged'; undefined if it has none. */
  clientHas(path) {
    return this.#session.clientHas(path)
  }

  /** Gives up what the function goes on with. */
  cancel() {
    this.#source.cancel()
  }

  /** The request is answered. */
  end() {
    this.#isOver = true
  }

  // What the host is told

  /** Tells how far it is, if the host asked for that. Progress that doesn't rise isn't told. */
  reportProgress(progress, total, message) {
    const { progressToken } = this._meta
    const isAsked = typeof progressToken === 'string' || Number.isInteger(progressToken)
    if (!isAsked || this.#isOver || this.isCancelled || progress <= this.#reached) return
    this.#reached = progress
    const words = this.#session.version >= '2025-03-26' ? message : undefined
    // (what is undefined has no JSON)
    this.#session.notify('notifications/progress', { progressToken, progress, total, message: words }, this)
  }

  /** Sends the host a log message, if it wants messages of this level. */
  log(level, data, logger) {
    this.#session.log(level, data, logger, this)
  }

  sendNotification({ method, params }) {
    return this.#session.notify(method, params, this)
  }

  // What the host is asked

  /** A request of any method. */
  sendRequest({ method, params }) {
    return this.#session.request(method, params, this.#source.token, this)
  }

  async #ask(capability, method, params) {
    if (this.clientHas(capability) === undefined) throw new ToolError(`the host has no ${capability}`)
    return checked(method, await this.sendRequest({ method, params }))
  }

  /**
   * Asks the host's model; the result is its message. `messages` are a text of the user's, or a list of texts and of
   * objects as the protocol has them. `tools` are names of this server's, or descriptions, that the model may ask for
   * (`toolUses`), and that the next question answers (`toolResult`).
   */
  createMessage(question) {
    return quiet(this.#sample(question))
  }

  async #sample({ messages, maxTokens = MOST_TOKENS, tools, toolChoice, ...more }) {
    const given = typeof messages === 'string' ? [messages] : messages
    const asked = given.map(it => (typeof it === 'string' ? { role: 'user', content: text(it) } : it))
    const fault = turnFault(asked)
    if (fault !== undefined) throw new TypeError(fault)
    /** @type {any} */
    const params = { messages: asked, maxTokens, ...more }
    if (tools !== undefined) params.tools = tools.map(it => (typeof it === 'string' ? this.#session.toolAbout(it) : it))
    if (toolChoice !== undefined) params.toolChoice = choiceOf(toolChoice)
    const usesTools = tools !== undefined || toolChoice !== undefined
    return this.#ask(usesTools ? 'sampling.tools' : 'sampling', 'sampling/createMessage', params)
  }

  /**
   * Asks the host's user: for some values, by `{ message, requestedSchema }`, or to open a page, by
   * `{ mode: 'url', message, url }`. The result has the `action`: 'accept', with the `content`, 'decline' or 'cancel'.
   */
  elicitInput(question) {
    return quiet(this.#elicit(question))
  }

  async #elicit(params) {
    if (params.mode === 'url') return this.#elicitPage(pageOf(params))
    const form = this.clientHas('elicitation')
    if (form !== undefined && Object.keys(Object(form)).length && this.clientHas('elicitation.form') === undefined) {
      throw new ToolError('the host has no elicitation by forms')
    }
    const requestedSchema = formIn(params.requestedSchema, this.protocolVersion)
    const result = await this.#ask('elicitation', 'elicitation/create', { message: params.message, requestedSchema })
    return elicited(result, requestedSchema)
  }

  async #elicitPage(page) {
    const waited = this.#ask('elicitation.url', 'elicitation/create', page)
    this.#session.elicitations.add(page.elicitationId)
    const found = elicited(await waited)
    if (found.action !== 'accept') this.#session.elicitations.delete(page.elicitationId)
    return found
  }

  /** The folders that the host lets the server work in: a list of `{ uri, name }`. */
  listRoots() {
    return quiet(this.#ask('roots', 'roots/list').then(it => it.roots))
  }

  /** The contents of one of the server's own resources. */
  readResource({ uri }) {
    return quiet(this.#session.readResource(uri, this))
  }
}

function choiceOf(given) {
  const mode = typeof given === 'string' ? given : given.mode
  if (mode !== undefined && !CHOICES.includes(mode)) {
    throw new TypeError(`toolChoice is one of ${CHOICES.join(', ')}: ${shown(mode)}`)
  }
  return { mode }
}

module.exports = { Extra }
