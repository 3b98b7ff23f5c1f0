'use strict'
// One session of a server with a host: what they agreed on, and what the host asks for.

const { ErrorCodes, ResponseError } = require('../errors')
const { messageOf } = require('../thrown')
const { LEVELS, VERSIONS, checkLevel, known, present, program } = require('./about')
const { callTool, complete, getPrompt, isForHost, readResource } = require('./calling')
const { isObject } = require('./checks')
const { Extra } = require('./extra')
const { ErrorCode, ToolError, invalidParams } = require('./faults')
const { merged } = require('./merging')
const { MOST_NAME, checkObject, checkTexts, cursorOf, member, placeOf } = require('./params')
const { quiet } = require('./quiet')
const { cut, shown } = require('./shown')
const { Tasks } = require('./tasks')
const { isUri } = require('./templates')

const COMPLETIONS = '2025-03-26'
const TASKS = '2025-11-25'
const BEFORE_INITIALIZE = ['initialize', 'ping']

/** Params as they are passed: none, if there are none. */
const given = params => (params === undefined ? [] : [params])

const unknown = (what, name) => new ResponseError(ErrorCodes.InvalidParams, `Unknown ${what}: ${cut(name, MOST_NAME)}`)

const methodNotFound = text => new ResponseError(ErrorCodes.MethodNotFound, `Method not found: ${text}`)

const invalidRequest = text => new ResponseError(ErrorCodes.InvalidRequest, `Invalid Request: ${text}`)

/** What a server with tools that may be called as tasks answers besides. */
const TASK_METHODS = {
  'tasks/get': ({ tasks }, params) => tasks.found(params).asJson(),
  'tasks/result': ({ tasks }, params, extra) => tasks.found(params).result(extra),
  'tasks/list': (session, params) => session.page(params, 'tasks', session.tasks.all()),
  'tasks/cancel': ({ tasks }, params) => tasks.cancel(params)
}

const METHODS = {
  'initialize': (session, params) => session.initialize(params),
  'ping': () => ({}),
  'tools/list': (session, params) => session.page(params, 'tools', session.server.tools.all()),
  'tools/call': (session, params, extra) => session.callTool(params, extra),
  'resources/list': (session, params) => session.page(params, 'resources', session.resources(false)),
  'resources/templates/list': (session, params) => session.page(params, 'resourceTemplates', session.resources(true)),
  'resources/read': (session, params, extra) => session.read(params, extra),
  'resources/subscribe': (session, params) => session.subscribe(params),
  'resources/unsubscribe': (session, params) => session.unsubscribe(params),
  'prompts/list': (session, params) => session.page(params, 'prompts', session.server.prompts.all()),
  'prompts/get': (session, params, extra) => session.getPrompt(params, extra),
  'completion/complete': (session, params) => session.complete(params),
  'logging/setLevel': (session, params) => session.setLevel(params)
}

class Session {
  server
  version = VERSIONS[0]
  /** The pages that its user was asked to open, by their ids. */
  elicitations = new Set()
  subscribed = new Set()
  /** Its tasks, if the host was told that it may have some. */
  tasks
  #connection
  #logger
  #isBegun = false // `initialize` is answered
  #isReady = false // and the host has said so
  #params = {} // of `initialize`
  #level = 'info'
  #id
  /** Settled once it has ended, if its end isn't that of the process. */
  ended

  /** Who calls, as a check of tokens gave it, and the id of a session over HTTP. */
  user
  sessionId
  #link
  #isStateless

  /** Over HTTP there is a link, which brings each message to its stream. */
  constructor(server, logger, link, { user = undefined, isStateless = false, version = undefined } = {}) {
    this.server = server
    this.#logger = logger
    this.#link = link
    this.user = user
    this.#isStateless = isStateless
    if (version === undefined) return
    this.#isBegun = true // (without state a request needs no `initialize`)
    this.version = version
  }

  /** Speaks over a connection, whose messages go through handleMessage. */
  attach(connection) {
    this.#connection = connection
    connection.onRequest((method, params, token) => this.#answer(method, params, token))
    connection.onNotification((method, params) => this.#hear(method, params))
  }

  handleMessage(message, next) {
    this.#id = message.id
    next(message)
  }

  stop() {
    this.#connection.stop(0)
  }

  /** What was asked is answered, or never will be. */
  end() {
    this.tasks?.end()
  }

  /** What a request is answered: it begins at once, so that its id is the last one that came. */
  async #answer(method, params, token) {
    const extra = new Extra(this, this.#id, params, token)
    try {
      if (!this.#isBegun && !BEFORE_INITIALIZE.includes(method)) {
        throw invalidRequest('initialize has to come first')
      }
      if (Object.hasOwn(METHODS, method)) return await METHODS[method](this, params, extra)
      if (this.tasks !== undefined && Object.hasOwn(TASK_METHODS, method)) {
        return await TASK_METHODS[method](this, params, extra)
      }
      const handler = this.server.handlers.get(method)
      if (handler !== undefined) return await handler({ method, params }, extra)
      throw methodNotFound(cut(method, MOST_NAME))
    } catch (error) {
      if (!this.hidesErrors || isForHost(error)) throw error
      this.logError(`${cut(method, MOST_NAME)} threw ${messageOf(error) ?? 'something'}`)
      throw new ResponseError(ErrorCodes.InternalError, 'Internal error')
    } finally {
      extra.end()
      if (token.isCancellationRequested) this.#link?.unanswered(extra.requestId)
    }
  }

  #hear(method, params) {
    if (!this.#isBegun) return undefined
    if (method === 'notifications/initialized') this.#isReady = true
    return this.server.listeners.get(method)?.({ method, params })
  }

  /** Whether the texts of the program's own errors stay here: over HTTP the host may be anybody's. */
  get hidesErrors() {
    return this.#link !== undefined
  }

  /** A capability of the host's; undefined where it has none. */
  clientHas(path) {
    let value = this.#params.capabilities
    for (const name of path.split('.')) value = isObject(value) && Object.hasOwn(value, name) ? value[name] : undefined
    return value ?? undefined
  }

  // What the host is told and asked

  /** What belongs to a request has its `extra`, so that it goes out on the request's stream. */
  notify(method, params, extra) {
    const all = extra === undefined ? params : extra.marked(params)
    return this.#send(method, extra, () => this.#connection.sendNotification(method, ...given(all)))
  }

  request(method, params, token, extra) {
    if (this.#isStateless) return Promise.reject(new ToolError(`a stateless server can't ask its client: ${method}`))
    return this.#send(method, extra, () => this.#connection.sendRequest(method, ...given(extra.marked(params)), token))
  }

  #send(method, extra, act) {
    const isOff = this.#link?.owes(method, extra && this.#link.exchangeOf(extra.streamId))
    const sent = new Promise(resolve => resolve(act()))
    if (isOff) sent.catch(isOff)
    return quiet(sent)
  }

  log(level, data, logger, extra) {
    checkLevel(level)
    if (!this.#isBegun || LEVELS.indexOf(level) < LEVELS.indexOf(this.#level)) return
    this.notify('notifications/message', { level, logger, data }, extra)
  }

  listChanged(what) {
    if (this.#isReady) this.notify(`notifications/${what}/list_changed`)
  }

  logError(text) {
    this.#logger.error(text)
  }

  // The protocol's life

  initialize(params) {
    if (this.#isBegun) throw invalidRequest('initialize has come already')
    const wanted = member(params, 'protocolVersion', 'string')
    for (const it of ['capabilities', 'clientInfo']) member(params, it, 'object')
    const { versions, about, instructions } = this.server
    this.#params = params
    this.version = versions.includes(wanted) ? wanted : versions[0]
    this.#isBegun = true
    if (this.#mayHaveTasks()) this.tasks = new Tasks(this, this.server.taskTtl)
    return present({
      protocolVersion: this.version, capabilities: this.#capabilities(), serverInfo: program(about, this.version),
      instructions
    })
  }

  #capabilities() {
    const { resources, prompts, hasCompletions, capabilities } = this.server
    // (without state nothing can be told later)
    const changes = this.#isStateless ? {} : { listChanged: true }
    const made = { logging: {}, tools: changes }
    if (!resources.isEmpty) made.resources = this.#isStateless ? {} : { subscribe: true, listChanged: true }
    if (!prompts.isEmpty) made.prompts = changes
    if (hasCompletions && this.version >= COMPLETIONS) made.completions = {}
    if (this.tasks !== undefined) made.tasks = { list: {}, cancel: {}, requests: { tools: { call: {} } } }
    return merged(made, capabilities)
  }

  #mayHaveTasks() {
    const { tools } = this.server
    return !this.#isStateless && this.version >= TASKS && tools.all().some(it => it.taskSupport !== 'forbidden')
  }

  get clientVersion() {
    return this.#params.clientInfo
  }

  setLevel(params) {
    const level = member(params, 'level', 'string')
    if (!LEVELS.includes(level)) throw invalidParams(`level must be one of ${LEVELS.join(', ')}`)
    this.#level = level
    return {}
  }

  // What hosts ask for

  /** One page of a list, with the members that the version has. */
  page(params, name, items) {
    checkObject(params)
    const { pageSize = items.length } = this.server
    const place = placeOf(params, items.length)
    const end = Math.min(place + pageSize, items.length)
    const made = { [name]: items.slice(place, end).map(it => known(it.about, this.version)) }
    return end < items.length ? { ...made, nextCursor: cursorOf(end) } : made
  }

  callTool(params, extra) {
    const name = member(params, 'name', 'string')
    const given = member(params, 'arguments', 'object', false) ?? {}
    const tool = this.server.tools.get(name)
    if (tool === undefined) throw unknown('tool', name)
    const run = of => callTool(tool, given, of, this)
    return this.#isTask(params, tool) ? this.tasks.start(params, extra, run) : run(extra)
  }

  /** Whether a call is one of a task. Throws where the tool can't be called so. */
  #isTask(params, { name, taskSupport }) {
    if (this.tasks === undefined) return false // (then `task` says nothing)
    const isTask = member(params, 'task', 'object', false) !== undefined
    if (isTask && taskSupport === 'forbidden') throw methodNotFound(`${name} can't be called as a task`)
    if (!isTask && taskSupport === 'required') throw methodNotFound(`${name} can be called as a task only`)
    return isTask
  }

  /** What a tool is, as the version has it. */
  toolAbout(name) {
    const tool = this.server.tools.get(name)
    if (tool === undefined) throw new TypeError(`there is no tool '${name}'`)
    return known(tool.about, this.version)
  }

  resources(areTemplates) {
    return this.server.resources.all().filter(it => (it.template !== undefined) === areTemplates)
  }

  /** The resource of a URI, and the parts of it that its function gets. */
  #found(uri) {
    const exact = this.server.resources.get(uri)
    if (exact !== undefined && exact.template === undefined) return { resource: exact }
    for (const resource of this.resources(true)) {
      const parts = isUri(uri) ? resource.template.partsOf(uri) : undefined
      if (parts !== undefined) return { resource, parts }
    }
    throw new ResponseError(ErrorCode.ResourceNotFound, 'Resource not found', { uri })
  }

  read(params, extra) {
    return this.#read(member(params, 'uri', 'string'), extra)
  }

  async readResource(uri, extra) {
    return (await this.#read(uri, extra)).contents
  }

  #read(uri, extra) {
    const { resource, parts } = this.#found(uri)
    return readResource(resource, uri, parts, extra)
  }

  subscribe(params) {
    const uri = member(params, 'uri', 'string')
    this.#found(uri)
    this.subscribed.add(uri)
    return {}
  }

  unsubscribe(params) {
    this.subscribed.delete(member(params, 'uri', 'string'))
    return {}
  }

  getPrompt(params, extra) {
    const name = member(params, 'name', 'string')
    const given = member(params, 'arguments', 'object', false) ?? {}
    const prompt = this.server.prompts.get(name)
    if (prompt === undefined) throw unknown('prompt', name)
    checkTexts(given, 'arguments')
    return getPrompt(prompt, given, extra, this.version)
  }

  complete(params) {
    const ref = member(params, 'ref', 'object')
    const argument = member(params, 'argument', 'object')
    const completions = this.#completionsOf(ref)
    const value = member(argument, 'value', 'string')
    const callback = completions.get(member(argument, 'name', 'string'))
    const context = member(params, 'context', 'object', false) ?? {}
    const others = member(context, 'arguments', 'object', false) ?? {}
    checkTexts(others, 'context.arguments')
    return complete(callback ?? (() => []), value, others)
  }

  #completionsOf(ref) {
    const type = member(ref, 'type', 'string')
    if (type !== 'ref/prompt' && type !== 'ref/resource') {
      throw invalidParams(`there is no reference of type ${shown(cut(type, 60))}`)
    }
    const { prompts, resources } = this.server
    const name = member(ref, type === 'ref/prompt' ? 'name' : 'uri', 'string')
    const found = (type === 'ref/prompt' ? prompts : resources).get(name)
    if (found !== undefined) return found.completions
    throw invalidParams(`there is nothing to complete of the name ${shown(cut(name, MOST_NAME))}`)
  }
}

module.exports = { Session }
