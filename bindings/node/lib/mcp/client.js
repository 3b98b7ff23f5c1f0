'use strict'
// A host's side of the Model Context Protocol: it starts a tool server, calls its tools, and answers what it asks.

const { CancellationTokenSource } = require('../cancellation')
const { createMessageConnection } = require('../message_connection')
const { print, watch } = require('../thrown')
const { VERSIONS, checkLevel, program, programOf } = require('./about')
const { Asked } = require('./asked')
const { isObject } = require('./checks')
const { InvalidResult, UnknownVersion } = require('./faults')
const { quiet } = require('./quiet')
const { checked } = require('./results')
const { OVER } = require('./tasks')
const { cut, shown } = require('./shown')

/** A list has at most so many pages: a server that always names another cursor would never let the call end. */
const MOST_PAGES = 1000

class ToolClient {
  #about
  #versions
  #asked
  #options
  #connection
  #transport
  #server
  #progress = new Map()
  #tokens = 0
  #ofTasks = new Map() // the tokens of progress, by the ids of tasks
  #listeners = new Map()
  /** The version of the protocol that was agreed on. */
  protocolVersion
  /** Called when the session has ended, with the reason. */
  onclose
  /** Called with errors of the streams. */
  onerror

  /**
   * Makes a host, of what the server is told of it.
   * @param {import('../../types/mcp').ServerInfo} about @param {import('../../types/mcp').ClientOptions} options
   */
  constructor(about, options = {}) {
    const { versions = VERSIONS, sampling, samplingTools, elicitation, page, pageDone, roots, log, ...others } = options
    if (!versions.length) throw new RangeError('there is no version to speak')
    this.#versions = [...versions]
    this.#about = program(programOf(about), this.#versions[0])
    this.#asked = new Asked({ sampling, samplingTools, elicitation, page, roots }, this.#versions[0])
    this.#options = others
    this.setNotificationHandler('notifications/progress', ({ params }) => this.#progressed(params))
    if (log) this.setNotificationHandler('notifications/message', ({ params }) => log(params))
    if (pageDone) this.setNotificationHandler('notifications/elicitation/complete', ({ params }) => {
      if (typeof params?.elicitationId === 'string') return pageDone(params.elicitationId)
    })
  }

  // The life of a session

  /**
   * Starts a session over a transport: `StdioClientTransport`, one of memory, or any `{ input, output }` of streams.
   * Rejects with an UnknownVersion if the server wants a version that isn't known here.
   */
  async connect(transport) {
    if (this.#connection !== undefined) throw new Error('a client has one server in its life: make another one')
    await transport.start?.()
    const { logger, ...options } = this.#options
    this.#transport = transport
    const { input, output } = transport
    const connection = createMessageConnection(input, output, logger, { ...options, protocol: 'mcp' })
    this.#connection = connection
    connection.onRequest((method, params) => this.#asked.answer(method, params))
    connection.onNotification((method, params) => this.#listeners.get(method)?.({ method, params }))
    connection.onClose(reason => this.onclose?.(reason))
    connection.onError(([error]) => this.onerror?.(error))
    connection.listen()
    try {
      await this.#initialize()
    } catch (error) {
      await this.close()
      throw error
    }
  }

  async #initialize() {
    const [protocolVersion] = this.#versions
    const { capabilities } = this.#asked
    const result = await this.#result('initialize', { protocolVersion, capabilities, clientInfo: this.#about })
    if (!this.#versions.includes(result.protocolVersion)) {
      throw new UnknownVersion(`the server speaks version ${shown(cut(result.protocolVersion, 100))}`)
    }
    this.#server = result
    this.protocolVersion = result.protocolVersion
    this.#notify('notifications/initialized')
  }

  /** Ends the session, and the server that the transport started. */
  async close() {
    const connection = this.#connection
    if (connection === undefined || connection.reason?.how === 'Disposed') return
    await connection.drained()
    connection.end()
    await this.#transport.close?.()
    connection.dispose()
  }

  getServerCapabilities() {
    return this.#server?.capabilities
  }

  getServerVersion() {
    return this.#server?.serverInfo
  }

  getInstructions() {
    return this.#server?.instructions ?? undefined
  }

  // What the server is asked

  /**
   * The result of a request of any method; an `AbortSignal` cancels it.
   * @param {{ method: string, params?: any }} request @param {import('../../types/mcp').RequestOptions} options
   */
  async request({ method, params }, { signal } = {}) {
    signal?.throwIfAborted()
    const source = new CancellationTokenSource()
    const cancel = () => source.cancel()
    signal?.addEventListener('abort', cancel, { once: true })
    try {
      return await this.#connected.sendRequest(method, ...(params === undefined ? [] : [params]), source.token)
    } catch (error) {
      throw signal?.aborted ? signal.reason : error
    } finally {
      signal?.removeEventListener('abort', cancel)
    }
  }

  get #connected() {
    if (this.#connection === undefined) throw new Error('connect the client first')
    return this.#connection
  }

  /** The result of a request. Rejects with an InvalidResult, with the place, if it isn't one of the method's. */
  async #result(method, params, options) {
    return checked(method, await this.request({ method, params }, options))
  }

  /** All items of a list, page by page. */
  async #all(method, name, options) {
    const items = []
    const seen = new Set()
    let cursor
    for (let count = 0; count < MOST_PAGES; count++) {
      const page = await this.#result(method, cursor === undefined ? undefined : { cursor }, options)
      items.push(...page[name])
      cursor = page.nextCursor ?? undefined
      if (cursor === undefined) return { [name]: items }
      if (seen.has(cursor)) {
        const again = shown(cut(cursor, 100))
        throw new InvalidResult(`${method}: result.nextCursor comes again, so the pages go round: ${again}`)
      }
      seen.add(cursor)
    }
    throw new InvalidResult(`${method}: there are more than 1,000 pages, so they may never end`)
  }

  /** All tools, of all pages. */
  listTools(options) {
    return this.#all('tools/list', 'tools', options)
  }

  /** All resources, of all pages. */
  listResources(options) {
    return this.#all('resources/list', 'resources', options)
  }

  /** All templates of resources, of all pages. */
  listResourceTemplates(options) {
    return this.#all('resources/templates/list', 'resourceTemplates', options)
  }

  /** All prompts, of all pages. */
  listPrompts(options) {
    return this.#all('prompts/list', 'prompts', options)
  }

  /**
   * Calls a tool. `onprogress` is told how far it is: `progress`, `total` and `message`, the latter two if known. With
   * a `task` the server answers at once, by `{ task }`, and getTaskResult(..) waits for what the tool gives.
   * @param {{ name: string, arguments?: object }} call
   * @param {import('../../types/mcp').CallOptions & { task?: any }} options
   * @returns {Promise<any>}
   */
  async callTool({ name, arguments: given = {} }, { signal, onprogress, task } = {}) {
    /** @type {any} */
    const params = { name, arguments: given, ...(task && { task }) }
    const token = onprogress === undefined ? undefined : ++this.#tokens
    if (token !== undefined) {
      this.#progress.set(token, onprogress)
      params._meta = { progressToken: token }
    }
    let isOver = true
    try {
      const result = await this.request({ method: 'tools/call', params }, { signal })
      if (!task) return called('tools/call', result)
      const begun = checked('tools/call as a task', result)
      isOver = token === undefined
      if (!isOver) this.#ofTasks.set(begun.task.taskId, token) // (its progress goes on behind the answer)
      return begun
    } finally {
      if (isOver) this.#progress.delete(token)
    }
  }

  /** How a task is. */
  async getTask(taskId, options) {
    return this.#seen(await this.#result('tasks/get', { taskId }, options))
  }

  /** Waits for what the tool of a task gives. Rejects with the error of one that was cancelled. */
  async getTaskResult(taskId, options) {
    const result = called('tasks/result', await this.request({ method: 'tasks/result', params: { taskId } }, options))
    this.#endTask(taskId)
    return result
  }

  /** What the server says of a task, which has no progress any more if it is over. */
  #seen(task) {
    if (OVER.includes(task.status)) this.#endTask(task.taskId)
    return task
  }

  #endTask(taskId) {
    this.#progress.delete(this.#ofTasks.get(taskId))
    this.#ofTasks.delete(taskId)
  }

  /** All tasks of this session that the server keeps, of all pages. */
  listTasks(options) {
    return this.#all('tasks/list', 'tasks', options)
  }

  /** Cancels a task. Rejects if it is over. */
  async cancelTask(taskId, options) {
    return this.#seen(await this.#result('tasks/cancel', { taskId }, options))
  }

  readResource({ uri }, options) {
    return this.#result('resources/read', { uri }, options)
  }

  /** Has the server tell by `notifications/resources/updated` when a resource changes. */
  subscribeResource({ uri }, options) {
    return this.#result('resources/subscribe', { uri }, options)
  }

  unsubscribeResource({ uri }, options) {
    return this.#result('resources/unsubscribe', { uri }, options)
  }

  getPrompt({ name, arguments: given = {} }, options) {
    return this.#result('prompts/get', { name, arguments: given }, options)
  }

  /** What an argument of a prompt or of a resource may be: its `completion` has `values`, `total` and `hasMore`. */
  complete({ ref, argument, context }, options) {
    return this.#result('completion/complete', context ? { ref, argument, context } : { ref, argument }, options)
  }

  /** Has the server send log messages of this level and of more urgent ones. */
  async setLoggingLevel(level, options) {
    checkLevel(level)
    return this.#result('logging/setLevel', { level }, options)
  }

  ping(options) {
    return this.#result('ping', undefined, options)
  }

  // What the server is told, and tells

  /** Sends a notification. */
  sendNotification({ method, params }) {
    return this.#notify(method, params)
  }

  #notify(method, params) {
    return quiet(new Promise(resolve => {
      resolve(this.#connected.sendNotification(method, ...(params === undefined ? [] : [params])))
    }))
  }

  /** Tells the server that the folders have changed, and which they are now. */
  sendRootsListChanged(roots) {
    if (roots !== undefined) this.#asked.roots = roots
    return this.#notify('notifications/roots/list_changed')
  }

  /** Has a function get the server's notifications of a method. */
  setNotificationHandler(method, handler) {
    if (typeof handler !== 'function') throw new TypeError(`${method} needs a function, got ${typeof handler}`)
    this.#listeners.set(method, handler)
  }

  #progressed(params) {
    const tell = isObject(params) ? this.#progress.get(params.progressToken) : undefined
    const { progress, total, message } = Object(params)
    try {
      watch(tell?.({ progress, total, message }))
    } catch (error) {
      print(error)
    }
  }
}

/** What a tool gave. */
function called(method, given) {
  const result = checked(method, given)
  return { ...result, content: result.content ?? [] }
}

module.exports = { ToolClient }
