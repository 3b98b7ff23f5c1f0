'use strict'
// A tool server, as the Model Context Protocol has it: tools, resources and prompts, over the proved connection.

const { createMessageConnection } = require('../message_connection')
const { finish, run } = require('../run')
const { VERSIONS, checkToolName, checkLevel, iconsOf, present, programOf } = require('./about')
const { LOCAL } = require('./http/head')
const { Http } = require('./http/handler')
const { settingsOf: httpSettings } = require('./http/settings')
const { Registry } = require('./registry')
const { Session } = require('./session')
const { shown } = require('./shown')
const { schemaOf } = require('./standard')
const { checkTtl, taskSupportOf } = require('./tasks')
const { Template, isUri } = require('./templates')
const { StdioServerTransport } = require('./transports')

const GRACE = 5_000
const TASK_TTL = 3_600_000

/** The URI of a resource with parts, and what completes these. */
class ResourceTemplate {
  uriTemplate
  completions

  /** @param {string} uriTemplate @param {{ complete?: object, list?: any }} options */
  constructor(uriTemplate, { complete = {}, list } = {}) {
    if (list !== undefined) throw new TypeError('templates list nothing: register each resource that is to be listed')
    this.uriTemplate = uriTemplate
    this.completions = new Map(Object.entries(complete))
  }
}

function checkFunction(it, what) {
  if (typeof it !== 'function') throw new TypeError(`${what} needs a function, got ${typeof it}`)
}

function versionsOf(given) {
  const odd = given.find(it => !VERSIONS.includes(it))
  if (odd === undefined && given.length) return [...given]
  throw new RangeError(`the versions are ${VERSIONS.join(', ')}, got ${shown(given)}`)
}

class ToolServer {
  /** What the sessions see of it. */
  #shared
  #options
  #sessions = new Set()

  /**
   * Makes one, without tools yet.
   * @param {import('../../types/mcp').ServerInfo} about @param {import('../../types/mcp').ServerOptions} options
   */
  constructor(about, options = {}) {
    const {
      versions = VERSIONS, pageSize, instructions, capabilities, logger = console, taskTtl = TASK_TTL, ...others
    } = options
    if (pageSize !== undefined && !(Number.isInteger(pageSize) && pageSize > 0)) {
      throw new RangeError(`a page has one item at least, got ${shown(pageSize)}`)
    }
    const registry = (noun, what) => new Registry(noun, () => this.#eachSession(it => it.listChanged(what)))
    this.#shared = {
      about: programOf(about), versions: versionsOf(versions), pageSize, instructions, capabilities,
      tools: registry('tool', 'tools'), resources: registry('resource', 'resources'),
      prompts: registry('prompt', 'prompts'),
      taskTtl: checkTtl(taskTtl), hasCompletions: false, handlers: new Map(), listeners: new Map()
    }
    this.#options = { logger, ...others }
  }

  #eachSession(act) {
    for (const it of this.#sessions) act(it)
  }

  // Tools, resources and prompts

  /** Registers a function as a tool. It gets the arguments, if there is an `inputSchema`, and `extra`. */
  registerTool(name, config, callback) {
    checkToolName(name)
    return this.#shared.tools.add(name, { ...config, callback }, it => toolOf(name, it))
  }

  /** Registers a function as the resource of a URI, or of all URIs of a template. */
  registerResource(name, uriOrTemplate, config, callback) {
    const isTemplate = uriOrTemplate instanceof ResourceTemplate
    const uri = isTemplate ? uriOrTemplate.uriTemplate : uriOrTemplate
    const completions = isTemplate ? uriOrTemplate.completions : new Map()
    this.#shared.hasCompletions ||= completions.size > 0
    return this.#shared.resources.add(uri, { ...config, callback }, it => resourceOf(name, uri, it, completions))
  }

  /** Registers a function as a prompt. It gets the arguments, if there is an `argsSchema`, and `extra`. */
  registerPrompt(name, config, callback) {
    return this.#shared.prompts.add(name, { ...config, callback }, it => {
      const made = promptOf(name, it)
      this.#shared.hasCompletions ||= made.completions.size > 0
      return made
    })
  }

  // Sessions

  /** Answers a host over a transport: `StdioServerTransport`, one of memory, or any `{ input, output }` of streams. */
  async connect(transport) {
    await transport.start?.()
    const { session, connection } = this.#begun(transport)
    const { grace = GRACE } = this.#options
    if (transport instanceof StdioServerTransport && transport.isOfProcess) return run(connection, { grace })
    this.#listen(session, connection, transport)
  }

  #begun({ input, output }, link, about) {
    const { logger, grace, ...options } = this.#options
    const session = new Session(this.#shared, logger, link, about)
    const own = { protocol: 'mcp', messageStrategy: session }
    const connection = createMessageConnection(input, output, logger, { ...options, ...own })
    session.attach(connection)
    this.#sessions.add(session)
    connection.onClose(() => this.#sessions.delete(session))
    return { session, connection }
  }

  #listen(session, connection, transport) {
    const finished = () => this.#finish(session, connection, transport)
    session.ended = new Promise(resolve => connection.onClose(() => resolve(finished())))
    connection.listen()
  }

  /**
   * A handler of requests over HTTP, `(request, response)` of node:http, which frameworks take too: MCP's Streamable
   * HTTP. `close()` of it ends its sessions.
   * @param {import('../../types/mcp').HttpOptions} options
   */
  http(options = {}) {
    const begun = (posts, about) => {
      const { session, connection } = this.#begun(posts, posts, about)
      posts.attach(connection)
      connection.onClose(() => posts.end())
      this.#listen(session, connection, {})
      return session
    }
    const { logger, content } = this.#options
    const http = new Http(httpSettings(options), { begun, versions: this.#shared.versions, logger, content })
    const handler = (request, response) => http.handle(request, response)
    handler.close = () => http.close()
    return Object.defineProperty(handler, 'sessions', { get: () => http.sessions })
  }

  /**
   * Serves over HTTP at the path /mcp of a port, and gives the URL once it listens. On this machine only its own names
   * are answered, so that no page of another site leads here.
   * @param {number} port @param {import('../../types/mcp').HttpOptions & { host?: string }} options
   */
  async runHttp(port, { host = '127.0.0.1', ...options } = {}) {
    const isLocal = LOCAL.includes(host) || host === '::1'
    if (!isLocal && options.bearer === undefined) {
      const { logger } = /** @type {any} */ (this.#options)
      logger.warn?.('the server can be reached from other machines, and asks for no token')
    }
    const handler = this.http({ path: '/mcp', hosts: isLocal ? LOCAL : undefined, ...options })
    const server = require('node:http').createServer(handler) // (which servers on standard streams don't load)
    await new Promise((resolve, reject) => server.once('error', reject).listen(port, host, () => resolve(undefined)))
    const close = async () => {
      server.close()
      await handler.close()
      server.closeAllConnections()
    }
    /** @type {any} */
    const { port: found, family, address } = server.address()
    return { url: `http://${family === 'IPv6' ? `[${address}]` : address}:${found}/mcp`, close }
  }

  async #finish(session, connection, transport) {
    const { logger, grace = GRACE } = this.#options
    await finish(connection, grace, text => logger.error(text))
    session.end()
    connection.end()
    connection.dispose()
    await transport.close?.()
  }

  /** Answers on the standard streams, and ends the process when they are closed. */
  run() {
    this.connect(new StdioServerTransport())
  }

  /** Ends all sessions: what was asked before is answered, if it is done in time. */
  async close() {
    const all = [...this.#sessions]
    for (const it of all) it.stop()
    await Promise.all(all.map(it => it.ended))
  }

  isConnected() {
    return this.#sessions.size > 0
  }

  // What hosts are told

  sendToolListChanged() {
    this.#eachSession(it => it.listChanged('tools'))
  }

  sendResourceListChanged() {
    this.#eachSession(it => it.listChanged('resources'))
  }

  sendPromptListChanged() {
    this.#eachSession(it => it.listChanged('prompts'))
  }

  /** Tells the hosts that have subscribed to a resource that it has changed. */
  sendResourceUpdated({ uri }) {
    this.#eachSession(it => { if (it.subscribed.has(uri)) it.notify('notifications/resources/updated', { uri }) })
  }

  /** Sends all hosts a log message, if they want messages of this level. */
  sendLoggingMessage({ level, logger, data }) {
    checkLevel(level)
    this.#eachSession(it => it.log(level, data, logger))
  }

  /** Tells the host whose user was asked to open a page that this is done. */
  sendElicitationComplete({ elicitationId }) {
    this.#eachSession(it => {
      if (it.elicitations.delete(elicitationId)) it.notify('notifications/elicitation/complete', { elicitationId })
    })
  }

  /** Sends all hosts a notification. */
  sendNotification({ method, params }) {
    this.#eachSession(it => it.notify(method, params))
  }

  // Methods of the program's own

  setRequestHandler(method, handler) {
    checkFunction(handler, method)
    this.#shared.handlers.set(method, handler)
  }

  setNotificationHandler(method, handler) {
    checkFunction(handler, method)
    this.#shared.listeners.set(method, handler)
  }
}

const META = it => ({ title: it.title, description: it.description, icons: iconsOf(it.icons), _meta: it._meta })

function toolOf(name, config) {
  const { inputSchema, inputSchemaJson, outputSchema, outputSchemaJson, annotations, timeout, callback } = config
  checkFunction(callback, `the tool '${name}'`)
  const input = schemaOf(inputSchema, 'inputSchema', { jsonSchema: inputSchemaJson, side: 'input' })
  const ofOutput = { jsonSchema: outputSchemaJson, side: 'output' }
  const output = outputSchema === undefined ? undefined : schemaOf(outputSchema, 'outputSchema', ofOutput)
  const taskSupport = taskSupportOf(config.execution)
  const about = present({
    name, ...META(config), inputSchema: input.json, outputSchema: output?.json, annotations,
    execution: taskSupport === 'forbidden' ? undefined : { taskSupport }
  })
  return { name, about, input, output, callback, timeout, taskSupport, takesArguments: inputSchema !== undefined }
}

function resourceOf(name, uri, config, completions) {
  checkFunction(config.callback, `the resource '${name}'`)
  if (typeof uri !== 'string') throw new TypeError(`the URI must be a string, got ${shown(uri)}`)
  const template = new Template(uri)
  const isTemplate = template.names.length > 0
  if (!isTemplate && !isUri(uri)) throw new TypeError(`'${uri}' isn't a URI: one begins with a scheme, as 'notes:'`)
  for (const it of completions.keys()) {
    if (!template.names.includes(it)) throw new TypeError(`the URI '${uri}' has no part '${it}' to complete`)
  }
  const { mimeType, annotations, size } = config
  const of = { [isTemplate ? 'uriTemplate' : 'uri']: uri, name }
  const about = present({ ...of, ...META(config), mimeType, annotations, size })
  return { about, template: isTemplate ? template : undefined, callback: config.callback, completions }
}

function promptOf(name, config) {
  const { argsSchema, argsSchemaJson, callback } = config
  checkFunction(callback, `the prompt '${name}'`)
  const input = schemaOf(argsSchema, 'argsSchema', { jsonSchema: argsSchemaJson, side: 'input' })
  const required = input.json.required ?? []
  const args = Object.entries(input.json.properties ?? {}).map(([argument, { title, description }]) => (
    present({ name: argument, title, description, required: required.includes(argument) })
  ))
  const about = present({ name, ...META(config), arguments: args.length ? args : undefined })
  return { about, input, callback, takesArguments: argsSchema !== undefined, completions: input.completions }
}

module.exports = { ResourceTemplate, ToolServer }
