'use strict'
// Sessions in memory of a language server and a client that says what a test has it say.

const { PassThrough } = require('node:stream')
const { bullmyrtle, turns } = require('./helping')
const lsp = require('../lib/lsp/index.js')

const URI = 'file:///a.txt'
const place = (line, character) => ({ line, character })
const at = (line, character) => ({ textDocument: { uri: URI }, position: place(line, character) })

/** A client of a server. What the client is sent is kept in `heard`, and `calls` answers what it is asked. */
class Client {
  heard = []
  calls = { 'client/registerCapability': () => null, 'client/unregisterCapability': () => null }

  constructor(connection) {
    this.connection = connection
    connection.onNotification((method, params) => { this.heard.push([method, params]) })
    connection.onNotification('$/logTrace', params => { this.heard.push(['$/logTrace', params]) }) // (which a star doesn't get)
    connection.onUnhandledProgress(params => { this.heard.push(['$/progress', params]) })
    connection.onRequest((method, params) => {
      this.heard.push([method, params])
      if (this.calls[method] === undefined) throw new bullmyrtle.ResponseError(-32601, `the client has no ${method}`)
      return this.calls[method](params)
    })
  }

  ask(method, params) {
    return params === undefined ? this.connection.sendRequest(method) : this.connection.sendRequest(method, params)
  }

  tell(method, params) {
    return params === undefined ? this.connection.sendNotification(method) : this.connection.sendNotification(method, params)
  }

  /** What it heard of a method. */
  of(method) {
    return this.heard.filter(it => it[0] === method).map(it => it[1])
  }

  /** What was logged, without the kind. */
  get logged() {
    return this.of('window/logMessage').map(it => it.message)
  }

  async begin(capabilities = {}, more = {}) {
    const result = await this.ask('initialize', { processId: null, rootUri: null, capabilities, ...more })
    this.tell('initialized', {})
    await turns()
    return result
  }

  open(text, languageId = 'plaintext') {
    return this.tell('textDocument/didOpen', { textDocument: { uri: URI, languageId, version: 1, text } })
  }
}

/** A server that `register` has made of a connection, and its client. */
function joined(register, { options, listens = true } = {}) {
  const up = new PassThrough()
  const down = new PassThrough()
  const server = lsp.createConnection(up, down, options)
  register(server)
  server.listen()
  const connection = bullmyrtle.createMessageConnection(down, up)
  const client = new Client(connection)
  if (listens) connection.listen()
  const dispose = () => {
    connection.dispose()
    server.dispose()
  }
  return { server, client, dispose, up, down }
}

/** Runs a whole session: what `act` gives is given back. */
async function inSession(register, act, given = {}) {
  const both = joined(server => {
    if (given.initialize !== false) server.onInitialize(() => given.result ?? { capabilities: given.capabilities ?? {} })
    register(server)
  }, given)
  try {
    return await act(both.client, both.server, both)
  } finally {
    both.dispose()
  }
}

module.exports = { lsp, URI, place, at, joined, inSession }
