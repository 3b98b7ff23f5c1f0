'use strict'
// The life of one session with a client: from `initialize` to `exit`, and what may come when.

const { ErrorCodes, ResponseError } = require('../errors')

const NEW = 'new'
const STARTING = 'starting'
const RUNNING = 'running'
const SHUT = 'shut down'

const refused = (code, text) => new ResponseError(code, text)

class Life {
  #state = NEW
  /** @type {any} */
  clientCapabilities = {}
  /** @type {any} */
  capabilities = {}
  positionEncoding = 'utf-16'

  get isRunning() { return this.#state === RUNNING }
  get isShut() { return this.#state === SHUT }

  /** The error that answers a request which may not come now. */
  refusalOf(method) {
    if (this.#state === SHUT) return refused(ErrorCodes.InvalidRequest, 'Invalid Request: the server is shut down')
    if (method === 'initialize') {
      return this.#state === NEW ? undefined : refused(ErrorCodes.InvalidRequest, 'Invalid Request: initialize came twice')
    }
    if (this.#state === RUNNING) return undefined
    return refused(ErrorCodes.ServerNotInitialized, 'Server not initialized: initialize has to be answered first')
  }

  /** Whether a notification counts now; one that comes at another time is dropped. */
  takes(method) {
    return this.#state === RUNNING || method === 'exit'
  }

  begin(params) {
    this.#state = STARTING
    this.clientCapabilities = params.capabilities ?? {}
  }

  /** `initialize` failed, and may come again. */
  failed() {
    if (this.#state === STARTING) this.#state = NEW
  }

  began(capabilities) {
    this.#state = RUNNING
    this.capabilities = capabilities
    this.positionEncoding = capabilities.positionEncoding ?? 'utf-16'
  }

  shut() {
    this.#state = SHUT
  }
}

/** A member of a member, as 'window.workDoneProgress'. */
const at = (value, path) => path.split('.').reduce((it, name) => it?.[name], value)

module.exports = { Life, at }
