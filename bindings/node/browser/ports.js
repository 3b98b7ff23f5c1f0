'use strict'
// Messages of a Worker, of a MessagePort, or of the page that started this worker (whose port is `self`), as
// vscode-jsonrpc/browser has them.

const { AbstractMessageReader } = require('../lib/readers')
const { PortMessageWriter } = require('../lib/writers')
const { Disposable } = require('../lib/events')

class BrowserMessageReader extends AbstractMessageReader {
  #port

  constructor(port) {
    super()
    this.#port = port
    port.addEventListener('error', event => this.fireError(event.error ?? event.message ?? event))
    port.addEventListener('messageerror', () => this.fireError(new Error("a message came that can't be read")))
    port.addEventListener('close', () => this.fireClose()) // (of a MessagePort, where the browser tells it)
  }

  listen(callback) {
    const listener = event => callback(event.data)
    this.#port.addEventListener('message', listener)
    this.#port.start?.()
    return Disposable.create(() => this.#port.removeEventListener('message', listener))
  }
}

class BrowserMessageWriter extends PortMessageWriter {
  constructor(port) {
    super({ on: (name, hear) => port.addEventListener(name, hear), postMessage: message => port.postMessage(message) })
  }
}

module.exports = { BrowserMessageReader, BrowserMessageWriter }
