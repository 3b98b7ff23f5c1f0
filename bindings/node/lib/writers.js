'use strict'
// Writers of messages, as vscode-jsonrpc has them. Of a StreamMessageWriter a connection takes the stream, and writes
// to it by itself; to all others it gives whole messages.

const { Emitter } = require('./events')
const { errorOf } = require('./thrown')
const { refuseDecoders } = require('./readers')

class AbstractMessageWriter {
  #onError = new Emitter()
  #onClose = new Emitter()

  get onError() { return this.#onError.event }
  get onClose() { return this.#onClose.event }

  fireError(error, message, count) {
    this.#onError.fire([errorOf(error, 'Writer received error'), message, count])
  }

  fireClose() {
    this.#onClose.fire(undefined)
  }

  end() {}

  dispose() {
    this.#onError.dispose()
    this.#onClose.dispose()
  }
}

class WriteableStreamMessageWriter extends AbstractMessageWriter {
  constructor(stream, options) {
    super()
    refuseDecoders(options)
    this.stream = stream
  }

  /** (for who writes without a connection) */
  write(message) {
    const content = Buffer.from(JSON.stringify(message))
    const head = Buffer.from(`Content-Length: ${content.length}\r\n\r\n`)
    return new Promise((resolve, reject) => {
      this.stream.write(Buffer.concat([head, content]), error => (error ? reject(error) : resolve()))
    })
  }

  end() {
    this.stream.end()
  }
}

class StreamMessageWriter extends WriteableStreamMessageWriter {}

class SocketMessageWriter extends WriteableStreamMessageWriter {
  dispose() {
    super.dispose()
    this.stream.destroy()
  }
}

class IPCMessageWriter extends AbstractMessageWriter {
  #process
  #errors = 0

  constructor(process) {
    super()
    this.#process = process
    process.on('error', error => this.fireError(error))
    process.on('close', () => this.fireClose())
  }

  write(message) {
    return new Promise((resolve, reject) => {
      const done = error => {
        if (!error) return resolve()
        this.fireError(error, message, ++this.#errors)
        reject(error)
      }
      try {
        this.#process.send(message, undefined, undefined, done)
      } catch (error) {
        done(error)
      }
    })
  }
}

class PortMessageWriter extends AbstractMessageWriter {
  #port

  constructor(port) {
    super()
    this.#port = port
    port.on('close', () => this.fireClose())
    port.on('exit', () => this.fireClose())
  }

  write(message) {
    try {
      this.#port.postMessage(message)
      return Promise.resolve()
    } catch (error) {
      this.fireError(error, message, 1)
      return Promise.reject(error)
    }
  }
}

class WebSocketMessageWriter extends AbstractMessageWriter {
  #socket

  constructor(socket) {
    super()
    this.#socket = socket
  }

  writeText(text) {
    try {
      this.#socket.send(text)
      return Promise.resolve()
    } catch (error) {
      this.fireError(error, undefined, 1)
      return Promise.reject(error)
    }
  }

  write(message) {
    return this.writeText(JSON.stringify(message))
  }

  end() {
    this.#socket.close()
  }
}

const MessageWriter = {
  is: it => !!it && typeof it.dispose === 'function' && typeof it.write === 'function'
    && typeof it.onError === 'function' && typeof it.onClose === 'function'
}

module.exports = {
  MessageWriter, AbstractMessageWriter, WriteableStreamMessageWriter, StreamMessageWriter, SocketMessageWriter,
  IPCMessageWriter, PortMessageWriter, WebSocketMessageWriter
}
