'use strict'
// Readers of messages, as vscode-jsonrpc has them. From a StreamMessageReader a connection takes the stream, and reads
// it by itself; of all others it takes whole messages.

const { Emitter, Disposable } = require('./events')
const { errorOf } = require('./thrown')

class AbstractMessageReader {
  #onError = new Emitter()
  #onClose = new Emitter()

  get onError() { return this.#onError.event }
  get onClose() { return this.#onClose.event }
  get onPartialMessage() { return () => Disposable.create(() => {}) }

  fireError(error) {
    this.#onError.fire(errorOf(error, 'Reader received error'))
  }

  fireClose() {
    this.#onClose.fire(undefined)
  }

  dispose() {
    this.#onError.dispose()
    this.#onClose.dispose()
  }
}

/** Contents of frames, for who listens to a reader without a connection. It knows what a Content-Length is, no more. */
class Frames {
  #rest

  constructor() {
    this.#rest = Buffer.alloc(0)
  }

  * contents(piece) {
    this.#rest = this.#rest.length ? Buffer.concat([this.#rest, piece]) : piece
    for (;;) {
      const end = this.#rest.indexOf('\r\n\r\n')
      if (end < 0) return
      const length = /^content-length:\s*([0-9]+)\s*$/im.exec(this.#rest.toString('latin1', 0, end))
      if (length === null) throw new Error('Header must provide a Content-Length property.')
      const over = end + 4 + Number(length[1])
      if (this.#rest.length < over) return
      const content = this.#rest.subarray(end + 4, over)
      this.#rest = this.#rest.subarray(over)
      yield content
    }
  }
}

function refuseDecoders(options) {
  if (typeof options !== 'object' || options === null) return
  const has = ['contentDecoder', 'contentDecoders', 'contentTypeDecoder', 'contentTypeDecoders', 'contentEncoder',
    'contentTypeEncoder'].find(it => options[it] !== undefined)
  if (has) throw new TypeError(`bullmyrtle has no ${has}: contents are UTF-8, as LSP has them`)
}

class ReadableStreamMessageReader extends AbstractMessageReader {
  constructor(stream, options) {
    super()
    refuseDecoders(options)
    this.stream = stream
  }

  listen(callback) {
    const frames = new Frames()
    const onData = piece => {
      try {
        for (const it of frames.contents(Buffer.from(piece))) callback(JSON.parse(it.toString()))
      } catch (error) {
        this.fireError(error)
      }
    }
    const listeners = { data: onData, error: error => this.fireError(error), close: () => this.fireClose() }
    for (const [name, it] of Object.entries(listeners)) this.stream.on(name, it)
    return Disposable.create(() => {
      for (const [name, it] of Object.entries(listeners)) this.stream.off(name, it)
    })
  }
}

class StreamMessageReader extends ReadableStreamMessageReader {}
class SocketMessageReader extends ReadableStreamMessageReader {}

/** Messages of another process that was started by fork(), or that started this one. */
class IPCMessageReader extends AbstractMessageReader {
  #process

  constructor(process) {
    super()
    this.#process = process
    process.on('error', error => this.fireError(error))
    process.on('close', () => this.fireClose())
    process.on('disconnect', () => this.fireClose())
  }

  listen(callback) {
    this.#process.on('message', callback)
    return Disposable.create(() => this.#process.off('message', callback))
  }
}

/** Messages of a port of worker_threads. */
class PortMessageReader extends AbstractMessageReader {
  #port

  constructor(port) {
    super()
    this.#port = port
    port.on('messageerror', error => this.fireError(error))
    port.on('close', () => this.fireClose())
    port.on('exit', () => this.fireClose()) // (of a Worker)
  }

  listen(callback) {
    this.#port.on('message', callback)
    this.#port.start?.()
    return Disposable.create(() => this.#port.off('message', callback))
  }
}

/** Messages of an object like WebSocket: with addEventListener, or with on, as that of the package ws. */
class WebSocketMessageReader extends AbstractMessageReader {
  #socket

  constructor(socket) {
    super()
    this.#socket = socket
    this.#on('error', event => this.fireError(event?.error ?? event))
    this.#on('close', () => this.fireClose())
  }

  #on(name, listener) {
    if (typeof this.#socket.addEventListener === 'function') this.#socket.addEventListener(name, listener)
    else this.#socket.on(name, listener)
  }

  /** Calls with each message's bytes. */
  listenBytes(callback) {
    this.#on('message', event => {
      const data = event?.data ?? event
      if (typeof data === 'string') callback(Buffer.from(data))
      else if (Array.isArray(data)) callback(Buffer.concat(data))
      else if (data instanceof ArrayBuffer) callback(Buffer.from(data))
      else if (ArrayBuffer.isView(data)) callback(Buffer.from(data.buffer, data.byteOffset, data.byteLength))
      else this.fireError(new TypeError('a message has to be a text or bytes: set binaryType to arraybuffer'))
    })
    return Disposable.create(() => {})
  }

  listen(callback) {
    return this.listenBytes(bytes => callback(JSON.parse(bytes.toString())))
  }
}

const MessageReader = {
  is: it => !!it && ['listen', 'dispose', 'onError', 'onClose'].every(name => typeof it[name] === 'function')
}

module.exports = {
  MessageReader, AbstractMessageReader, ReadableStreamMessageReader, StreamMessageReader, SocketMessageReader,
  IPCMessageReader, PortMessageReader, WebSocketMessageReader, refuseDecoders
}
