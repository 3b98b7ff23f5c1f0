'use strict'
// Two message connections in plain JavaScript, to measure beside: a lean loop, and one put together in the layers in
// which vscode-jsonrpc 8 is (from memory: the package isn't to be had here, and wasn't run). Both lack what a real one
// has besides: they answer no broken input, and no batch by an array.

const { CancellationToken, CancellationTokenSource, ErrorCodes, ResponseError } = require('..')

/** Bytes in the pieces in which they came. */
class MessageBuffer {
  #pieces = []
  #total = 0

  append(piece) {
    this.#pieces.push(piece)
    this.#total += piece.length
  }

  headers() {
    let state = 0
    let before = 0
    for (const piece of this.#pieces) {
      for (let at = 0; at < piece.length; at++) {
        const byte = piece[at]
        if (byte === 13) state = state === 0 ? 1 : state === 2 ? 3 : 0
        else if (byte === 10) state = state === 1 ? 2 : state === 3 ? 4 : 0
        else state = 0
        if (state === 4) return this.#parsed(before + at + 1)
      }
      before += piece.length
    }
    return undefined
  }

  #parsed(length) {
    const found = new Map()
    for (const line of this.take(length).toString('ascii').split('\r\n')) {
      const at = line.indexOf(':')
      if (at >= 0) found.set(line.slice(0, at).toLowerCase(), line.slice(at + 1).trim())
    }
    return found
  }

  body(length) {
    return this.#total < length ? undefined : this.take(length)
  }

  take(length) {
    this.#total -= length
    const [first] = this.#pieces
    if (first.length === length) return this.#pieces.shift()
    if (first.length > length) {
      this.#pieces[0] = first.subarray(length)
      return first.subarray(0, length)
    }
    const whole = Buffer.allocUnsafe(length)
    for (let at = 0; at < length;) {
      const piece = this.#pieces[0]
      const count = Math.min(piece.length, length - at)
      whole.set(piece.subarray(0, count), at)
      at += count
      if (count === piece.length) this.#pieces.shift()
      else this.#pieces[0] = piece.subarray(count)
    }
    return whole
  }
}

/** Lets one at a time through, each in a turn of its own. */
class Semaphore {
  #isTaken = false
  #waiting = []

  lock(act) {
    return new Promise((resolve, reject) => {
      this.#waiting.push({ act, resolve, reject })
      this.#next()
    })
  }

  #next() {
    if (this.#waiting.length && !this.#isTaken) setImmediate(() => this.#run())
  }

  async #run() {
    if (this.#waiting.length === 0 || this.#isTaken) return
    const { act, resolve, reject } = this.#waiting.shift()
    this.#isTaken = true
    try {
      resolve(await act())
    } catch (error) {
      reject(error)
    } finally {
      this.#isTaken = false
      this.#next()
    }
  }
}

function listen(stream, handle) {
  const buffer = new MessageBuffer()
  let length
  stream.on('data', piece => {
    buffer.append(piece)
    for (;;) {
      if (length === undefined) {
        const headers = buffer.headers()
        if (headers === undefined) return
        length = Number(headers.get('content-length'))
      }
      const body = buffer.body(length)
      if (body === undefined) return
      length = undefined
      handle(body)
    }
  })
}

/** Calls and handlers, the same for both. */
class Connection {
  #write
  #requests = new Map()
  #notifications = new Map()
  #calls = new Map()
  #tokens = new Map()
  #id = 0
  listen = () => {} // (how it reads is not its matter)

  constructor(write) {
    this.#write = write
  }

  onRequest(method, handler) { this.#requests.set(method, handler) }
  onNotification(method, handler) { this.#notifications.set(method, handler) }

  sendRequest(method, ...args) {
    const token = CancellationToken.is(args.at(-1)) ? args.pop() : undefined
    const id = this.#id++
    token?.onCancellationRequested(() => this.sendNotification('$/cancelRequest', { id }))
    return new Promise((resolve, reject) => {
      this.#calls.set(id, { resolve, reject })
      this.#write({ jsonrpc: '2.0', id, method, params: args[0] })
    })
  }

  sendNotification(method, params) {
    return this.#write({ jsonrpc: '2.0', method, params })
  }

  handle(message) {
    if (Array.isArray(message)) message.forEach(it => this.handle(it))
    else if (message.method === undefined) this.#replied(message)
    else if (message.id === undefined) this.#notified(message)
    else this.#request(message)
  }

  #replied({ id, result, error }) {
    const call = this.#calls.get(id)
    this.#calls.delete(id)
    if (error) call?.reject(new ResponseError(error.code, error.message, error.data))
    else call?.resolve(result)
  }

  #notified({ method, params }) {
    if (method === '$/cancelRequest') return this.#tokens.get(params.id)?.cancel()
    this.#notifications.get(method)?.(params)
  }

  #request({ id, method, params }) {
    const handler = this.#requests.get(method)
    if (handler === undefined) {
      return this.#fail(id, new ResponseError(ErrorCodes.MethodNotFound, `Unhandled method ${method}`))
    }
    const source = new CancellationTokenSource()
    this.#tokens.set(id, source)
    try {
      const result = params === undefined ? handler(source.token) : handler(params, source.token)
      if (typeof result?.then !== 'function') return this.#answer(id, result)
      result.then(it => this.#answer(id, it), error => this.#fail(id, error))
    } catch (error) {
      this.#fail(id, error)
    }
  }

  #answer(id, result) {
    this.#tokens.delete(id)
    this.#write({ jsonrpc: '2.0', id, result: result === undefined ? null : result })
  }

  #fail(id, error) {
    this.#tokens.delete(id)
    const it = error instanceof ResponseError ? error : new ResponseError(ErrorCodes.InternalError, error.message)
    this.#write({ jsonrpc: '2.0', id, error: it.toJson() })
  }
}

/** Each message is handled as soon as it is read, and what is said in a turn goes out by one write. */
function createLean(input, output) {
  let texts = ''
  const connection = new Connection(message => {
    const body = JSON.stringify(message)
    if (texts === '') process.nextTick(() => { output.write(texts, 'utf8'); texts = '' })
    texts += `Content-Length: ${Buffer.byteLength(body)}\r\n\r\n${body}`
    return Promise.resolve()
  })
  connection.listen = () => listen(input, body => connection.handle(JSON.parse(body.toString('utf8'))))
  return connection
}

/** Messages pass a semaphore on either way, and wait in a queue of which each turn handles one. */
function createLayered(input, output) {
  const [reading, writing] = [new Semaphore(), new Semaphore()]
  const put = (data, encoding) => new Promise((resolve, reject) => {
    output.write(data, encoding, error => (error ? reject(error) : resolve()))
  })
  const connection = new Connection(message => writing.lock(async () => {
    const body = await Promise.resolve(Buffer.from(JSON.stringify(message), 'utf8'))
    await put(['Content-Length: ', body.byteLength.toString(), '\r\n', '\r\n'].join(''), 'ascii')
    return put(body)
  }))
  const queue = new Map()
  let count = 0
  let isTriggered = false
  const trigger = () => {
    if (isTriggered || queue.size === 0) return
    isTriggered = true
    setImmediate(() => {
      isTriggered = false
      const [[key, message]] = queue
      queue.delete(key)
      connection.handle(message)
      trigger()
    })
  }
  connection.listen = () => listen(input, body => reading.lock(async () => {
    const message = await Promise.resolve(JSON.parse(body.toString('utf8')))
    const kind = message.method === undefined ? 'res' : message.id === undefined ? 'not' : 'req'
    queue.set(`${kind}-${message.id ?? ++count}`, message)
    trigger()
  }))
  return connection
}

module.exports = { createLean, createLayered }
