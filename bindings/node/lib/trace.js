'use strict'
// What is told of messages to a tracer, as vscode-jsonrpc has it: in words, or as inspectors of LSP read it.

const { NotificationType } = require('./signatures')
const { print, watch } = require('./thrown')

const Trace = {
  Off: 0,
  Messages: 1,
  Compact: 2,
  Verbose: 3,
  fromString: it => ({ messages: 1, compact: 2, verbose: 3 })[String(it).toLowerCase()] ?? 0,
  toString: it => ['off', 'messages', 'compact', 'verbose'][it] ?? 'off'
}
const TraceValues = { Off: 'off', Messages: 'messages', Compact: 'compact', Verbose: 'verbose' }
const TraceFormat = {
  Text: 'text',
  JSON: 'json',
  fromString: it => (String(it).toLowerCase() === 'json' ? 'json' : 'text')
}
const SetTraceNotification = { type: new NotificationType('$/setTrace') }
const LogTraceNotification = { type: new NotificationType('$/logTrace') }

class Tracing {
  #level = Trace.Off
  #format = TraceFormat.Text
  #tracer

  set(level, tracer, format) {
    this.#level = level
    this.#format = format
    this.#tracer = level === Trace.Off ? undefined : tracer
  }

  get isOn() {
    return this.#tracer !== undefined
  }

  log(text, verbose) {
    this.#hand(() => [text, this.#level > Trace.Messages ? verbose : undefined])
  }

  #hand(made) {
    try {
      watch(this.#tracer.log(...made()))
    } catch (error) {
      print(error)
    }
  }

  #data(word, value) {
    if (this.#level <= Trace.Messages) return undefined
    const text = this.#level === Trace.Verbose ? JSON.stringify(value, null, 4) : JSON.stringify(value)
    return `${word}: ${text}\n\n`
  }

  #tell(type, message, text, data) {
    this.#hand(() => {
      if (this.#format === TraceFormat.JSON) return [{ isLSPMessage: true, type, message, timestamp: Date.now() }]
      return [text, this.#level > Trace.Messages ? data() : undefined]
    })
  }

  request(isSent, id, method, params) {
    const message = params === undefined ? { jsonrpc: '2.0', id, method } : { jsonrpc: '2.0', id, method, params }
    const text = `${isSent ? 'Sending' : 'Received'} request '${method} - (${id})'.`
    this.#tell(isSent ? 'send-request' : 'receive-request', message, text, () => params && this.#data('Params', params))
  }

  notification(isSent, method, params) {
    if (!isSent && method === LogTraceNotification.type.method) return
    const message = params === undefined ? { jsonrpc: '2.0', method } : { jsonrpc: '2.0', method, params }
    const text = `${isSent ? 'Sending' : 'Received'} notification '${method}'.`
    const data = () => (params ? this.#data('Params', params) : 'No parameters provided.\n\n')
    this.#tell(isSent ? 'send-notification' : 'receive-notification', message, text, data)
  }

  #of(error, result) {
    if (error) return error.data ? this.#data('Error data', error.data) : undefined
    return result ? this.#data('Result', result) : 'No result returned.\n\n'
  }

  /** `error` is an error's literal, or undefined where there is a result. */
  sentResponse(id, method, started, error, result) {
    const message = error ? { jsonrpc: '2.0', id, error } : { jsonrpc: '2.0', id, result: result ?? null }
    const text = `Sending response '${method} - (${id})'. Processing request took ${Date.now() - started}ms`
    this.#tell('send-response', message, text, () => this.#of(error, result))
  }

  receivedResponse(id, method, started, error, result) {
    const message = error ? { jsonrpc: '2.0', id, error } : { jsonrpc: '2.0', id, result }
    const failed = error ? ` Request failed: ${error.message} (${error.code}).` : ''
    const text = `Received response '${method} - (${id})' in ${Date.now() - started}ms.${failed}`
    this.#tell('receive-response', message, text, () => this.#of(error, result))
  }
}

/** A tracer that writes a line for each message, as inspectors read them, to a file, a stream or a function. */
function inspectorsTracer(to) {
  if (typeof to === 'function') return { log: it => to(JSON.stringify(it)) }
  const stream = typeof to === 'string' ? require('node:fs').createWriteStream(to, { flags: 'a' }) : to
  return { log: it => { stream.write(`${JSON.stringify(it)}\n`) } }
}

module.exports = {
  Tracing, inspectorsTracer, Trace,
  words: { Trace, TraceValues, TraceFormat, SetTraceNotification, LogTraceNotification }, TraceFormat,
  SetTraceNotification, LogTraceNotification
}
