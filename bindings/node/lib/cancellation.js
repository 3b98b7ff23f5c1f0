'use strict'
// Tokens of cancellation, and who sends and receives cancels, as vscode-jsonrpc has them.

const { Emitter, Event, Disposable } = require('./events')

/** Of a token that is cancelled already: a listener is called soon. */
function soon(listener, self) {
  const timer = setTimeout(listener.bind(self), 0)
  return Disposable.create(() => clearTimeout(timer))
}

/** A token, and what cancels it. */
class Token {
  isCancellationRequested = false
  #emitter

  get onCancellationRequested() {
    if (this.isCancellationRequested) return soon
    return (this.#emitter ??= new Emitter()).event
  }

  cancel() {
    if (this.isCancellationRequested) return
    this.isCancellationRequested = true
    const emitter = this.#emitter
    this.#emitter = undefined
    emitter?.fire(undefined)
  }
}

const CancellationToken = {
  None: Object.freeze({ isCancellationRequested: false, onCancellationRequested: Event.None }),
  Cancelled: Object.freeze({ isCancellationRequested: true, onCancellationRequested: soon }),
  is(value) {
    if (value instanceof Token) return true
    if (value === null || typeof value !== 'object') return false
    return typeof value.isCancellationRequested === 'boolean' && !!value.onCancellationRequested
  }
}

class CancellationTokenSource {
  #token

  get token() {
    return (this.#token ??= new Token())
  }

  cancel() {
    if (this.#token === undefined) this.#token = CancellationToken.Cancelled
    else if (this.#token instanceof Token) this.#token.cancel()
  }

  dispose() {
    this.#token ??= CancellationToken.None
  }
}

const CancellationReceiverStrategy = {
  Message: Object.freeze({ createCancellationTokenSource: () => new CancellationTokenSource() }),
  is: value => typeof value?.createCancellationTokenSource === 'function'
}
const CancellationSenderStrategy = {
  Message: Object.freeze({
    sendCancellation: (connection, id) => connection.sendNotification('$/cancelRequest', { id }),
    cleanup() {}
  }),
  is: value => typeof value?.sendCancellation === 'function' && typeof value.cleanup === 'function'
}
const CancellationStrategy = {
  Message: Object.freeze({
    receiver: CancellationReceiverStrategy.Message, sender: CancellationSenderStrategy.Message
  }),
  is: value => CancellationReceiverStrategy.is(value?.receiver) && CancellationSenderStrategy.is(value?.sender)
}
const IdCancellationReceiverStrategy = {
  is: value => (value?.kind === undefined || value.kind === 'id') && CancellationReceiverStrategy.is(value)
}
const RequestCancellationReceiverStrategy = {
  is: value => value?.kind === 'request' && CancellationReceiverStrategy.is(value)
}

module.exports = {
  Token, CancellationToken, CancellationTokenSource, CancellationReceiverStrategy, CancellationSenderStrategy,
  CancellationStrategy, IdCancellationReceiverStrategy, RequestCancellationReceiverStrategy
}
