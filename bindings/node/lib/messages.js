'use strict'
// What kind of message an object is, as vscode-jsonrpc has it.

const hasId = it => typeof it.id === 'string' || typeof it.id === 'number'

const Message = {
  isRequest: it => !!it && typeof it.method === 'string' && hasId(it),
  isNotification: it => !!it && typeof it.method === 'string' && it.id === undefined,
  isResponse: it => !!it && (it.result !== undefined || !!it.error) && (hasId(it) || it.id === null)
}
const NullLogger = Object.freeze({ error() {}, warn() {}, info() {}, log() {} })
const isStrategy = (name, value) => typeof value?.[name] === 'function'
const ConnectionStrategy = { is: value => isStrategy('cancelUndispatched', value) }
const MessageStrategy = { is: value => isStrategy('handleMessage', value) }
const ConnectionOptions = {
  is: it => !!it && (!!it.cancellationStrategy || ConnectionStrategy.is(it.connectionStrategy)
    || MessageStrategy.is(it.messageStrategy))
}

module.exports = { Message, NullLogger, ConnectionStrategy, MessageStrategy, ConnectionOptions }
