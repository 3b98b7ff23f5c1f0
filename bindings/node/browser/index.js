'use strict'
// What a browser has of the package: what index.js has, except streams, sockets and processes.

const allErrors = require('../lib/errors')
const { MessageReader, AbstractMessageReader, WebSocketMessageReader } = require('../lib/readers')
const { MessageWriter, AbstractMessageWriter, WebSocketMessageWriter } = require('../lib/writers')
const messages = require('../lib/messages')

const { REQUEST_CANCELLED, ...errors } = allErrors

module.exports = {
  ...require('../lib/events'),
  ...require('../lib/cancellation'),
  ...errors,
  ...require('../lib/signatures').words,
  ...messages,
  ...require('../lib/trace').words,
  MessageReader, AbstractMessageReader, WebSocketMessageReader,
  MessageWriter, AbstractMessageWriter, WebSocketMessageWriter,
  ...require('./ports'),
  createMessageConnection: require('../lib/message_connection').createMessageConnection,
  Connection: require('../lib/connection').Connection,
  Refused: require('../lib/refused').Refused,
  /** Language servers, when they are asked for. */
  get lsp() { return require('./lsp') }
}
