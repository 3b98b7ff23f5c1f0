'use strict'
const { ConnectionOptions, ConnectionStrategy, Message, MessageStrategy, NullLogger } = require('./messages')
const { Trace, TraceFormat, TraceValues, SetTraceNotification, LogTraceNotification } = require('./trace').words
const allReaders = require('./readers')
const allErrors = require('./errors')
const allCancellation = require('./cancellation')

const { refuseDecoders, ...readers } = allReaders
const { REQUEST_CANCELLED, ...errors } = allErrors
const { Token, ...cancellation } = allCancellation

/** @type {any} (its types are those of ../types) */
module.exports = {
  ...require('./events'),
  ...cancellation,
  ...errors,
  ...require('./signatures').words,
  Message, NullLogger, ConnectionOptions, ConnectionStrategy, MessageStrategy,
  Trace, TraceFormat, TraceValues, SetTraceNotification, LogTraceNotification,
  ...readers,
  ...require('./writers'),
  ...require('./transports'),
  createMessageConnection: require('./message_connection').createMessageConnection,
  run: require('./run').run,
  Connection: require('./connection').Connection,
  Refused: require('./refused').Refused
}
