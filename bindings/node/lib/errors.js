'use strict'
// Errors, and their codes, as vscode-jsonrpc has them.

const ErrorCodes = {
  ParseError: -32700,
  InvalidRequest: -32600,
  MethodNotFound: -32601,
  InvalidParams: -32602,
  InternalError: -32603,
  jsonrpcReservedErrorRangeStart: -32099,
  serverErrorStart: -32099,
  MessageWriteError: -32099,
  MessageReadError: -32098,
  PendingResponseRejected: -32097,
  ConnectionInactive: -32096,
  ServerNotInitialized: -32002,
  UnknownErrorCode: -32001,
  jsonrpcReservedErrorRangeEnd: -32000,
  serverErrorEnd: -32000
}
/** What a request is answered that was cancelled (LSP). */
const REQUEST_CANCELLED = -32800

/** An error as a reply has it. A handler that throws or returns one answers with it. */
class ResponseError extends Error {
  constructor(code, message, data) {
    super(message)
    this.code = Number.isInteger(code) ? code : ErrorCodes.UnknownErrorCode
    this.data = data
  }

  toJson() {
    const made = { code: this.code, message: this.message }
    if (this.data !== undefined) made.data = this.data
    return made
  }
}

const ConnectionErrors = { Closed: 1, Disposed: 2, AlreadyListening: 3 }
for (const [name, value] of Object.entries(ConnectionErrors)) ConnectionErrors[value] = name

/** What a connection can't do in its state. */
class ConnectionError extends Error {
  constructor(code, message) {
    super(message)
    this.code = code
  }
}

module.exports = { ErrorCodes, REQUEST_CANCELLED, ResponseError, ConnectionErrors, ConnectionError }
