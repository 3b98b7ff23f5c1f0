'use strict'
// Errors of tool servers and their hosts.

const { ErrorCodes, ResponseError } = require('../errors')

/** The codes of errors, by the names that MCP's own SDK has for them. */
const ErrorCode = {
  ConnectionClosed: -32000,
  ParseError: ErrorCodes.ParseError,
  InvalidRequest: ErrorCodes.InvalidRequest,
  MethodNotFound: ErrorCodes.MethodNotFound,
  InvalidParams: ErrorCodes.InvalidParams,
  InternalError: ErrorCodes.InternalError,
  ResourceNotFound: -32002,
  UrlElicitationRequired: -32042
}

/** What a tool throws that failed: its text is the tool's result, as an error of the tool's own, and isn't logged. */
class ToolError extends Error {
  get name() { return 'ToolError' }
}

/** The other side answered a request with a result that isn't one of its method's. The text has the place. */
class InvalidResult extends Error {
  get name() { return 'InvalidResult' }
}

/** The server wants to speak a version of the protocol that isn't known here. */
class UnknownVersion extends Error {
  get name() { return 'UnknownVersion' }
}

/** A tool throws it if it can't go on before the user has opened some pages: the host gets the error -32042. */
class UrlElicitationRequired extends ResponseError {
  constructor(elicitations, message = 'Open the pages, and try again') {
    super(ErrorCode.UrlElicitationRequired, message, { elicitations: elicitations.map(it => ({ mode: 'url', ...it })) })
  }
}

const invalidParams = text => new ResponseError(ErrorCode.InvalidParams, `Invalid params: ${text}`)

module.exports = {
  ErrorCode, InvalidResult, McpError: ResponseError, ToolError, UnknownVersion, UrlElicitationRequired, invalidParams
}
