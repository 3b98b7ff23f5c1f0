'use strict'
// The types of LSP's methods as constants, and its enumerations, with the names of vscode-languageserver-protocol.

const {
  ProgressType, RequestType, RequestType0, NotificationType, NotificationType0, ParameterStructures
} = require('../signatures').words
const { METHODS, enumerations } = require('./specification')

class ProtocolRequestType extends RequestType {
  constructor(method) { super(method, ParameterStructures.byName) }
}
class ProtocolRequestType0 extends RequestType0 {
  constructor(method) { super(method) }
}
class ProtocolNotificationType extends NotificationType {
  constructor(method) { super(method, ParameterStructures.byName) }
}
class ProtocolNotificationType0 extends NotificationType0 {
  constructor(method) { super(method) }
}
/** What is registered by another name than its methods'. */
class RegistrationType {
  constructor(method) { this.method = method }
}

const MessageDirection = { clientToServer: 'clientToServer', serverToClient: 'serverToClient', both: 'both' }
const DIRECTIONS = { server: 'clientToServer', client: 'serverToClient', both: 'both' }

/** @param {string} method @param {import('./specification').Method} it */
function typeOf(method, { kind, params }) {
  if (kind === 'request') return params === undefined ? new ProtocolRequestType0(method) : new ProtocolRequestType(method)
  return params === undefined ? new ProtocolNotificationType0(method) : new ProtocolNotificationType(method)
}

/** @type {Record<string, any>} */
const constants = {}
for (const [method, it] of METHODS) {
  if (it.constant === undefined) continue
  constants[it.constant] = { method, messageDirection: DIRECTIONS[it.to], type: typeOf(method, it) }
}

const registration = method => ({ method, type: new RegistrationType(method) })

/** @type {Record<string, any>} */
const values = {}
for (const [name, it] of Object.entries(enumerations)) {
  if (!['ErrorCodes', 'TraceValues'].includes(name)) values[name] = { ...it.values }
}
Object.assign(values.LSPErrorCodes, { lspReservedErrorRangeStart: -32899, lspReservedErrorRangeEnd: -32800 })

/** Says whether a value is one of an enumeration's. */
const isOf = name => value => Object.values(values[name]).includes(value)
for (const name of ['MarkupKind', 'InlayHintKind', 'NotebookCellKind']) {
  Object.defineProperty(values[name], 'is', { value: isOf(name) })
}

module.exports = {
  ...values,
  ...constants,
  ProtocolRequestType, ProtocolRequestType0, ProtocolNotificationType, ProtocolNotificationType0, RegistrationType,
  MessageDirection,
  SemanticTokensRegistrationType: registration('textDocument/semanticTokens'),
  NotebookDocumentSyncRegistrationType: registration('notebookDocument/sync'),
  WorkDoneProgress: { type: new ProgressType() }
}
