'use strict'
// What a browser has of bullmyrtle/lsp: a language server over a reader and a writer, in a worker of the page.

const { serverConnection } = require('../lib/lsp/connection')
const { endWithStreams } = require('../lib/lsp/over_streams')
const { BulkRegistration, BulkUnregistration } = require('../lib/lsp/registering')

const ProposedFeatures = { all: { __brand: 'features' } }

/** A server's connection, of (features?, reader, writer, options?). */
function createConnection(...given) {
  const [reader, writer, options] = given[0]?.__brand === 'features' ? given.slice(1) : given
  if (typeof reader?.listen !== 'function') throw new TypeError('a server in a browser needs a reader and a writer')
  const made = serverConnection(reader, writer, options)
  endWithStreams(made)
  return made.connection
}

module.exports = {
  ...require('../lib/lsp/protocol'),
  ...require('../lib/lsp/namespaces'),
  ...require('../lib/lsp/semantic_tokens'),
  TextDocument: require('../lib/lsp/text_document').TextDocument,
  TextDocuments: require('../lib/lsp/text_documents').TextDocuments,
  NotebookDocuments: require('../lib/lsp/notebook_documents').NotebookDocuments,
  EOL: ['\n', '\r\n', '\r'],
  BulkRegistration, BulkUnregistration, createConnection, ProposedFeatures
}
