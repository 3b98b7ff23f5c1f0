'use strict'
// Language servers, with the names of vscode-languageserver and its neighbours.

const { fileURLToPath } = require('node:url')
const allWords = require('../index')
const { createConnection, ProposedFeatures } = require('./create')
const { BulkRegistration, BulkUnregistration } = require('./registering')

const { Connection, ...words } = allWords // (a connection is a server's here)

/** The file that a `file:` URI names; undefined for others. */
function uriToFilePath(uri) {
  try {
    return fileURLToPath(uri)
  } catch {
    return undefined
  }
}

/** @type {any} (its types are those of ../../types/language_server) */
module.exports = {
  ...words,
  ...require('./protocol'),
  ...require('./namespaces'),
  ...require('./semantic_tokens'),
  TextDocument: require('./text_document').TextDocument,
  TextDocuments: require('./text_documents').TextDocuments,
  NotebookDocuments: require('./notebook_documents').NotebookDocuments,
  Files: { uriToFilePath },
  EOL: ['\n', '\r\n', '\r'],
  BulkRegistration, BulkUnregistration, createConnection, ProposedFeatures
}
