'use strict'
// TextDocuments: the open documents of a client, with the names of vscode-languageserver.

const { Emitter, Disposable } = require('../events')
const { OPTIONAL } = require('./connection')

const INCREMENTAL = 2

class TextDocuments {
  #configuration
  #documents = new Map()
  #opened = new Emitter()
  #changed = new Emitter()
  #closed = new Emitter()
  #saved = new Emitter()
  #willBeSaved = new Emitter()
  #editsBeforeSaving

  /** Takes TextDocument, or something else with its `create` and `update`. */
  constructor(configuration) {
    this.#configuration = configuration
  }

  get onDidOpen() { return this.#opened.event }
  get onDidChangeContent() { return this.#changed.event }
  get onDidClose() { return this.#closed.event }
  get onDidSave() { return this.#saved.event }
  get onWillSave() { return this.#willBeSaved.event }

  /** Gives the edits with which a document is saved. */
  onWillSaveWaitUntil(handler) {
    this.#editsBeforeSaving = handler
  }

  get(uri) { return this.#documents.get(uri) }
  all() { return [...this.#documents.values()] }
  keys() { return [...this.#documents.keys()] }

  /** Keeps the documents of a connection's client. These methods have no other handlers then. */
  listen(connection) {
    connection.__textDocumentSync = INCREMENTAL
    const made = [
      connection.onDidOpenTextDocument(it => this.#open(it, connection)),
      connection.onDidChangeTextDocument(it => this.#change(it, connection)),
      connection.onDidCloseTextDocument(it => this.#close(it)),
      connection.onWillSaveTextDocument(it => this.#fire(this.#willBeSaved, it), OPTIONAL),
      connection.onWillSaveTextDocumentWaitUntil((it, token) => this.#edits(it, token), OPTIONAL),
      connection.onDidSaveTextDocument(it => this.#fire(this.#saved, it), OPTIONAL)
    ]
    return Disposable.create(() => { for (const it of made) it.dispose() })
  }

  #document(uri) {
    const document = this.#documents.get(uri)
    if (document === undefined) throw new Error(`this document isn't open: ${uri}`)
    return document
  }

  #open({ textDocument: { uri, languageId = '', version, text } }, connection) {
    if (this.#documents.has(uri)) connection.console?.warn(`${uri} was opened, and is open already`)
    const document = this.#configuration.create(uri, languageId, version, text, connection.positionEncoding)
    this.#documents.set(uri, document)
    const event = Object.freeze({ document })
    this.#opened.fire(event)
    this.#changed.fire(event)
  }

  #change({ textDocument: { uri, version }, contentChanges }, connection) {
    const before = this.#document(uri)
    if (Number.isInteger(version) && version <= before.version) {
      connection.console?.warn(`${uri}: version ${version} came behind version ${before.version}`)
    }
    const document = this.#configuration.update(before, contentChanges, version ?? before.version)
    this.#documents.set(uri, document)
    this.#changed.fire(Object.freeze({ document }))
  }

  #close({ textDocument: { uri } }) {
    const document = this.#document(uri)
    this.#documents.delete(uri)
    this.#closed.fire(Object.freeze({ document }))
  }

  #fire(emitter, { textDocument: { uri }, reason }) {
    const document = this.#document(uri)
    emitter.fire(Object.freeze(reason === undefined ? { document } : { document, reason }))
  }

  #edits({ textDocument: { uri }, reason }, token) {
    const document = this.#documents.get(uri)
    if (document === undefined || this.#editsBeforeSaving === undefined) return []
    return this.#editsBeforeSaving(Object.freeze({ document, reason }), token)
  }
}

module.exports = { TextDocuments }
