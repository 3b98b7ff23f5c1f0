'use strict'
// NotebookDocuments: the open notebooks of a client and the texts of their cells, with the names of vscode-languageserver.

const { Emitter, Disposable } = require('../events')
const { TextDocuments } = require('./text_documents')

/** What the texts of cells hear, in place of a connection. */
class CellsConnection {
  #connection
  #handlers = {}

  constructor(connection) {
    this.#connection = connection
    for (const name of ['DidOpen', 'DidChange', 'DidClose', 'WillSave', 'DidSave']) {
      this[`on${name}TextDocument`] = handler => {
        this.#handlers[name] = handler
        return Disposable.create(() => {})
      }
    }
  }

  get console() { return this.#connection.console }
  get positionEncoding() { return this.#connection.positionEncoding }
  onWillSaveTextDocumentWaitUntil() { return Disposable.create(() => {}) }

  opened(textDocument) { this.#handlers.DidOpen({ textDocument }) }
  changed({ document, changes }) { this.#handlers.DidChange({ textDocument: document, contentChanges: changes }) }
  closed(textDocument) { this.#handlers.DidClose({ textDocument }) }
}

class NotebookDocuments {
  #texts
  #notebooks = new Map()
  #cells = new Map() // with their notebooks, by the URIs of their texts
  #opened = new Emitter()
  #saved = new Emitter()
  #changed = new Emitter()
  #closed = new Emitter()

  /** Takes TextDocument, something else with its `create` and `update`, or TextDocuments that keep the cells' texts. */
  constructor(configurationOrTextDocuments) {
    const isGiven = configurationOrTextDocuments instanceof TextDocuments
    this.#texts = isGiven ? configurationOrTextDocuments : new TextDocuments(configurationOrTextDocuments)
  }

  get onDidOpen() { return this.#opened.event }
  get onDidSave() { return this.#saved.event }
  get onDidChange() { return this.#changed.event }
  get onDidClose() { return this.#closed.event }
  get cellTextDocuments() { return this.#texts }

  getCellTextDocument(cell) { return this.#texts.get(cell.document) }
  getNotebookDocument(uri) { return this.#notebooks.get(uri) }
  getNotebookCell(uri) { return this.#cells.get(uri)?.[0] }

  /** The notebook of a cell, or of the URI of its text. */
  findNotebookDocumentForCell(cell) {
    return this.#cells.get(typeof cell === 'string' ? cell : cell.document)?.[1]
  }

  /** Keeps the notebooks of a connection's client. Its methods for notebooks have no other handlers then. */
  listen(connection) {
    const cells = new CellsConnection(connection)
    const { synchronization } = connection.notebooks
    const made = [
      this.#texts.listen(cells),
      synchronization.onDidOpenNotebookDocument(it => this.#open(it, cells)),
      synchronization.onDidChangeNotebookDocument(it => this.#change(it, cells)),
      synchronization.onDidSaveNotebookDocument(it => this.#saved.fire(this.#notebook(it))),
      synchronization.onDidCloseNotebookDocument(it => this.#close(it, cells))
    ]
    return Disposable.create(() => { for (const it of made) it.dispose() })
  }

  #notebook({ notebookDocument: { uri } }) {
    const notebook = this.#notebooks.get(uri)
    if (notebook === undefined) throw new Error(`this notebook isn't open: ${uri}`)
    return notebook
  }

  #keepCells(notebook) {
    for (const [uri, [, of]] of this.#cells) if (of === notebook) this.#cells.delete(uri)
    for (const it of notebook.cells) this.#cells.set(it.document, [it, notebook])
  }

  #open({ notebookDocument, cellTextDocuments }, cells) {
    this.#notebooks.set(notebookDocument.uri, notebookDocument)
    for (const it of cellTextDocuments) cells.opened(it)
    this.#keepCells(notebookDocument)
    this.#opened.fire(notebookDocument)
  }

  #close(params, cells) {
    const notebook = this.#notebook(params)
    this.#closed.fire(notebook)
    for (const it of params.cellTextDocuments) cells.closed(it)
    this.#notebooks.delete(notebook.uri)
    for (const it of notebook.cells) this.#cells.delete(it.document)
  }

  #change(params, connection) {
    const notebook = this.#notebook(params)
    const { metadata, cells } = params.change
    const event = { notebookDocument: notebook }
    notebook.version = params.notebookDocument.version
    if (metadata !== undefined) {
      event.metadata = { old: notebook.metadata, new: metadata }
      notebook.metadata = metadata
    }
    if (cells !== undefined) event.cells = this.#changeCells(notebook, cells, connection)
    this.#changed.fire(event)
  }

  /** Changes the cells of a notebook, and gives what has changed. */
  #changeCells(notebook, { structure, data = [], textContent = [] }, connection) {
    const { didOpen = [], didClose = [], array } = structure ?? {}
    if (array !== undefined) notebook.cells.splice(array.start, array.deleteCount, ...(array.cells ?? []))
    for (const it of didOpen) connection.opened(it)
    for (const it of didClose) connection.closed(it)
    const removed = didClose.map(it => this.getNotebookCell(it.uri)).filter(Boolean)
    const replaced = data.flatMap(cell => {
      const at = notebook.cells.findIndex(it => it.document === cell.document)
      return at < 0 ? [] : [{ old: notebook.cells.splice(at, 1, cell)[0], new: cell }]
    })
    for (const it of textContent) connection.changed(it)
    this.#keepCells(notebook)
    const cellsOf = all => all.map(it => this.getNotebookCell(it.uri)).filter(Boolean)
    return {
      added: cellsOf(didOpen), removed,
      changed: { data: replaced, textContent: cellsOf(textContent.map(it => it.document)) }
    }
  }
}

module.exports = { NotebookDocuments }
