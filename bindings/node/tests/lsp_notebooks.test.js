'use strict'
// The notebooks that a client has open, and the texts of their cells (LSP 3.17, notebookDocument).

const assert = require('node:assert/strict')
const { test } = require('node:test')
const { turns } = require('./helping')
const { lsp, inSession } = require('./language_sessions')

const URI = 'file:///a.ipynb'
const CAPABILITIES = { notebookDocumentSync: { notebookSelector: [{ cells: [{ language: 'python' }] }] } }
const cell = (name, more = {}) => ({ kind: 2, document: `cell:${name}`, ...more })
const text = (name, content) => ({ uri: `cell:${name}`, languageId: 'python', version: 1, text: content })

test('a notebook from its opening to its end', async () => {
  const notebooks = new lsp.NotebookDocuments(lsp.TextDocument)
  const events = []
  const shown = () => notebooks.cellTextDocuments.all().map(it => `${it.uri} ${it.getText()}`)
  notebooks.onDidOpen(it => { events.push(['open', it.uri, shown()]) })
  notebooks.onDidChange(({ notebookDocument, ...change }) => { events.push(['change', notebookDocument.version, change, shown()]) })
  notebooks.onDidSave(it => { events.push(['save', it.version]) })
  notebooks.onDidClose(it => { events.push(['close', it.uri, shown()]) })
  await inSession(server => { notebooks.listen(server) }, async client => {
    await client.begin()
    const told = async (name, params) => {
      client.tell(`notebookDocument/${name}`, params)
      await turns()
      return events.splice(0)
    }
    const change = (version, it) => told('didChange', { notebookDocument: { uri: URI, version }, change: it })

    const notebookDocument = { uri: URI, notebookType: 'jupyter', version: 1, cells: [cell('a'), cell('b')] }
    assert.deepEqual(await told('didOpen', { notebookDocument, cellTextDocuments: [text('a', 'x'), text('b', 'y')] }), [['open', URI, ['cell:a x', 'cell:b y']]])
    const kept = notebooks.getNotebookDocument(URI)
    assert.deepEqual([notebooks.getNotebookCell('cell:b'), notebooks.findNotebookDocumentForCell('cell:b')], [cell('b'), kept])
    assert.deepEqual([notebooks.findNotebookDocumentForCell(cell('a')), notebooks.getCellTextDocument(cell('a')).getText()], [kept, 'x'])

    assert.deepEqual(await change(2, { metadata: { n: 1 } }), [['change', 2, { metadata: { old: undefined, new: { n: 1 } } }, ['cell:a x', 'cell:b y']]])
    const place = { line: 0, character: 1 }
    const changes = [{ range: { start: place, end: place }, text: '!' }]
    const none = { data: [], textContent: [] }
    assert.deepEqual(await change(3, { cells: { textContent: [{ document: { uri: 'cell:a', version: 2 }, changes }] } }), [
      ['change', 3, { cells: { added: [], removed: [], changed: { data: [], textContent: [cell('a')] } } }, ['cell:a x!', 'cell:b y']]
    ])
    const array = { start: 1, deleteCount: 1, cells: [cell('c')] }
    const structure = { array, didOpen: [text('c', 'z')], didClose: [{ uri: 'cell:b' }] }
    assert.deepEqual(await change(4, { cells: { structure } }), [
      ['change', 4, { cells: { added: [cell('c')], removed: [cell('b')], changed: none } }, ['cell:a x!', 'cell:c z']]
    ])
    assert.deepEqual(kept.cells, [cell('a'), cell('c')])
    assert.equal(notebooks.findNotebookDocumentForCell('cell:b'), undefined)
    const ran = cell('c', { executionSummary: { executionOrder: 1 } })
    assert.deepEqual(await change(5, { cells: { data: [ran, cell('none')] } }), [
      ['change', 5, { cells: { added: [], removed: [], changed: { data: [{ old: cell('c'), new: ran }], textContent: [] } } }, ['cell:a x!', 'cell:c z']]
    ])
    assert.deepEqual([notebooks.getNotebookCell('cell:c'), await told('didSave', { notebookDocument: { uri: URI } })], [ran, [['save', 5]]])

    const closed = { notebookDocument: { uri: URI }, cellTextDocuments: [{ uri: 'cell:a' }, { uri: 'cell:c' }] }
    assert.deepEqual(await told('didClose', closed), [['close', URI, ['cell:a x!', 'cell:c z']]])
    assert.deepEqual([shown(), notebooks.getNotebookDocument(URI), notebooks.getNotebookCell('cell:a')], [[], undefined, undefined])
    assert.deepEqual(client.logged, [])
    for (const name of ['didChange', 'didSave', 'didClose']) await told(name, name === 'didChange' ? { notebookDocument: { uri: URI, version: 6 }, change: {} } : closed)
    assert.equal(client.logged.filter(it => it.includes("this notebook isn't open")).length, 3)
  }, { capabilities: CAPABILITIES })
})

test('the texts of cells may be kept beside other ones', async () => {
  const documents = new lsp.TextDocuments(lsp.TextDocument)
  const notebooks = new lsp.NotebookDocuments(documents)
  assert.equal(notebooks.cellTextDocuments, documents)
  await inSession(server => { notebooks.listen(server).dispose() }, async client => { await client.begin() })
})
