'use strict'
// Values of LSP: the namespaces that make and recognise them, enumerations, semantic tokens, and what is exported.

const assert = require('node:assert/strict')
const { test } = require('node:test')
const { lsp, URI, place } = require('./language_sessions')

const range = { start: place(0, 1), end: place(2, 3) }

test('values are made', () => {
  const made = [
    [lsp.Position.create(1, Number.MAX_VALUE), { line: 1, character: 2147483647 }],
    [lsp.Range.create(0, 1, 2, 3), range], [lsp.Range.create(place(0, 1), place(2, 3)), range],
    [lsp.Location.create(URI, range), { uri: URI, range }],
    [lsp.Diagnostic.create(range, 'm', 2, undefined, 's'), { range, message: 'm', severity: 2, source: 's' }],
    [lsp.Command.create('t', 'c'), { title: 't', command: 'c' }], [lsp.Command.create('t', 'c', 1, 2), { title: 't', command: 'c', arguments: [1, 2] }],
    [lsp.TextEdit.replace(range, 'x'), { range, newText: 'x' }], [lsp.TextEdit.insert(place(1, 1), 'x'), { range: { start: place(1, 1), end: place(1, 1) }, newText: 'x' }],
    [lsp.TextEdit.del(range), { range, newText: '' }], [lsp.AnnotatedTextEdit.del(range, 'id'), { range, newText: '', annotationId: 'id' }],
    [lsp.CreateFile.create(URI, { overwrite: true }), { kind: 'create', uri: URI, options: { overwrite: true } }],
    [lsp.RenameFile.create('a', 'b', undefined, 'id'), { kind: 'rename', oldUri: 'a', newUri: 'b', annotationId: 'id' }],
    [lsp.DeleteFile.create(URI), { kind: 'delete', uri: URI }],
    [lsp.CompletionItem.create('l'), { label: 'l' }], [lsp.CompletionList.create(), { items: [], isIncomplete: false }],
    [lsp.SymbolInformation.create('n', 5, range, URI), { name: 'n', kind: 5, location: { uri: URI, range } }],
    [lsp.WorkspaceSymbol.create('n', 5, URI), { name: 'n', kind: 5, location: { uri: URI } }],
    [lsp.DocumentSymbol.create('n', undefined, 5, range, range), { name: 'n', kind: 5, range, selectionRange: range }],
    [lsp.CodeAction.create('t', 'quickfix'), { title: 't', kind: 'quickfix' }],
    [lsp.CodeAction.create('t', { title: 't', command: 'c' }, 'source'), { title: 't', command: { title: 't', command: 'c' }, kind: 'source' }],
    [lsp.CodeAction.create('t', { changes: {} }), { title: 't', edit: { changes: {} } }],
    [lsp.SignatureInformation.create('l', undefined, { label: 'p' }), { label: 'l', parameters: [{ label: 'p' }] }],
    [lsp.InlayHint.create(place(0, 0), 'l', 1), { position: place(0, 0), label: 'l', kind: 1 }],
    [lsp.MarkedString.fromPlainText('a*b'), 'a\\*b'], [lsp.OptionalVersionedTextDocumentIdentifier.create(URI, null), { uri: URI, version: null }]
  ]
  for (const [value, expected] of made) assert.deepEqual(value, expected)
  assert.throws(() => lsp.Range.create(1, 2), TypeError)
})

test('values are recognised', () => {
  const right = {
    Position: place(0, 0), Range: range, Location: { uri: URI, range }, Diagnostic: { range, message: 'm' }, TextEdit: { range, newText: '' },
    WorkspaceEdit: { changes: { [URI]: [{ range, newText: '' }] } }, Command: { title: 't', command: 'c' }, Hover: { contents: 'x' },
    MarkupContent: { kind: 'markdown', value: '' }, DocumentSymbol: { name: 'n', kind: 1, range, selectionRange: range, children: [] },
    CreateFile: { kind: 'create', uri: URI }, MarkedString: 'x', DocumentUri: URI, integer: -5, uinteger: 5, MarkupKind: 'plaintext', CodeAction: { title: 't' }
  }
  const wrong = {
    Position: { line: 0 }, Range: { start: place(0, 0) }, Location: { uri: URI }, Diagnostic: { range, message: 'm', severity: 7 }, TextEdit: { range },
    WorkspaceEdit: { changes: { [URI]: [{}] } }, Command: { title: 't' }, Hover: { contents: 5 }, MarkupContent: { kind: 'html', value: '' },
    DocumentSymbol: { name: 'n', kind: 1, range }, CreateFile: { kind: 'delete', uri: URI }, MarkedString: 5, DocumentUri: 5, integer: 0.5, uinteger: -5,
    MarkupKind: 'html', CodeAction: {}
  }
  for (const [name, value] of Object.entries(right)) {
    assert.equal(lsp[name].is(value), true, name)
    for (const it of [wrong[name], undefined, null, [], Symbol('x')]) assert.equal(lsp[name].is(it), false, `${name}: ${String(it)}`)
  }
})

test('enumerations have the names of vscode-languageserver', () => {
  const values = [
    lsp.DiagnosticSeverity.Hint, lsp.CompletionItemKind.TypeParameter, lsp.SymbolKind.File, lsp.TextDocumentSyncKind.Incremental, lsp.MessageType.Info,
    lsp.CodeActionKind.QuickFix, lsp.CodeActionKind.SourceFixAll, lsp.MarkupKind.Markdown, lsp.InsertTextFormat.Snippet, lsp.InsertTextMode.asIs,
    lsp.SemanticTokenTypes.class, lsp.SemanticTokenModifiers.defaultLibrary, lsp.FileOperationPatternKind.folder, lsp.DocumentDiagnosticReportKind.Full,
    lsp.LSPErrorCodes.RequestCancelled, lsp.LSPErrorCodes.lspReservedErrorRangeStart, lsp.ErrorCodes.InvalidParams, lsp.FileChangeType.Deleted,
    lsp.WatchKind.Delete, lsp.CompletionTriggerKind.TriggerCharacter, lsp.FoldingRangeKind.Region, lsp.PositionEncodingKind.UTF8, lsp.DiagnosticTag.Deprecated
  ]
  assert.deepEqual(values, [
    4, 25, 1, 2, 3, 'quickfix', 'source.fixAll', 'markdown', 2, 1, 'class', 'defaultLibrary', 'folder', 'full', -32800, -32899, -32602, 3, 4, 2, 'region', 'utf-8', 2
  ])
  assert.deepEqual([lsp.Files.uriToFilePath('file:///a%20b'), lsp.Files.uriToFilePath('untitled:x'), lsp.Files.uriToFilePath(5)], ['/a b', undefined, undefined])
})

test('semantic tokens are told from those before', () => {
  const builder = new lsp.SemanticTokensBuilder()
  for (const it of [[2, 5, 3, 1, 0], [2, 10, 4, 2, 1], [5, 2, 7, 0, 0], [0, 1, 1, 1, 1]]) builder.push(...it)
  const { resultId, data } = builder.build()
  assert.deepEqual(data, [0, 1, 1, 1, 1, 2, 5, 3, 1, 0, 0, 5, 4, 2, 1, 3, 2, 7, 0, 0]) // (as the specification's example has the last three)
  assert.equal(builder.canBuildEdits(), false)
  builder.previousResult('another')
  assert.equal(builder.canBuildEdits(), false)
  builder.push(1, 1, 1, 1, 1)
  const second = builder.build()
  assert.notEqual(second.resultId, resultId)
  builder.previousResult(second.resultId)
  assert.equal(builder.canBuildEdits(), true)
  builder.push(1, 1, 1, 1, 1)
  builder.push(1, 3, 1, 1, 1)
  assert.deepEqual(builder.buildEdits(), { resultId: builder.id, edits: [{ start: 5, deleteCount: 0, data: [0, 2, 1, 1, 1] }] })
})

test('what turns random tokens into others', () => {
  let state = 7
  const below = count => {
    state = (state * 1103515245 + 12345) % 2147483648
    return Math.floor((state / 2147483648) * count)
  }
  const numbers = () => Array.from({ length: below(12) }, () => below(3))
  for (let i = 0; i < 3000; i++) {
    const [before, after] = [numbers(), numbers()]
    const edits = new lsp.SemanticTokensDiff(before, after).computeDiff()
    const made = [...before]
    for (const { start, deleteCount, data = [] } of edits) made.splice(start, deleteCount, ...data)
    assert.deepEqual(made, after, `${before} to ${after}`)
    const isSame = before.length === after.length && before.every((it, at) => it === after[at])
    assert.equal(edits.length, isSame ? 0 : 1)
  }
})
