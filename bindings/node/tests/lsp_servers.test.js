'use strict'
// Two servers that were written for vscode-languageserver by memory of its API run once their imports are changed, and
// nothing else: VS Code's sample, and one of some 500 lines that uses most of it.

const assert = require('node:assert/strict')
const { test } = require('node:test')
const fs = require('node:fs')
const os = require('node:os')
const path = require('node:path')
const { fork, spawnSync } = require('node:child_process')
const { once } = require('node:events')
const { bullmyrtle, rejectsWith, until } = require('./helping')
const { URI, place, at } = require('./language_sessions')

const SERVERS = path.join(__dirname, 'servers')
const IMPORTS = /'vscode-languageserver\/node'|'vscode-languageserver-textdocument'/g
const hasCompiler = spawnSync('tsc', ['--version']).status === 0

const folder = fs.mkdtempSync(path.join(os.tmpdir(), 'servers-'))
process.on('exit', () => fs.rmSync(folder, { recursive: true }))
fs.mkdirSync(path.join(folder, 'node_modules'))
fs.symlinkSync(path.dirname(__dirname), path.join(folder, 'node_modules', 'bullmyrtle'))

/** A copy of a server that imports this package. */
function withImports(name) {
  const text = fs.readFileSync(path.join(SERVERS, name), 'utf8')
  assert.equal(text.match(IMPORTS).length, 2)
  const file = path.join(folder, name)
  // (TypeScript knows `satisfies` from 4.9 on, which checks a type and does nothing else)
  fs.writeFileSync(file, text.replace(IMPORTS, "'bullmyrtle/lsp'").replace(/ satisfies \w+/g, ''))
  return file
}

/** An editor of a server that was started as VS Code starts one. */
class Editor {
  heard = []
  calls = {}

  constructor(file) {
    this.server = fork(file, ['--node-ipc'])
    this.ended = once(this.server, 'close')
    this.connection = bullmyrtle.createMessageConnection(new bullmyrtle.IPCMessageReader(this.server), new bullmyrtle.IPCMessageWriter(this.server))
    this.connection.onNotification((method, params) => { this.heard.push([method, params]) })
    this.connection.onNotification('$/logTrace', params => { this.heard.push(['$/logTrace', params]) })
    this.connection.onUnhandledProgress(params => { this.heard.push(['$/progress', params]) })
    this.connection.onRequest((method, params) => {
      this.heard.push([method, params])
      return this.calls[method] === undefined ? null : this.calls[method](params)
    })
    this.connection.listen()
  }

  ask(method, params) { return this.connection.sendRequest(method, params) }
  tell(method, params) { return this.connection.sendNotification(method, params) }
  of(method) { return this.heard.filter(it => it[0] === method).map(it => it[1]) }
  until(method, count) { return until(() => this.of(method).length >= count) }

  async begin(capabilities, more = {}) {
    const result = await this.ask('initialize', { processId: process.pid, rootUri: null, capabilities, ...more })
    this.tell('initialized', {})
    return result
  }

  open(text) {
    this.tell('textDocument/didOpen', { textDocument: { uri: URI, languageId: 'settings', version: 1, text } })
  }

  /** Changes a range, from the first two numbers to the others. */
  change(version, [line, character, endLine, endCharacter], text) {
    const range = { start: place(line, character), end: place(endLine, endCharacter) }
    this.tell('textDocument/didChange', { textDocument: { uri: URI, version }, contentChanges: [{ range, text }] })
  }

  async end() {
    assert.equal(await this.connection.sendRequest('shutdown'), null)
    this.tell('exit')
    assert.equal((await this.ended)[0], 0)
    this.connection.dispose()
  }
}

const textDocument = { uri: URI }
const range = (...it) => ({ start: place(it[0], it[1]), end: place(it[2], it[3]) })
const logged = editor => editor.of('window/logMessage').map(it => it.message)

test("VS Code's sample", { skip: hasCompiler ? false : 'tsc, which is not here' }, async t => {
  const file = withImports('lsp_sample.ts')
  const words = ['--strict', '--module', 'node16', '--moduleResolution', 'node16', '--target', 'es2022', '--lib', 'es2022', '--types', 'none', file]
  fs.mkdirSync(path.join(folder, 'node_modules/@types/none'), { recursive: true })
  fs.writeFileSync(path.join(folder, 'node_modules/@types/none/index.d.ts'), '')
  const { status, stdout } = spawnSync('tsc', words, { cwd: folder, encoding: 'utf8' })
  assert.equal(status, 0, stdout)
  const editor = new Editor(file.replace('.ts', '.js'))
  t.after(() => editor.server.kill())
  let most = 2
  editor.calls['workspace/configuration'] = ({ items }) => items.map(() => ({ maxNumberOfProblems: most }))
  const publishDiagnostics = { relatedInformation: true }
  const result = await editor.begin({ workspace: { configuration: true, workspaceFolders: true }, textDocument: { publishDiagnostics } })
  assert.deepEqual(result, { capabilities: {
    textDocumentSync: 2, completionProvider: { resolveProvider: true }, diagnosticProvider: { interFileDependencies: false, workspaceDiagnostics: false },
    workspace: { workspaceFolders: { supported: true } }
  } })
  await editor.until('client/registerCapability', 2)
  assert.deepEqual(editor.of('client/registerCapability').map(it => it.registrations[0].method).sort(), ['workspace/didChangeConfiguration', 'workspace/didChangeWorkspaceFolders'])

  editor.open('one TWO\nTHREE four FIVE')
  const pull = async () => (await editor.ask('textDocument/diagnostic', { textDocument })).items
  const [first, second, ...more] = await pull()
  assert.deepEqual([first.message, first.range, first.severity, first.source, more], ['TWO is all uppercase.', range(0, 4, 0, 7), 2, 'ex', []])
  assert.deepEqual([second.range, second.relatedInformation.map(it => it.message)], [range(1, 0, 1, 5), ['Spelling matters', 'Particularly for names']])
  assert.deepEqual(editor.of('workspace/configuration'), [{ items: [{ scopeUri: URI, section: 'languageServerExample' }] }])
  editor.change(2, [0, 4, 0, 7], 'two')
  assert.deepEqual((await pull()).map(it => it.message), ['THREE is all uppercase.', 'FIVE is all uppercase.'])
  most = 1
  editor.tell('workspace/didChangeConfiguration', { settings: null })
  await editor.until('workspace/diagnostic/refresh', 1)
  assert.equal((await pull()).length, 1)
  assert.deepEqual(await editor.ask('textDocument/diagnostic', { textDocument: { uri: 'other' } }), { kind: 'full', items: [] })

  const items = await editor.ask('textDocument/completion', at(0, 0))
  assert.deepEqual(items.map(it => it.label), ['TypeScript', 'JavaScript'])
  assert.equal((await editor.ask('completionItem/resolve', items[1])).documentation, 'JavaScript documentation')
  editor.tell('workspace/didChangeWatchedFiles', { changes: [{ uri: URI, type: 2 }] })
  editor.tell('workspace/didChangeWorkspaceFolders', { event: { added: [], removed: [] } })
  editor.tell('textDocument/didClose', { textDocument })
  assert.deepEqual(await pull(), [])
  assert.deepEqual(logged(editor), ['We received a file change event', 'Workspace folder change event received.'])
  await editor.end()
})

const TEXT = `top = 1
[a]
one = join(x, \${top})
two=#ff0000
_unused = include: other.settings
[b]
ref = \${a.one} and \${nowhere}
one = upper(y)`

/** What of a whole session with the server of settings is about places. */
async function places(editor) {
  assert.equal((await editor.ask('textDocument/hover', at(6, 11))).contents.value, '**a.one** = join(x, ${top})')
  assert.equal(await editor.ask('textDocument/hover', at(1, 0)), null)
  assert.deepEqual(await editor.ask('textDocument/definition', at(6, 11)), { uri: URI, range: range(2, 0, 2, 3) })
  const context = { includeDeclaration: true }
  const all = await editor.ask('textDocument/references', { ...at(2, 1), context })
  assert.deepEqual(all.map(it => it.range), [range(2, 0, 2, 3), range(6, 10, 6, 13)])
  assert.deepEqual(await editor.ask('textDocument/references', { ...at(2, 1), context, partialResultToken: 'p' }), [])
  assert.deepEqual(editor.of('$/progress').filter(it => it.token === 'p').map(it => it.value[0].range), all.map(it => it.range))
  assert.deepEqual((await editor.ask('textDocument/documentHighlight', at(2, 1))).map(it => it.kind), [3, 2])
  assert.equal((await editor.ask('textDocument/linkedEditingRange', at(2, 1))).ranges.length, 2)
  const symbols = await editor.ask('textDocument/documentSymbol', { textDocument })
  assert.deepEqual(symbols.map(it => [it.name, it.children?.map(one => one.name)]), [['top', undefined], ['a', ['one', 'two', '_unused']], ['b', ['ref', 'one']]])
  assert.deepEqual((await editor.ask('workspace/symbol', { query: 'on' })).map(it => it.location.range.start.line), [2, 7])
  assert.deepEqual((await editor.ask('textDocument/foldingRange', { textDocument })).map(it => [it.startLine, it.endLine]), [[1, 4], [5, 7]])
  const [selected] = await editor.ask('textDocument/selectionRange', { textDocument, positions: [place(2, 1)] })
  assert.deepEqual([selected.range, selected.parent.range], [range(2, 0, 2, 3), range(2, 0, 2, 21)])
  const [link] = await editor.ask('textDocument/documentLink', { textDocument })
  assert.equal((await editor.ask('documentLink/resolve', link)).target, 'file:///other.settings')
  const help = await editor.ask('textDocument/signatureHelp', at(2, 14))
  assert.deepEqual([help.signatures[0].label, help.activeParameter], ['join(first: text, second: text)', 1])
  const hints = await editor.ask('textDocument/inlayHint', { textDocument, range: range(0, 0, 9, 0) })
  assert.deepEqual(hints.map(it => it.label), [' = join(x, ${top})'])
}

/** What of it is about edits. */
async function edits(editor) {
  const formatted = await editor.ask('textDocument/formatting', { textDocument, options: { tabSize: 2, insertSpaces: true } })
  assert.deepEqual(formatted, [{ range: range(3, 0, 3, 11), newText: 'two = #ff0000' }])
  assert.deepEqual(await editor.ask('textDocument/prepareRename', at(6, 11)), { range: range(6, 10, 6, 13), placeholder: 'one' })
  const { documentChanges: [changed] } = await editor.ask('textDocument/rename', { ...at(6, 11), newName: 'uno' })
  assert.deepEqual([changed.textDocument, changed.edits.map(it => it.range.start)], [{ uri: URI, version: 1 }, [place(2, 0), place(6, 10)]])
  await rejectsWith(editor.ask('textDocument/rename', { ...at(6, 11), newName: 'no name' }), -32803)
  const diagnostics = editor.of('textDocument/publishDiagnostics').at(-1).diagnostics.filter(it => it.data === 'nowhere')
  const [fix, sort] = await editor.ask('textDocument/codeAction', { textDocument, range: diagnostics[0].range, context: { diagnostics } })
  assert.deepEqual([fix.title, fix.kind, sort.command.command], ['Set nowhere', 'quickfix', 'settings.sort'])
  assert.deepEqual((await editor.ask('codeAction/resolve', fix)).edit.changes[URI], [{ range: range(0, 0, 0, 0), newText: 'nowhere = \n' }])
  const lenses = await editor.ask('textDocument/codeLens', { textDocument })
  assert.equal((await editor.ask('codeLens/resolve', lenses[1])).command.title, '1 uses')
  const [color] = await editor.ask('textDocument/documentColor', { textDocument })
  assert.deepEqual(color, { range: range(3, 4, 3, 11), color: { red: 1, green: 0, blue: 0, alpha: 1 } })
  assert.equal((await editor.ask('textDocument/colorPresentation', { textDocument, ...color }))[0].label, '#ff0000')
  assert.deepEqual(await editor.ask('textDocument/willSaveWaitUntil', { textDocument, reason: 1 }), [{ range: range(7, 14, 7, 14), newText: '\n' }])
  const renamed = await editor.ask('workspace/willRenameFiles', { files: [{ oldUri: 'file:///other.settings', newUri: 'file:///new.settings' }] })
  assert.equal(renamed.changes[URI][0].newText, 'new.settings')
}

/** What of it is about commands, and what the server asks for meanwhile. */
async function commands(editor) {
  let applied
  editor.calls['workspace/applyEdit'] = it => {
    applied = it
    return { applied: false, failureReason: 'no' }
  }
  assert.equal(await editor.ask('workspace/executeCommand', { command: 'settings.sort', arguments: [URI] }), false)
  assert.deepEqual(applied.edit.changes[URI].map(it => it.newText).slice(1, 4), ['_unused = include: other.settings', 'one = join(x, ${top})', 'two=#ff0000'])
  await editor.until('window/showMessageRequest', 1)
  editor.calls['window/showMessageRequest'] = ({ actions }) => actions[0]
  assert.equal(await editor.ask('workspace/executeCommand', { command: 'settings.count' }), 6)
  assert.deepEqual(editor.of('$/progress').map(it => it.value.kind).filter(Boolean).slice(-3), ['begin', 'report', 'end'])
  await rejectsWith(editor.ask('workspace/executeCommand', { command: 'settings.none' }), -32602)
  assert.equal(await editor.ask('settings/value', { uri: URI, name: 'b.one' }), 'upper(y)')
  editor.tell('settings/reset', {})
  await editor.until('settings/wasReset', 1)
}

test('a server of 500 lines', async t => {
  const editor = new Editor(withImports('settings_server.js'))
  t.after(() => editor.server.kill())
  let unused = true
  editor.calls['workspace/configuration'] = () => [{ unused }]
  editor.calls['workspace/workspaceFolders'] = () => [{ uri: 'file:///', name: 'root' }]
  const capabilities = {
    workspace: { configuration: true, workspaceFolders: true, didChangeWatchedFiles: { dynamicRegistration: true } },
    textDocument: { semanticTokens: { dynamicRegistration: true } }, window: { workDoneProgress: true }
  }
  const result = await editor.begin(capabilities, { workDoneToken: 'start', trace: 'verbose' })
  assert.equal(Object.keys(result.capabilities).length, 23)
  assert.deepEqual(editor.of('$/progress').map(it => [it.token, it.value.kind]), [['start', 'begin'], ['start', 'end']])
  await editor.until('window/logMessage', 1)
  assert.deepEqual(editor.of('client/registerCapability').map(it => it.registrations.map(one => one.method)), [['textDocument/semanticTokens', 'workspace/didChangeWatchedFiles']])
  editor.open(TEXT)
  const messagesOf = () => editor.of('textDocument/publishDiagnostics').at(-1).diagnostics.map(it => it.message)
  await editor.until('textDocument/publishDiagnostics', 1)
  assert.deepEqual(messagesOf(), ["_unused isn't used", "a.top isn't set", "b.nowhere isn't set"])
  await places(editor)
  await edits(editor)
  await commands(editor)
  const items = await editor.ask('textDocument/completion', at(6, 10))
  assert.equal((await editor.ask('completionItem/resolve', items.find(it => it.label === 'a.two'))).detail, '#ff0000')
  const { resultId, data } = await editor.ask('textDocument/semanticTokens/full', { textDocument })
  assert.equal(data.length, 5 * (2 + 6 + 3))
  editor.change(2, [7, 14, 7, 14], '\n_more = 5\none = 1')
  const delta = await editor.ask('textDocument/semanticTokens/full/delta', { textDocument, previousResultId: resultId })
  assert.deepEqual(delta.edits, [{ start: data.length, deleteCount: 0, data: [1, 0, 5, 1, 1, 1, 0, 3, 1, 1] }])
  assert.equal((await editor.ask('textDocument/semanticTokens/range', { textDocument, range: range(0, 0, 2, 0) })).data.length, 5 * 4)
  await editor.until('textDocument/publishDiagnostics', 2)
  assert.deepEqual(messagesOf().filter(it => /_more|twice/.test(it)), ["_more isn't used", 'one is set twice'])
  unused = false
  editor.tell('workspace/didChangeConfiguration', { settings: null })
  await editor.until('textDocument/publishDiagnostics', 3)
  assert.deepEqual(messagesOf().filter(it => /used/.test(it)), [])
  editor.tell('textDocument/didSave', { textDocument })
  editor.tell('workspace/didChangeWatchedFiles', { changes: [{ uri: URI, type: 3 }] })
  editor.tell('workspace/didChangeWorkspaceFolders', { event: { added: [], removed: [{ uri: 'x', name: 'x' }] } })
  editor.tell('workspace/didCreateFiles', { files: [{ uri: URI }] })
  editor.tell('textDocument/didClose', { textDocument })
  await editor.until('textDocument/publishDiagnostics', 5)
  assert.deepEqual(editor.of('textDocument/publishDiagnostics').at(-1).diagnostics, [])
  assert.deepEqual([editor.of('telemetry/event'), editor.of('$/logTrace')], [[{ opened: 'settings' }], [{ message: '1 files changed', verbose: URI }]])
  await rejectsWith(editor.ask('textDocument/hover', at(0, 0)), -32602, /unknown document/)
  await editor.end()
  assert.deepEqual(logged(editor), ['ready with 1 folders', 'folders: 0 added, 1 removed', '1 files were made', 'shutting down'])
})
