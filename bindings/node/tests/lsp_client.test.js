'use strict'
// What a server asks and tells its client: messages, settings, folders, edits, registrations, logs and traces.

const assert = require('node:assert/strict')
const { test } = require('node:test')
const { rejectsWith, turns, until } = require('./helping')
const { lsp, URI, inSession } = require('./language_sessions')

const nothing = () => {}

test('messages, with and without actions', () => inSession(nothing, async (client, server) => {
  await client.begin()
  client.calls['window/showMessageRequest'] = ({ actions }) => actions[1] ?? null
  const { window } = server
  assert.deepEqual(await window.showErrorMessage('e', { title: 'one' }, { title: 'two' }), { title: 'two' })
  assert.equal(await window.showWarningMessage('w'), undefined)
  assert.equal(await window.showInformationMessage('i'), undefined)
  assert.deepEqual(client.of('window/showMessageRequest').map(it => [it.type, it.message, it.actions.length]), [[1, 'e', 2], [2, 'w', 0], [3, 'i', 0]])
  client.calls['window/showDocument'] = it => ({ success: it.external })
  assert.deepEqual(await window.showDocument({ uri: URI, external: true }), { success: true })
}))

test('logs, telemetry and diagnostics', () => inSession(nothing, async (client, server) => {
  await client.begin()
  for (const name of ['error', 'warn', 'info', 'log', 'debug']) server.console[name](name)
  server.telemetry.logEvent({ used: 1 })
  await server.sendDiagnostics({ uri: URI, version: 3, diagnostics: [] })
  await turns()
  assert.deepEqual(client.of('window/logMessage').map(it => [it.type, it.message]), [[1, 'error'], [2, 'warn'], [3, 'info'], [4, 'log'], [4, 'debug']])
  assert.deepEqual([client.of('telemetry/event'), client.of('textDocument/publishDiagnostics')], [[{ used: 1 }], [{ uri: URI, version: 3, diagnostics: [] }]])
}))

test('settings: of a section, of an item, of several, and all', () => inSession(nothing, async (client, server) => {
  await client.begin()
  const { workspace } = server
  client.calls['workspace/configuration'] = ({ items }) => items.map(it => it.section ?? null)
  assert.equal(await workspace.getConfiguration('one'), 'one')
  assert.equal(await workspace.getConfiguration({ scopeUri: URI, section: 'two' }), 'two')
  assert.deepEqual(await workspace.getConfiguration([{ section: 'a' }, {}]), ['a', null])
  assert.equal(await workspace.getConfiguration(), null)
  assert.deepEqual(client.of('workspace/configuration').map(it => it.items), [[{ section: 'one' }], [{ scopeUri: URI, section: 'two' }], [{ section: 'a' }, {}], [{}]])
  client.calls['workspace/configuration'] = () => null // (a client that gives nothing)
  assert.deepEqual([await workspace.getConfiguration('one') ?? null, await workspace.getConfiguration([{}, {}])], [null, [null, null]])
  client.calls['workspace/configuration'] = undefined
  await rejectsWith(workspace.getConfiguration('one'), -32601)
  workspace.getConfiguration('one') // (nobody looks at its rejection)
}))

test('edits and folders', () => inSession(nothing, async (client, server) => {
  await client.begin()
  client.calls['workspace/applyEdit'] = () => ({ applied: true })
  client.calls['workspace/workspaceFolders'] = () => [{ uri: URI, name: 'n' }]
  const edit = { changes: { [URI]: [] } }
  assert.deepEqual(await server.workspace.applyEdit(edit), { applied: true })
  assert.deepEqual(await server.workspace.applyEdit({ label: 'l', edit }), { applied: true })
  assert.deepEqual(client.of('workspace/applyEdit'), [{ edit }, { label: 'l', edit }])
  assert.deepEqual(await server.workspace.getWorkspaceFolders(), [{ uri: URI, name: 'n' }])
}))

const FOLDERS = { workspace: { workspaceFolders: true } }
const changed = { event: { added: [{ uri: 'file:///b', name: 'b' }], removed: [] } }

for (const [name, capabilities, isBefore, registered] of [
  ['told', { workspace: { workspaceFolders: { supported: true, changeNotifications: true } } }, true, 0],
  ['not told, and asked for before initialize', {}, true, 1],
  ['not told, and asked for while it runs', { workspace: { workspaceFolders: { supported: true } } }, false, 1]
]) {
  test(`folders that come and go: ${name}`, async () => {
    const events = []
    const listen = server => { for (const _ of [1, 2]) server.workspace.onDidChangeWorkspaceFolders(it => { events.push(it) }) }
    await inSession(server => { if (isBefore) listen(server) }, async (client, server) => {
      await client.begin(FOLDERS)
      if (!isBefore) listen(server)
      await turns()
      assert.deepEqual(client.of('client/registerCapability').flatMap(it => it.registrations.map(one => one.method)), Array(registered).fill('workspace/didChangeWorkspaceFolders'))
      client.tell('workspace/didChangeWorkspaceFolders', changed)
      await turns()
      assert.deepEqual(events, [changed.event, changed.event])
      assert.deepEqual(client.logged, [])
    }, { capabilities })
  })
}

// Registrations

test('methods are registered and taken back while the server runs', () => inSession(nothing, async (client, server) => {
  await client.begin()
  const one = await server.client.register(lsp.DidChangeConfigurationNotification.type, { section: 's' })
  const two = await server.client.register('own/method')
  const [first, second] = client.of('client/registerCapability').map(it => it.registrations[0])
  assert.deepEqual([first, second], [
    { id: first.id, method: 'workspace/didChangeConfiguration', registerOptions: { section: 's' } }, { id: second.id, method: 'own/method', registerOptions: {} }
  ])
  assert.notEqual(first.id, second.id)
  one.dispose()
  two.dispose()
  await turns()
  assert.deepEqual(client.of('client/unregisterCapability'), [
    { unregisterations: [{ id: first.id, method: first.method }] }, { unregisterations: [{ id: second.id, method: second.method }] }
  ])
}))

test('several registrations together', () => inSession(nothing, async (client, server) => {
  await client.begin()
  const all = lsp.BulkRegistration.create()
  all.add(lsp.HoverRequest.type, { documentSelector: null })
  all.add('textDocument/definition')
  assert.throws(() => all.add(lsp.HoverRequest.type), /already added/)
  const taken = await server.client.register(all)
  const [{ registrations }] = client.of('client/registerCapability')
  assert.deepEqual(registrations.map(it => it.method), ['textDocument/hover', 'textDocument/definition'])
  assert.deepEqual([taken.disposeSingle('textDocument/hover'), taken.disposeSingle(lsp.HoverRequest.type)], [true, false])
  taken.dispose()
  taken.dispose()
  await turns()
  assert.deepEqual(client.of('client/unregisterCapability').map(it => it.unregisterations.map(one => one.method)), [['textDocument/hover'], ['textDocument/definition']])
  const more = lsp.BulkUnregistration.create()
  assert.equal(more.isAttached, false)
  assert.equal(await server.client.register(more, lsp.HoverRequest.type, {}), more)
  more.dispose()
  await turns()
  assert.deepEqual([more.isAttached, client.of('client/unregisterCapability').at(-1).unregisterations[0].method], [true, 'textDocument/hover'])
}))

test('a client that refuses a registration is logged, and ends nothing', () => inSession(nothing, async (client, server) => {
  client.calls['client/registerCapability'] = undefined
  await client.begin()
  server.client.register(lsp.DidChangeConfigurationNotification.type) // (nobody looks at its rejection)
  await rejectsWith(server.client.register('own/method'), -32601)
  await turns()
  assert.deepEqual(client.logged, [
    'Registering workspace/didChangeConfiguration failed: the client has no client/registerCapability',
    'Registering own/method failed: the client has no client/registerCapability'
  ])
}))

// What isn't told

const untold = method => new RegExp(`^${method} has a handler, and the capability \\S+ isn't told`)

test('a handler that no capability tells of is logged once', () => inSession(server => {
  server.onHover(nothing)
  server.onRenameRequest(nothing)
  server.onPrepareRename(nothing)
  server.onDefinition(nothing)
  server.onCompletion(nothing)
  server.onDidOpenTextDocument(nothing)
  server.onDidChangeWatchedFiles(nothing) // (which no capability tells of)
  server.languages.semanticTokens.on(nothing)
  new lsp.TextDocuments(lsp.TextDocument)
  server.onInitialized(() => {
    server.client.register(lsp.DefinitionRequest.type)
    server.client.register(lsp.SemanticTokensRegistrationType.type)
  })
}, async (client, server) => {
  await client.begin()
  assert.match(client.logged[0], untold('textDocument/hover'))
  assert.match(client.logged[1], untold('textDocument/prepareRename'))
  assert.match(client.logged[2], untold('textDocument/didOpen'))
  server.onHover(nothing) // (it was said)
  server.onReferences(nothing)
  await turns()
  assert.match(client.logged[3], untold('textDocument/references'))
  assert.equal(client.logged.length, 4)
}, { capabilities: { renameProvider: true, completionProvider: {} } }))

test('TextDocuments alone is told of by the kind of sync', () => inSession(server => {
  new lsp.TextDocuments(lsp.TextDocument).listen(server)
}, async client => {
  await client.begin()
  assert.deepEqual(client.logged, [])
}, { capabilities: { textDocumentSync: { openClose: true } } }))

test('a capability that LSP has not is logged once', () => inSession(nothing, async client => {
  await client.begin()
  assert.deepEqual(client.logged, ["hoverProvidr isn't a capability of LSP 3.17"])
}, { capabilities: { hoverProvidr: true, hoverProvider: true, experimental: { x: 1 } } }))

// Ends

test('what is said once the client is gone goes nowhere, and what is asked rejects', async () => {
  await inSession(server => {
    server.onHover(() => new Promise(nothing))
  }, async (client, server, { up }) => {
    await client.begin({ window: { workDoneProgress: true } })
    client.calls['workspace/configuration'] = () => new Promise(nothing)
    const waiting = server.workspace.getConfiguration('x')
    const hover = client.ask('textDocument/hover', { textDocument: { uri: URI }, position: { line: 0, character: 0 } })
    hover.catch(nothing)
    await turns()
    up.write('Content-Length: 5\r\n\r\n{') // the stream ends midway
    up.end()
    await rejectsWith(waiting, -32097)
    server.console.log('x')
    server.telemetry.logEvent({})
    server.window.attachWorkDoneProgress('t').begin('x')
    await server.sendDiagnostics({ uri: URI, diagnostics: [] })
    await assert.rejects(server.window.showErrorMessage('x'), lsp.ConnectionError)
    await assert.rejects(server.languages.diagnostics.refresh(), lsp.ConnectionError)
    assert.equal(typeof (await server.window.createWorkDoneProgress()).begin, 'function')
    server.dispose()
    server.console.log('x')
    await assert.rejects(server.workspace.getConfiguration('x'), lsp.ConnectionError)
  })
})

test('before initialize nothing is logged at the client', async () => {
  const told = []
  const { error } = console
  console.error = it => { told.push(it) }
  try {
    await inSession(server => {
      server.onNotification('exit', () => { throw new Error('at the end') })
    }, async client => {
      client.tell('exit')
      await until(() => told.length)
      assert.deepEqual(client.heard, [])
    })
  } finally {
    console.error = error
  }
  assert.deepEqual(told, ["bullmyrtle: Notification handler 'exit' failed with message: at the end"])
})
