'use strict'
// Each method of LSP 3.17 reaches its handler, params are held to their types, and what handlers do wrong is answered.

const assert = require('node:assert/strict')
const { test } = require('node:test')
const { rejectsWith, turns, until } = require('./helping')
const { lsp, URI, at, inSession } = require('./language_sessions')
const { METHODS, structures, unions, enumerations } = require('../lib/lsp/specification.js')
const { membersOf, fits } = require('../lib/lsp/fitting.js')

const PLAIN = { string: 'text', DocumentUri: URI, URI, integer: 1, uinteger: 1, decimal: 0.5, boolean: true, null: null, LSPAny: [1], LSPObject: {} }

/** A value of a type, with no member that may be absent. */
function sample(type) {
  if (Array.isArray(type)) {
    const [sign, ...parts] = type
    if (sign === '=') return parts[0]
    if (sign === '[]') return [sample(parts[0])]
    if (sign === '()') return parts.map(sample)
    return sign === '{}' ? { key: sample(parts[0]) } : sample(parts[0])
  }
  if (type in PLAIN) return PLAIN[type]
  if (type in unions) return sample(unions[type])
  if (type in enumerations) return Object.values(enumerations[type].values)[0]
  return Object.fromEntries(membersOf(type).filter(it => !it.isOptional).map(it => [it.name, sample(it.type)]))
}

const atPath = (value, path) => path.split('.').reduce((it, name) => it[name], value)
const OWN = new Set(['initialize', 'initialized', 'shutdown', 'exit', '$/cancelRequest', '$/progress', '$/setTrace', 'window/workDoneProgress/cancel', 'workspace/didChangeWorkspaceFolders'])
const toServer = [...METHODS].filter(([name, it]) => it.to !== 'client' && !OWN.has(name))

test('each method of servers has a member, which gets its params', () => {
  const got = new Map()
  return inSession(server => {
    for (const [method, { member, kind }] of toServer) {
      atPath(server, member)(params => {
        got.set(method, params)
        return kind === 'request' ? { of: method } : undefined
      })
    }
  }, async client => {
    await client.begin()
    assert.ok(toServer.length > 60)
    for (const [method, { kind, params }] of toServer) {
      const given = sample(params)
      assert.ok(fits(params)(given), method)
      if (kind === 'request') assert.deepEqual(await client.ask(method, given), { of: method })
      else client.tell(method, given)
      await turns()
      assert.deepEqual(got.get(method), given, method)
    }
  })
})

test('each refresh asks the client', () => inSession(() => {}, async (client, server) => {
  await client.begin()
  const refreshes = [...METHODS].filter(([name]) => name.endsWith('/refresh'))
  assert.deepEqual(refreshes.map(it => it[1].member.split('.')[1]).sort(), ['codeLens', 'diagnostics', 'inlayHint', 'inlineValue', 'semanticTokens'])
  for (const [method, { member }] of refreshes) {
    client.calls[method] = () => null
    assert.equal(await atPath(server, member)(), undefined)
    assert.equal(client.of(method).length, 1)
    client.calls[method] = undefined
    await rejectsWith(atPath(server, member)(), -32601)
    atPath(server, member)() // (its rejection, at which nobody looks, doesn't end the process)
    await turns()
  }
}))

test('each constant has the method, its kind and its direction', () => {
  for (const [method, { constant, kind, to, params }] of METHODS) {
    if (constant === undefined) continue
    const { type, method: name, messageDirection } = lsp[constant]
    assert.deepEqual([name, type.method, type.numberOfParams], [method, method, params === undefined ? 0 : 1])
    assert.ok(kind === 'request' ? type instanceof lsp.RequestType || type instanceof lsp.RequestType0 : type instanceof lsp.NotificationType || type instanceof lsp.NotificationType0, method)
    assert.equal(messageDirection, { server: 'clientToServer', client: 'serverToClient', both: 'both' }[to])
  }
  const names = ['HoverRequest', 'DidOpenTextDocumentNotification', 'WillSaveTextDocumentWaitUntilRequest', 'SemanticTokensRangeRequest', 'ApplyWorkspaceEditRequest', 'RegistrationRequest']
  assert.deepEqual(names.map(it => lsp[it].method), ['textDocument/hover', 'textDocument/didOpen', 'textDocument/willSaveWaitUntil', 'textDocument/semanticTokens/range', 'workspace/applyEdit', 'client/registerCapability'])
  assert.deepEqual([lsp.SemanticTokensRegistrationType.type.method, lsp.NotebookDocumentSyncRegistrationType.method], ['textDocument/semanticTokens', 'notebookDocument/sync'])
})

test('params that are not the method\'s are answered -32602', () => inSession(server => {
  server.onHover(() => assert.fail('these are no params'))
  server.onRequest('textDocument/definition', () => assert.fail('these are no params'))
  server.onCodeAction(() => [])
}, async client => {
  await client.begin()
  const wrong = {
    'must be an object, got nothing': undefined, 'must be an object, got array': [], 'lacks textDocument': {},
    'lacks position': { textDocument: { uri: URI } }, 'params.textDocument.uri must be a string, got number': { ...at(0, 0), textDocument: { uri: 5 } },
    'params.position.character must be an integer, got string': at(0, '0'), 'params.position.line must be at least 0': at(-1, 0),
    'params.position.line must be at most 2147483647': at(2 ** 31, 0),
    'params.position.line must be an integer, got number': at(0.5, 0), 'params.position must be an object, got array': { ...at(0, 0), position: [0, 0] }
  }
  for (const method of ['textDocument/hover', 'textDocument/definition']) {
    for (const [words, params] of Object.entries(wrong)) {
      await assert.rejects(client.ask(method, params), error => error.code === -32602 && error.message.endsWith(words), words)
    }
  }
  const range = { start: at(0, 0).position, end: at(0, 0).position }
  const context = { diagnostics: [{ range, message: 'x', severity: 9 }] }
  await rejectsWith(client.ask('textDocument/codeAction', { textDocument: { uri: URI }, range, context }), -32602, /diagnostics\[0\]\.severity must be one of DiagnosticSeverity's values, got 9/)
  // (what a client of 3.15 sends, and one that is newer than 3.17)
  assert.deepEqual(await client.ask('textDocument/codeAction', { textDocument: { uri: URI }, range, context: { diagnostics: [], only: null, newer: 1 } }), [])
}))

test('with `checks: false` the program has the params as they come', () => inSession(server => {
  server.onHover(params => ({ contents: JSON.stringify(params ?? 'none') }))
}, async client => {
  await client.begin()
  assert.deepEqual(await client.ask('textDocument/hover', { x: 1 }), { contents: '{"x":1}' })
  assert.deepEqual(await client.ask('textDocument/hover'), { contents: '"none"' })
}, { options: { checks: false } }))

test('what handlers do wrong is answered', () => {
  const ring = {}
  ring.ring = ring
  const doings = [
    [() => undefined, null], [() => null, null], [async () => undefined, null], [() => NaN, null],
    [() => { throw new Error('thrown') }, -32603], [async () => { throw new Error('rejected') }, -32603], [() => { throw null }, -32603],
    [() => Promise.reject(), -32603], [() => { throw new lsp.ResponseError(-32803, 'own') }, -32803], [() => new lsp.ResponseError(7, 'given'), 7],
    [async () => new lsp.ResponseError(8, 'given'), 8], [() => 5n, -32603], [() => ring, -32603], [() => () => {}, -32603], [() => Symbol('x'), -32603],
    [() => ({ toJSON() { throw new Error('no') } }), -32603], [() => '\ud800', -32603]
  ]
  let doing
  return inSession(server => {
    server.onHover((...given) => doing(...given))
    server.onDidChangeConfiguration(() => { throw new Error('a notification') })
    server.onDidSaveTextDocument(async () => { throw new Error('another') })
  }, async client => {
    await client.begin()
    for (const more of [{}, { workDoneToken: 'w' }]) {
      for (const [act, expected] of doings) {
        doing = act
        if (expected === null) assert.equal(await client.ask('textDocument/hover', { ...at(0, 0), ...more }), null)
        else await rejectsWith(client.ask('textDocument/hover', { ...at(0, 0), ...more }), expected)
      }
    }
    client.tell('workspace/didChangeConfiguration', { settings: {} })
    client.tell('textDocument/didSave', { textDocument: { uri: URI } })
    await turns()
    assert.deepEqual(client.logged.filter(it => it.startsWith('Notification')), [
      "Notification handler 'workspace/didChangeConfiguration' failed with message: a notification",
      "Notification handler 'textDocument/didSave' failed with message: another"
    ])
  }, { capabilities: { hoverProvider: true, textDocumentSync: 1 } })
})

test('a handler that never answers holds nothing up, and its token tells that it is cancelled', () => {
  let cancelled = 0
  return inSession(server => {
    server.onHover((_, token) => new Promise(() => { token.onCancellationRequested(() => { cancelled++ }) }))
    server.onDefinition((_, token) => (token.isCancellationRequested ? 1 : []))
  }, async (client, server) => {
    await client.begin()
    const source = new lsp.CancellationTokenSource()
    client.connection.sendRequest('textDocument/hover', at(0, 0), source.token).catch(() => {})
    assert.deepEqual(await client.ask('textDocument/definition', at(0, 0)), [])
    source.cancel()
    await until(() => cancelled === 1)
    assert.deepEqual(await client.ask('textDocument/definition', at(0, 0)), [])
    server.dispose()
  })
})

test('of two handlers of a method the later one is called, and only its own disposing takes it away', () => inSession(server => {
  const first = server.onHover(() => ({ contents: 'first' }))
  server.second = server.onRequest(lsp.HoverRequest.type, () => ({ contents: 'second' }))
  first.dispose()
}, async (client, server) => {
  await client.begin()
  assert.deepEqual(await client.ask('textDocument/hover', at(0, 0)), { contents: 'second' })
  server.second.dispose()
  await rejectsWith(client.ask('textDocument/hover', at(0, 0)), -32601)
}))

test('methods of the program\'s own', () => inSession(server => {
  server.onRequest('own/add', (one, other) => one + other)
  server.onRequest(new lsp.RequestType('own/typed'), params => params.x)
  server.onRequest((method, params) => [method, params])
  server.onNotification((method, params) => server.sendNotification('own/heard', { method, params }))
  server.onNotification('own/named', it => server.sendNotification('own/heard', it))
}, async client => {
  await client.begin()
  assert.equal(await client.connection.sendRequest('own/add', 1, 2), 3)
  assert.equal(await client.ask('own/typed', { x: 5 }), 5)
  await rejectsWith(client.ask('own/typed'), -32602)
  assert.deepEqual(await client.ask('own/other', { y: 1 }), ['own/other', { y: 1 }])
  client.tell('own/named', { a: 1 })
  client.tell('own/more', { b: 1 })
  await turns()
  assert.deepEqual(client.of('own/heard'), [{ a: 1 }, { method: 'own/more', params: { b: 1 } }])
}))

// Progress and parts

const HOVER = { capabilities: { hoverProvider: true, referencesProvider: true } }

test('a request with a token of progress reports to it, and no longer than it is open', () => {
  let late
  return inSession(server => {
    server.onHover(async (params, token, progress, parts) => {
      late = progress
      assert.deepEqual([params, parts], [at(0, 0), undefined])
      progress.begin('Looking', 0, 'first', true)
      progress.report(50)
      progress.report('half')
      progress.report(75, 'more')
      return null
    })
  }, async client => {
    await client.begin()
    assert.equal(await client.ask('textDocument/hover', { ...at(0, 0), workDoneToken: 't' }), null)
    late.report(80)
    late.done()
    assert.equal(await client.ask('textDocument/hover', at(0, 0)), null) // (and without one says nothing)
    await turns()
    const values = [
      { kind: 'begin', title: 'Looking', percentage: 0, message: 'first', cancellable: true }, { kind: 'report', percentage: 50 },
      { kind: 'report', message: 'half' }, { kind: 'report', percentage: 75, message: 'more' }, { kind: 'end' }
    ]
    assert.deepEqual(client.of('$/progress'), values.map(value => ({ token: 't', value })))
  }, HOVER)
})

test('a handler that fails ends its progress before it is answered', () => inSession(server => {
  server.onHover((params, token, progress) => {
    progress.begin('x')
    throw new lsp.ResponseError(3, 'failed')
  })
}, async client => {
  await client.begin()
  await rejectsWith(client.ask('textDocument/hover', { ...at(0, 0), workDoneToken: 5 }), 3)
  assert.deepEqual(client.of('$/progress').map(it => it.value.kind), ['begin', 'end'])
}, HOVER))

test('parts of a result go to the token of the request', () => {
  let late
  return inSession(server => {
    server.onReferences((params, token, progress, parts) => {
      if (parts === undefined) return ['all']
      late = parts
      parts.report(['one'])
      parts.report(['two'])
      return []
    })
  }, async client => {
    await client.begin()
    const params = { ...at(0, 0), context: { includeDeclaration: true } }
    assert.deepEqual(await client.ask('textDocument/references', params), ['all'])
    assert.deepEqual(await client.ask('textDocument/references', { ...params, partialResultToken: 'p' }), [])
    late.report(['late'])
    await turns()
    assert.deepEqual(client.of('$/progress'), [{ token: 'p', value: ['one'] }, { token: 'p', value: ['two'] }])
  }, HOVER)
})

test('a progress of our own is shown where the client has such, and may be cancelled', () => inSession(() => {}, async (client, server) => {
  await client.begin({ window: { workDoneProgress: true } })
  client.calls['window/workDoneProgress/create'] = () => null
  const progress = await server.window.createWorkDoneProgress()
  const [{ token }] = client.of('window/workDoneProgress/create')
  progress.begin('Indexing', undefined, undefined, true)
  assert.equal(progress.token.isCancellationRequested, false)
  client.tell('window/workDoneProgress/cancel', { token: 'another' })
  client.tell('window/workDoneProgress/cancel', { token })
  await until(() => progress.token.isCancellationRequested)
  progress.done()
  progress.done()
  await turns()
  assert.deepEqual(client.of('$/progress'), [{ token, value: { kind: 'begin', title: 'Indexing', cancellable: true } }, { token, value: { kind: 'end' } }])
  client.calls['window/workDoneProgress/create'] = undefined // (a client that refuses it shows nothing)
  const other = await server.window.createWorkDoneProgress()
  other.begin('x')
  other.done()
  await turns()
  assert.equal(client.of('$/progress').length, 2)
}))

test('a client without progress is sent none', () => inSession(() => {}, async (client, server) => {
  await client.begin()
  const progress = await server.window.createWorkDoneProgress()
  progress.begin('x')
  progress.report(5)
  progress.done()
  server.window.attachWorkDoneProgress(undefined).begin('x')
  server.window.attachWorkDoneProgress('t').begin('x')
  await turns()
  assert.deepEqual([progress.token.isCancellationRequested, client.heard.map(it => it[0])], [false, ['$/progress']])
}))
