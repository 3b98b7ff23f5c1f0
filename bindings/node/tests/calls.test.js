'use strict'
// Calls to the other side, batches, and cancels in every state.

const assert = require('node:assert/strict')
const { test } = require('node:test')
const {
  bullmyrtle, Raw, request, notice, withBoth, rejectsWith, until, sleep, turns
} = require('./helping')

const { CancellationTokenSource, CancellationToken, ResponseError } = bullmyrtle
const both = (register, act) => withBoth((server, client) => {
  client.onRequest('twice', it => 2 * it.n)
  client.onRequest('fail', it => { throw new ResponseError(7, 'seven', it) })
  register(server, client)
}, act)

test('a handler calls back', () => both(server => {
  server.onRequest('x', async n => {
    const [one, other] = await Promise.all([server.sendRequest('twice', { n }), server.sendRequest('twice', { n: n + 1 })])
    const batch = await server.sendBatch([['twice', { n: 1 }], ['fail', { a: 2 }]], { settled: true })
    return [one, other, batch[0].value, batch[1].reason.data]
  })
  server.onRequest('through', () => server.sendRequest('fail', { d: 1 }))
}, async client => {
  assert.deepEqual(await client.sendRequest('x', 5), [10, 12, 2, { a: 2 }])
  await assert.rejects(client.sendRequest('through'), { code: 7, message: 'seven', data: { d: 1 } })
}))

test('batches', () => both(() => {}, async (client, server) => {
  assert.deepEqual(await server.sendBatch([['twice', { n: 1 }], [new bullmyrtle.RequestType('twice'), { n: 2 }]]), [2, 4])
  await rejectsWith(server.sendBatch([['twice', { n: 1 }], ['fail', {}]]), 7, 'seven')
  await rejectsWith(server.sendBatch([]), bullmyrtle.ErrorCodes.MessageWriteError, 'a batch of no calls')
  await rejectsWith(server.sendBatch([['m', { a: 1n }]]), bullmyrtle.ErrorCodes.MessageWriteError, /BigInt/)
  assert.equal(server.hasPendingResponse(), false)
}))

test('a batch is one message', async () => {
  const raw = new Raw().listen()
  const calls = raw.connection.sendBatch([['a'], ['b', 1, 2]])
  await until(() => raw.written.length)
  assert.deepEqual(raw.written[0], [
    { id: 1, jsonrpc: '2.0', method: 'a' }, { id: 2, jsonrpc: '2.0', method: 'b', params: [1, 2] }
  ])
  raw.write([{ jsonrpc: '2.0', id: 2, result: 'two' }, { jsonrpc: '2.0', id: 1, result: 'one' }])
  assert.deepEqual(await calls, ['one', 'two'])
  raw.connection.dispose()
})

test('a reply that is faulty, foreign or comes twice', async () => {
  const raw = new Raw().listen()
  const first = raw.connection.sendRequest('a')
  const second = raw.connection.sendRequest('b')
  await until(() => raw.written.length === 2)
  // (a reply that comes before its call is ignored too)
  raw.write({ jsonrpc: '2.0', id: 9, result: 1 }, { jsonrpc: '2.0', id: '1', result: 1 }, { jsonrpc: '2.0', id: 1, result: 1, error: { code: 1, message: '' } })
  await rejectsWith(first, -32603, 'Invalid reply')
  raw.write({ jsonrpc: '2.0', id: 2, result: [1] }, { jsonrpc: '2.0', id: 2, result: [2] })
  assert.deepEqual(await second, [1])
  await until(() => raw.connection.counts().ignored === 3)
  raw.connection.dispose()
})

test('a token cancels in each state', async () => {
  const raw = new Raw().listen()
  const sent = () => raw.written.map(it => it.method)
  // before it is sent: it goes out, and its cancel behind it
  const early = new CancellationTokenSource()
  early.cancel()
  const first = raw.connection.sendRequest('a', early.token)
  await until(() => raw.written.length === 2)
  assert.deepEqual(raw.written[1], { jsonrpc: '2.0', method: '$/cancelRequest', params: { id: 1 } })
  // in the same turn
  const same = new CancellationTokenSource()
  const second = raw.connection.sendRequest('b', { x: 1 }, same.token)
  same.cancel()
  same.cancel()
  await until(() => raw.written.length === 4)
  assert.deepEqual(sent().slice(2), ['b', '$/cancelRequest'])
  // while it waits, and once it is answered
  const late = new CancellationTokenSource()
  const third = raw.connection.sendRequest('c', late.token)
  await until(() => raw.written.length === 5)
  raw.write({ jsonrpc: '2.0', id: 3, result: 5 })
  assert.equal(await third, 5)
  late.cancel()
  // an answer to a call that was cancelled is told
  raw.write({ jsonrpc: '2.0', id: 1, error: { code: -32800, message: 'gone' } }, { jsonrpc: '2.0', id: 2, result: 'after all' })
  await rejectsWith(first, -32800, 'gone')
  assert.equal(await second, 'after all')
  await turns()
  assert.equal(raw.written.length, 5)
  assert.equal(raw.connection.counts().waiting, 0)
  raw.connection.dispose()
})

test('a cancel reaches a handler in each state', async () => {
  const raw = new Raw().listen()
  const seen = []
  raw.connection.onRequest('slow', (it, token) => new Promise((resolve, reject) => {
    seen.push(['begun', it.n, token.isCancellationRequested])
    const stop = () => reject(new ResponseError(-32800, 'stopped'))
    if (token.isCancellationRequested) stop()
    else token.onCancellationRequested(stop)
  }))
  raw.connection.onRequest('stubborn', async (it, token) => { await sleep(10); return token.isCancellationRequested })
  raw.connection.onRequest('plain', () => 'plain')
  const cancel = id => notice('$/cancelRequest', { id })
  // while it goes on
  raw.write(request(1, 'slow', { n: 1 }))
  await until(() => seen.length === 1)
  assert.deepEqual(await raw.say(1, cancel(1)), [{ error: { code: -32800, message: 'stopped' }, id: 1, jsonrpc: '2.0' }])
  // before it began, behind another one
  await turns()
  const found = await raw.say(2, request(2, 'slow', { n: 2 }), request(3, 'slow', { n: 3 }), cancel(3), cancel(2))
  assert.deepEqual(found.map(it => it.id).sort(), [2, 3])
  assert.deepEqual(seen.slice(1), [['begun', 2, false], ['begun', 3, true]])
  // one that goes on all the same
  const [stubborn] = await raw.say(1, request('s', 'stubborn', {}), cancel('s'))
  assert.equal(stubborn.result, true)
  // one that is answered, one that is unknown, and one with an id of another type
  const late = await raw.say(1, request(5, 'plain'), cancel(5), cancel(77), cancel('5'))
  assert.equal(late[0].result, 'plain')
  assert.equal(raw.connection.open, 0)
  raw.connection.dispose()
})

test('a cancel of an id with 20 digits', async () => {
  const raw = new Raw({ protocol: 'lsp' }).listen()
  const ended = []
  const slow = token => new Promise(resolve => token.onCancellationRequested(() => { ended.push(1); resolve(1) }))
  raw.connection.onRequest('slow', slow)
  const one = '{"jsonrpc":"2.0","id":18446744073709551615,"method":"slow"}'
  const other = one.replace('615', '614')
  const text = '{"jsonrpc":"2.0","method":"$/cancelRequest","params":{"id":18446744073709551615}}'
  raw.write(Buffer.from([one, other, text].map(it => `Content-Length: ${it.length}\r\n\r\n${it}`).join('')))
  await until(() => ended.length === 1 && raw.written.length === 1)
  await turns()
  assert.equal(raw.connection.open, 1)
  raw.connection.dispose()
  const tools = new Raw({ protocol: 'mcp' }).listen()
  tools.connection.onRequest('slow', slow)
  tools.input.write(`${one}\n${other}\n{"jsonrpc":"2.0","method":"notifications/cancelled","params":{"reason":"18446744073709551614","requestId":18446744073709551615}}\n`)
  await until(() => ended.length === 2)
  await turns()
  assert.deepEqual([tools.connection.open, tools.written], [1, []])
  tools.connection.dispose()
})

const mcpCancel = id => notice('notifications/cancelled', { requestId: id, reason: 'no' })

test("MCP's cancels", async () => {
  const raw = new Raw({ protocol: 'mcp' }).listen()
  const seen = []
  raw.connection.onRequest('slow', token => new Promise(resolve => token.onCancellationRequested(() => resolve('dropped'))))
  raw.connection.onRequest('plain', () => 'plain')
  raw.connection.onNotification('notifications/cancelled', it => seen.push(it))
  const found = await raw.say(1, request('a', 'slow'), mcpCancel('a'), request('b', 'plain'))
  // (what is cancelled has no answer)
  assert.deepEqual(found, [{ id: 'b', jsonrpc: '2.0', result: 'plain' }])
  raw.write(notice('notifications/cancelled'), notice('notifications/cancelled', { requestId: {} }), notice('notifications/cancelled', [1]), notice('$/cancelRequest', { id: 'a' }))
  await until(() => seen.length === 3)
  const before = raw.written.length
  // ours: it waits no longer, since nobody will answer
  const source = new CancellationTokenSource()
  const call = raw.connection.sendRequest('sampling', {}, source.token)
  await until(() => raw.written.length === before + 1)
  source.cancel()
  await rejectsWith(call, -32800, 'Request cancelled')
  await until(() => raw.written.length === before + 2)
  assert.deepEqual(raw.written.at(-1), { jsonrpc: '2.0', method: 'notifications/cancelled', params: { requestId: 1 } })
  assert.equal(raw.connection.counts().waiting, 0)
  raw.write({ jsonrpc: '2.0', id: 1, result: 'too late' })
  await turns()
  assert.equal(raw.connection.hasPendingResponse(), false)
  assert.equal(raw.connection.counts().ignored, 1)
  raw.connection.dispose()
})

test('what MCP cancels has no answer, whatever its handler does', async () => {
  const endings = {
    resolves: resolve => resolve('dropped'),
    rejects: (_, reject) => reject(new Error('dropped')),
    'rejects with an error of its own': (_, reject) => reject(new ResponseError(5, 'dropped')),
    'is no JSON': resolve => resolve(1n)
  }
  for (const [name, end] of Object.entries(endings)) {
    const raw = new Raw({ protocol: 'mcp' }).listen()
    raw.connection.onRequest('slow', token => new Promise((resolve, reject) => {
      if (token.isCancellationRequested) end(resolve, reject)
      else token.onCancellationRequested(() => end(resolve, reject))
    }))
    raw.connection.onRequest('stubborn', async token => { await sleep(5); return token.isCancellationRequested })
    raw.connection.onRequest('plain', () => 'plain')
    // one that goes on, one that hasn't begun behind it, and one that takes no notice
    raw.write(request(1, 'slow'), request(2, 'slow'), request(3, 'stubborn'), mcpCancel(3), mcpCancel(2), mcpCancel(1))
    await until(() => raw.connection.open === 0)
    assert.deepEqual(await raw.say(1, request(4, 'plain')), [{ id: 4, jsonrpc: '2.0', result: 'plain' }], name)
    const { open, answersWritten } = raw.connection.counts()
    assert.deepEqual([open, answersWritten], [0, 1], name)
    raw.connection.dispose()
  }
})

test('in a batch, the entry of what MCP cancels is left out', async () => {
  const raw = new Raw({ protocol: 'mcp' }).listen()
  raw.connection.onRequest('slow', token => new Promise(resolve => token.onCancellationRequested(() => resolve('dropped'))))
  raw.connection.onRequest('plain', () => 'plain')
  raw.write([request(1, 'slow'), mcpCancel(1)])
  const found = await raw.say(1, [request(2, 'slow'), request(3, 'plain'), mcpCancel(2)])
  assert.deepEqual(found, [[{ id: 3, jsonrpc: '2.0', result: 'plain' }]])
  raw.connection.dispose()
})

test('what only this side gives up is answered, with MCP too', async () => {
  const raw = new Raw({ protocol: 'mcp' }).listen()
  raw.connection.onRequest('slow', () => new Promise(() => {}))
  raw.write(request(1, 'slow'))
  await until(() => raw.connection.open === 1)
  raw.connection.cancelOpen()
  await until(() => raw.written.length === 1)
  assert.deepEqual(raw.written, [{ error: { code: -32800, message: 'Request cancelled' }, id: 1, jsonrpc: '2.0' }])
  raw.connection.dispose()
})

test("MCP's initialize is never cancelled, by either side", async () => {
  const raw = new Raw({ protocol: 'mcp' }).listen()
  const tokens = []
  raw.connection.onRequest('initialize', async (it, token) => {
    tokens.push(token)
    await (it.ms === undefined ? new Promise(() => {}) : sleep(it.ms))
    return 'begun'
  })
  const result = id => ({ id, jsonrpc: '2.0', result: 'begun' })
  // while it goes on, and before it began
  const found = await raw.say(2, request(1, 'initialize', { ms: 5 }), request(2, 'initialize', { ms: 0 }), mcpCancel(2), mcpCancel(1))
  assert.deepEqual(found.sort((a, b) => a.id - b.id), [result(1), result(2)])
  assert.deepEqual(tokens.map(it => it.isCancellationRequested), [false, false])
  // at the end of the grace
  raw.write(request(3, 'initialize', {}), mcpCancel(3))
  await until(() => raw.connection.open === 1)
  await turns()
  raw.connection.cancelOpen()
  await until(() => raw.written.length === 3)
  assert.equal(raw.written[2].error.code, -32800)
  // ours waits for its reply, and no cancel is said
  const source = new CancellationTokenSource()
  const call = raw.connection.sendRequest('initialize', {}, source.token)
  source.cancel()
  await turns()
  assert.deepEqual(raw.written.slice(3).map(it => it.method), ['initialize'])
  raw.write({ jsonrpc: '2.0', id: 1, result: 'begun' })
  assert.equal(await call, 'begun')
  raw.connection.dispose()
})

test('strategies of cancellation', async () => {
  const said = []
  const strategy = {
    receiver: { createCancellationTokenSource: id => { said.push(['made', id]); return new CancellationTokenSource() } },
    sender: { sendCancellation: async (connection, id) => { said.push(['sent', id]) }, cleanup: id => said.push(['clean', id]) }
  }
  const raw = new Raw({ cancellationStrategy: strategy }).listen()
  raw.connection.onRequest('m', () => 1)
  await raw.say(1, request('é', 'm'))
  const source = new CancellationTokenSource()
  const call = raw.connection.sendRequest('c', source.token)
  await until(() => raw.written.length === 2)
  source.cancel()
  raw.write({ jsonrpc: '2.0', id: 1, result: 1 })
  await call
  assert.deepEqual(said, [['made', 'é'], ['sent', 1], ['clean', 1]])
  raw.connection.dispose()
})

test('a request that has not begun is answered by a strategy', async () => {
  const raw = new Raw({ connectionStrategy: { cancelUndispatched: it => ({ jsonrpc: '2.0', id: it.id, error: { code: -32800, message: `${it.method} ${it.params.n}` } }) } }).listen()
  raw.connection.onRequest('slow', () => new Promise(() => {}))
  const [answer] = await raw.say(1, request(1, 'slow', {}), request(2, 'slow', { n: 5 }), notice('$/cancelRequest', { id: 2 }))
  assert.deepEqual(answer, { error: { code: -32800, message: 'slow 5' }, id: 2, jsonrpc: '2.0' })
  assert.equal(raw.connection.open, 1)
  raw.connection.dispose()
})

test('a strategy of messages', async () => {
  const seen = []
  const raw = new Raw({ messageStrategy: { handleMessage: (it, next) => { seen.push(it); next({ ...it, params: { n: 1 } }) } } }).listen()
  raw.connection.onRequest('m', it => it.n)
  const [answer] = await raw.say(1, notice('x'), request(7, 'm', { n: 0 }))
  assert.equal(answer.result, 1)
  assert.deepEqual(seen, [{ jsonrpc: '2.0', method: 'x' }, { jsonrpc: '2.0', id: 7, method: 'm', params: { n: 0 } }])
  raw.connection.dispose()
})

test('tokens and emitters', async () => {
  const source = new CancellationTokenSource()
  const calls = []
  const disposables = []
  source.token.onCancellationRequested(function () { calls.push(this.name) }, { name: 'self' }, disposables)
  source.token.onCancellationRequested(() => calls.push('dropped')).dispose()
  assert.equal(disposables.length, 1)
  assert.ok(CancellationToken.is(source.token) && CancellationToken.is(CancellationToken.None) && !CancellationToken.is({}) && !CancellationToken.is(null))
  source.cancel()
  source.token.onCancellationRequested(() => calls.push('after'))
  await until(() => calls.length === 2)
  assert.deepEqual(calls, ['self', 'after'])
  const unused = new CancellationTokenSource()
  unused.dispose()
  assert.equal(unused.token, CancellationToken.None)
  const emitter = new bullmyrtle.Emitter({ onFirstListenerAdd: () => calls.push('first'), onLastListenerRemove: () => calls.push('last') })
  const one = emitter.event(() => calls.push('fired'))
  emitter.fire()
  one.dispose()
  one.dispose()
  assert.deepEqual(calls.slice(2), ['first', 'fired', 'last'])
})
