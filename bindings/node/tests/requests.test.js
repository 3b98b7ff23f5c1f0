'use strict'
// Requests and notifications: handlers, params, results and errors.

const assert = require('node:assert/strict')
const { test } = require('node:test')
const { bullmyrtle, Raw, request, notice, withBoth, rejectsWith, sleep, turns } = require('./helping')

const { RequestType, RequestType0, RequestType2, NotificationType, NotificationType0, NotificationType2, ParameterStructures,
  ResponseError, ErrorCodes } = bullmyrtle

test('results', () => withBoth(server => {
  server.onRequest('echo', (...given) => given.slice(0, -1))
  server.onRequest('later', async it => { await sleep(1); return it })
  server.onRequest('nothing', () => undefined)
  server.onRequest('thenable', it => ({ then(resolve) { resolve(it) } }))
  server.onRequest('map', () => ({ toJSON: () => ({ a: new Date(0) }) }))
}, async client => {
  const value = { a: [1, 2.5, null, true, 'é/😀\0\n'], '': {} }
  assert.deepEqual(await client.sendRequest('echo', value), [value])
  assert.deepEqual(await client.sendRequest('echo', 1, 'b', undefined), [1, 'b', null])
  assert.deepEqual(await client.sendRequest('echo'), [])
  assert.deepEqual(await client.sendRequest('echo', [1, 2]), [[1, 2]])
  assert.deepEqual(await client.sendRequest('echo', null), [null])
  assert.deepEqual(await client.sendRequest('later', value), value)
  assert.equal(await client.sendRequest('nothing'), null)
  assert.deepEqual(await client.sendRequest('thenable', value), value)
  assert.deepEqual(await client.sendRequest('map'), { a: '1970-01-01T00:00:00.000Z' })
}))

test('params by types: how they are sent, and what a handler is given', async () => {
  const raw = new Raw().listen()
  const { connection } = raw
  const sent = async act => {
    const before = raw.written.length
    act()
    await turns()
    return raw.written[before].params
  }
  const by = structures => new RequestType('m', structures)
  const rows = [
    [() => connection.sendRequest(new RequestType0('m')), undefined],
    [() => connection.sendRequest(by(), { a: 1 }), { a: 1 }],
    [() => connection.sendRequest(by(), [1]), [[1]]],
    [() => connection.sendRequest(by(), 5), [5]],
    [() => connection.sendRequest(by(), undefined), [null]],
    [() => connection.sendRequest(by(ParameterStructures.byPosition), { a: 1 }), [{ a: 1 }]],
    [() => connection.sendRequest(by(ParameterStructures.byName), { a: 1 }), { a: 1 }],
    [() => connection.sendRequest(new RequestType2('m'), 1), [1, null]],
    [() => connection.sendRequest('m', ParameterStructures.byPosition, { a: 1 }), [{ a: 1 }]],
    [() => connection.sendRequest('m', ParameterStructures.byName, { a: 1 }), { a: 1 }],
    [() => connection.sendRequest('m', 1, { b: 2 }), [1, { b: 2 }]],
    [() => connection.sendNotification('m'), undefined],
    [() => connection.sendNotification('m', { a: 1 }), { a: 1 }],
    [() => connection.sendNotification('m', 'x', undefined), ['x', null]],
    [() => connection.sendNotification(new NotificationType('m'), 'x'), ['x']],
    [() => connection.sendNotification(new NotificationType2('m'), 'x', 'y'), ['x', 'y']]
  ]
  for (const [act, params] of rows) assert.deepEqual(await sent(() => { act().catch?.(() => {}) }), params, `${act}`)
  assert.throws(() => connection.sendRequest(by(ParameterStructures.byName), [1]), /by name but param is not an object literal/)
  assert.throws(() => connection.sendRequest('m', ParameterStructures.byName, 1, 2), /Received 2 parameters for 'by Name' request/)
  assert.throws(() => connection.sendNotification('m', ParameterStructures.byName, 1, 2), /Received 2 parameters for 'by Name' notification/)
  connection.dispose()
})

test('params that do not fit a type', async () => {
  const raw = new Raw().listen()
  raw.connection.onRequest(new RequestType('named', ParameterStructures.byName), () => 1)
  raw.connection.onRequest(new RequestType('placed', ParameterStructures.byPosition), () => 1)
  raw.connection.onRequest(new RequestType2('two'), (...given) => given.length)
  const [none, listed, named, two] = await raw.say(4, request(1, 'named'), request(2, 'named', [1]), request(3, 'placed', {}), request(4, 'two', [1, 2]))
  assert.deepEqual(none.error, { code: -32602, message: 'Request named defines 1 params but received none.' })
  assert.deepEqual(listed.error, { code: -32602, message: 'Request named defines parameters by name but received parameters by position' })
  assert.deepEqual(named.error, { code: -32602, message: 'Request placed defines parameters by position but received parameters by name' })
  assert.equal(two.result, 3)
  const seen = []
  raw.connection.onNotification(new NotificationType('n', ParameterStructures.byName), it => seen.push(it))
  raw.connection.onNotification(new NotificationType2('m'), (...them) => seen.push(them))
  raw.write(notice('n', [1]), notice('m', [1]), notice('m'), notice('m', { a: 1 }))
  await turns()
  assert.deepEqual(seen, [1, [1], [], [{ a: 1 }]])
  assert.deepEqual(raw.log.errors, [
    'Notification n defines parameters by name but received parameters by position',
    'Notification m defines 2 params but received 1 arguments', 'Notification m defines 2 params but received none.'
  ])
  raw.connection.dispose()
})

test('errors', () => withBoth(server => {
  server.onRequest('own', () => { throw new ResponseError(7, 'seven', { a: 1 }) })
  server.onRequest('returned', async () => new ResponseError(8, 'eight'))
  server.onRequest('error', () => { throw new Error('two\nlines') })
  server.onRequest('rejected', async () => { throw new TypeError('typed') })
  server.onRequest('text', () => { throw 'a text' })
  server.onRequest('null', async () => { throw null })
  server.onRequest('code', () => { throw new ResponseError(1.5, 'no code') })
  server.onRequest('surrogate', () => { throw new Error('half \ud800') })
}, async client => {
  await assert.rejects(client.sendRequest('own'), { code: 7, message: 'seven', data: { a: 1 } })
  await rejectsWith(client.sendRequest('returned'), 8, 'eight')
  await rejectsWith(client.sendRequest('error'), -32603, 'Request error failed with message: two\nlines')
  await rejectsWith(client.sendRequest('rejected'), -32603, 'Request rejected failed with message: typed')
  await rejectsWith(client.sendRequest('text'), -32603, 'Request text failed unexpectedly without providing any details.')
  await rejectsWith(client.sendRequest('null'), -32603, 'Request null failed unexpectedly without providing any details.')
  await rejectsWith(client.sendRequest('code'), ErrorCodes.UnknownErrorCode, 'no code')
  await rejectsWith(client.sendRequest('surrogate'), -32603, /half \ufffd/)
  await rejectsWith(client.sendRequest('nobody'), -32601, 'Unhandled method nobody')
}))

test('notifications', () => withBoth(() => {}, async (client, server, log) => {
  const seen = []
  server.onNotification('throws', () => { throw new Error('thrown') })
  server.onNotification('rejects', async () => { throw 5 })
  server.onNotification(new NotificationType0('zero'), () => seen.push('zero'))
  server.onNotification('many', (...given) => seen.push(given))
  server.onUnhandledNotification(it => seen.push(it))
  for (const it of ['throws', 'rejects', 'zero']) await client.sendNotification(it)
  await client.sendNotification('many', 1, 2)
  await client.sendNotification('nobody', { a: 1 })
  await turns()
  assert.deepEqual(seen, ['zero', [1, 2], { jsonrpc: '2.0', method: 'nobody', params: { a: 1 } }])
  assert.deepEqual(log.errors, [
    "Notification handler 'throws' failed with message: thrown", "Notification handler 'rejects' failed unexpectedly."
  ])
}))

test('handlers for all methods, and handlers that are taken away', () => withBoth(() => {}, async (client, server) => {
  const star = server.onRequest((method, params, token) => [method, params ?? 'none', token.isCancellationRequested])
  const seen = []
  const starred = server.onNotification((method, params) => seen.push([method, params]))
  assert.deepEqual(await client.sendRequest('any', { a: 1 }), ['any', { a: 1 }, false])
  assert.deepEqual(await client.sendRequest('other'), ['other', 'none', false])
  const named = server.onRequest('any', () => 'named')
  assert.equal(await client.sendRequest('any'), 'named')
  named.dispose()
  assert.deepEqual(await client.sendRequest('any'), ['any', 'none', false])
  star.dispose()
  await rejectsWith(client.sendRequest('any'), -32601)
  await client.sendNotification('n', { a: 1 })
  await client.sendRequest('x').catch(() => {})
  starred.dispose()
  await client.sendNotification('n')
  await client.sendRequest('x').catch(() => {})
  assert.deepEqual(seen, [['n', { a: 1 }]])
  server.onRequest('twice', () => 1)
  const second = server.onRequest('twice', () => 2)
  assert.equal(await client.sendRequest('twice'), 2)
  second.dispose()
  await rejectsWith(client.sendRequest('twice'), -32601)
}))

test('progress', () => withBoth(() => {}, async (client, server) => {
  const seen = []
  const type = new bullmyrtle.ProgressType()
  const registered = client.onProgress(type, 'token', it => seen.push(it))
  client.onUnhandledProgress(it => seen.push(it))
  assert.throws(() => client.onProgress(type, 'token', () => {}), /already registered/)
  await server.sendProgress(type, 'token', { kind: 'begin' })
  await server.sendProgress(type, 5, 'other')
  await server.sendNotification('$/progress', 'token', 'by position')
  await turns()
  registered.dispose()
  await server.sendProgress(type, 'token', 'late')
  await turns()
  assert.deepEqual(seen, [{ kind: 'begin' }, { token: 5, value: 'other' }, 'by position', { token: 'token', value: 'late' }])
}))

test('what is broken is answered, and the connection goes on', async () => {
  const raw = new Raw().listen()
  raw.connection.onRequest('m', () => 1)
  const [parse, invalid, well] = await raw.say(3, Buffer.from('Content-Length: 1\r\n\r\n{'), { jsonrpc: '2.0', method: 5, id: 1 }, request(2, 'm'))
  assert.deepEqual([parse.error.code, parse.id, invalid.error.code, invalid.id, well], [-32700, null, -32600, null, { id: 2, jsonrpc: '2.0', result: 1 }])
  const [batch] = await raw.say(1, [request(3, 'm'), 5, notice('x'), request('four', 'm'), request(null, 'm')])
  assert.deepEqual(batch.map(it => it.id), [3, null, 'four', null])
  const big = await raw.say(1, Buffer.from('Content-Length: 61\r\n\r\n{"jsonrpc":"2.0","id":18446744073709551615,"method":"unknown"}'.replace('61', '62')))
  assert.equal(big.length, 1)
  assert.equal(raw.connection.counts().unreadable, 1)
  raw.connection.dispose()
})

test('names that objects have too are names like others', () => withBoth(() => {}, async (client, server) => {
  const seen = []
  for (const name of ['__proto__', 'constructor', 'toString', '', 'a\nb', 'é😀', ' ']) {
    await rejectsWith(client.sendRequest(name), -32601)
    server.onRequest(name, it => it)
    server.onNotification(name, it => seen.push(it))
    const value = JSON.parse('{"__proto__":{"polluted":true},"constructor":1}')
    const got = await client.sendRequest(name, value)
    assert.deepEqual(Object.keys(got), ['__proto__', 'constructor'])
    assert.equal(({}).polluted, undefined)
    await client.sendNotification(name, { name })
  }
  await turns()
  assert.equal(seen.length, 7)
}))

test('functions work without their connection before them', () => withBoth(server => { server.onRequest('m', () => 1) }, async client => {
  const { sendRequest, sendNotification, onRequest, hasPendingResponse } = client
  assert.equal(await sendRequest('m'), 1)
  await sendNotification('n')
  onRequest('x', () => 1).dispose()
  assert.equal(hasPendingResponse(), false)
}))
