'use strict'
// Bad use: each is a named error or an answer -32603, and the connection goes on.

const assert = require('node:assert/strict')
const { test } = require('node:test')
const { PassThrough, Readable } = require('node:stream')
const { bullmyrtle, Raw, frame, request, until, withBoth, rejectsWith, turns } = require('./helping')

const { ResponseError, ErrorCodes } = bullmyrtle
const ring = {}
ring.self = ring
let deep = 0
for (let i = 0; i < 121; i++) deep = [deep]

const BAD_RESULTS = {
  bigint: () => 1n,
  ring: () => ring,
  deep: () => deep,
  surrogate: () => 'half \ud800',
  surrogateKey: () => ({ '\udfff': 1 }),
  function: () => () => 1,
  symbol: () => Symbol('s'),
  toJSON: () => ({ toJSON() { throw new Error('from toJSON') } }),
  toJSONNull: () => ({ toJSON() { throw null } }),
  undefinedToJSON: () => ({ toJSON() {} }),
  getter: () => ({ get a() { throw new Error('from a getter') } }),
  revoked: () => { const { proxy, revoke } = Proxy.revocable({}, {}); revoke(); return proxy },
  then: () => ({ get then() { throw new Error('from then') } }),
  thenThrows: () => ({ then() { throw new Error('from then()') } }),
  data: () => { throw new ResponseError(1, 'm', 1n) },
  deepData: () => { throw new ResponseError(1, 'm', deep) },
  deepDataInLines: () => { throw new ResponseError(1, 'm\nn', deep) },
  thrownProxy: () => { throw Object.create(null, { message: { get() { return 'got' } } }) }
}

test('results that are no JSON', () => withBoth(server => {
  for (const [name, act] of Object.entries(BAD_RESULTS)) {
    server.onRequest(name, act)
    server.onRequest(`${name}, later`, async () => { await null; return act() })
  }
  server.onRequest('well', () => 'well')
}, async client => {
  for (const name of Object.keys(BAD_RESULTS)) {
    for (const it of name.startsWith('then') ? [name] : [name, `${name}, later`]) {
      await rejectsWith(client.sendRequest(it), ErrorCodes.InternalError, /./)
      assert.equal(await client.sendRequest('well'), 'well', it)
    }
  }
  assert.equal(client.hasPendingResponse(), false)
}))

test('values that JSON.stringify has in another form', () => withBoth(server => {
  server.onRequest('m', it => it)
  server.onRequest('nan', () => [NaN, Infinity, -0, undefined, new Date(0), new Map([[1, 2]])])
}, async client => {
  assert.deepEqual(await client.sendRequest('nan'), [null, null, 0, null, '1970-01-01T00:00:00.000Z', {}])
  assert.deepEqual(await client.sendRequest('m', { a: NaN, b: undefined }), { a: null })
}))

test('params that are no JSON reject the call, and what follows goes on', () => withBoth(server => {
  server.onRequest('well', it => it)
}, async (client, server) => {
  const seen = []
  server.onNotification('n', it => seen.push(it))
  const bad = [{ a: 1n }, ring, { a: deep }, { a: '\ud800' }, { toJSON: () => 5 }, { toJSON() { throw new Error('x') } }]
  for (const it of bad) {
    const calls = [client.sendRequest('m', it), client.sendRequest('well', { a: 1 }), client.sendNotification('n', it), client.sendNotification('n', { a: 2 })]
    await rejectsWith(calls[0], ErrorCodes.MessageWriteError)
    assert.deepEqual(await calls[1], { a: 1 })
    await rejectsWith(calls[2], ErrorCodes.MessageWriteError)
    await calls[3]
  }
  for (const name of ['\ud800', 'a\udc00', 'x\n\ud800']) {
    await rejectsWith(client.sendRequest(name), ErrorCodes.MessageWriteError)
    await rejectsWith(client.sendNotification(name), ErrorCodes.MessageWriteError)
    await rejectsWith(client.sendBatch([['well'], [name]]), ErrorCodes.MessageWriteError)
  }
  await until(() => seen.length === bad.length)
  assert.equal(client.hasPendingResponse(), false)
}))

test('a handler that answers twice, or never', async () => {
  const raw = new Raw().listen()
  raw.connection.onRequest('twice', () => ({ then(resolve, reject) { resolve(1); resolve(2); reject(new Error('3')) } }))
  raw.connection.onRequest('never', () => new Promise(() => {}))
  raw.connection.onRequest('m', () => 'm')
  const found = await raw.say(2, request(1, 'never'), request(2, 'twice'), request(3, 'm'))
  await turns()
  assert.deepEqual(found.map(it => it.result), [1, 'm'])
  assert.deepEqual(raw.log.errors, ['Request twice was answered twice.', 'Request twice was answered twice.'])
  assert.equal(raw.connection.open, 1)
  raw.connection.cancelOpen()
  await until(() => raw.written.length === 3)
  assert.equal(raw.written[2].error.code, -32800)
  raw.connection.dispose()
})

test('a handler that blocks holds up what follows, and nothing is lost', async () => {
  const raw = new Raw().listen()
  raw.connection.onRequest('block', () => { const end = Date.now() + 50; while (Date.now() < end); return 'done' })
  raw.connection.onRequest('m', () => 'm')
  const found = await raw.say(3, request(1, 'm'), request(2, 'block'), request(3, 'm'))
  assert.deepEqual(found.map(it => it.result), ['m', 'done', 'm'])
  raw.connection.dispose()
})

test('handlers and listeners that are none, and listeners that throw', async () => {
  const raw = new Raw().listen()
  for (const it of [undefined, null, 5, {}]) {
    assert.throws(() => raw.connection.onRequest('m', it), TypeError)
    assert.throws(() => raw.connection.onNotification('m', it), TypeError)
  }
  const error = console.error
  const told = []
  console.error = it => told.push(it.message)
  try {
    raw.connection.onUnhandledNotification(() => { throw new Error('listener') })
    raw.write({ jsonrpc: '2.0', method: 'n' })
    raw.connection.onRequest('m', () => 1)
    await raw.say(1, request(1, 'm'))
  } finally {
    console.error = error
  }
  assert.deepEqual(told, ['listener'])
  raw.connection.dispose()
})

test('a logger that throws, or lacks its functions, is nobody else\'s fault', async () => {
  const input = new PassThrough()
  const connection = bullmyrtle.createMessageConnection(input, new PassThrough(), { error() { throw new Error('logger') } })
  connection.onNotification('m', () => { throw new Error('m') })
  connection.listen()
  const output = []
  connection.onRequest('x', () => { output.push(1) })
  input.write('Content-Length: 30\r\n\r\n{"jsonrpc":"2.0","method":"m"}Content-Length: 37\r\n\r\n{"jsonrpc":"2.0","method":"x","id":1} ')
  await until(() => output.length)
  connection.dispose()
})

test('streams that give no bytes', async () => {
  const connection = bullmyrtle.createMessageConnection(Readable.from([{ a: 1 }]), new PassThrough())
  const errors = []
  connection.onError(([it]) => errors.push(it.message))
  connection.listen()
  await until(() => connection.reason)
  assert.deepEqual([connection.reason.how, errors], ['Read', ['a stream of bytes is needed, and it gave a object']])
})

test('a stream, and a writer, whose write throws', async () => {
  const input = new PassThrough()
  const broken = { on() {}, off() {}, once() {}, end() {}, write() { throw new Error('no stream') } }
  const errors = []
  const connection = bullmyrtle.createMessageConnection(input, broken)
  connection.onError(([it]) => errors.push(it.message))
  connection.listen()
  await rejectsWith(connection.sendRequest('m'), ErrorCodes.PendingResponseRejected)
  assert.deepEqual([connection.reason.how, errors], ['OutputClosed', ['no stream']])

  const none = () => ({ dispose() {} })
  const reader = { listen(callback) { this.callback = callback; return none() }, onError: none, onClose: none, dispose() {} }
  const writer = { write() { throw new Error('no writer') }, onError: none, onClose: none, end() {}, dispose() {} }
  const whole = bullmyrtle.createMessageConnection(reader, writer)
  whole.onError(([it]) => errors.push(it.message))
  whole.listen()
  reader.callback(request(1, 'm'))
  await until(() => errors.length === 2)
  assert.deepEqual([whole.reason, errors[1]], [undefined, 'no writer'])
  whole.dispose()
})

test('codes of errors that no number of JavaScript holds', async () => {
  const raw = new Raw().listen()
  raw.connection.onRequest('m', () => { throw new ResponseError(2 ** 60, 'large') })
  const [answer] = await raw.say(1, request(1, 'm'))
  assert.deepEqual(answer.error, { code: ErrorCodes.UnknownErrorCode, message: 'large' })
  const call = raw.connection.sendRequest('x')
  await until(() => raw.written.length === 2)
  raw.write(frame('{"jsonrpc":"2.0","id":1,"error":{"code":9223372036854775807,"message":"max"}}'))
  await rejectsWith(call, 2 ** 63, 'max')
  raw.connection.dispose()
})

test('settings that there cannot be', () => {
  const make = options => () => bullmyrtle.createMessageConnection(new PassThrough(), new PassThrough(), undefined, options)
  for (const it of [{ protocol: 'dap' }, { protocol: '__proto__' }, { framing: 'contents' }, { order: 'random' }]) assert.throws(make(it), TypeError)
  for (const it of [{ content: 2 ** 31 }]) assert.throws(make(it), RangeError)
  assert.throws(() => bullmyrtle.createMessageConnection(undefined, undefined), TypeError)
  assert.throws(() => bullmyrtle.createMessageConnection(5, new PassThrough()), TypeError)
  make(null)()
})

test('contents and texts at their limits', async () => {
  const raw = new Raw({ content: 1000 }).listen()
  raw.connection.onRequest('m', it => it.text.length)
  const exact = request(1, 'm', { text: '' })
  exact.params.text = 'x'.repeat(1000 - JSON.stringify(exact).length)
  const [answer] = await raw.say(1, exact)
  assert.equal(answer.result, exact.params.text.length)
  exact.params.text += 'x'
  raw.write(exact)
  await until(() => raw.connection.reason)
  assert.equal(raw.connection.reason.how, 'TooLarge')

  const large = new Raw().listen()
  large.connection.onRequest('m', it => it)
  const most = request(1, 'm', { text: '' })
  most.params.text = 'y'.repeat(16_777_216 - JSON.stringify(most).length)
  const [whole] = await large.say(1, most)
  assert.equal(whole.result.text, most.params.text)
  large.connection.dispose()
})

test('large and small messages that come together are answered in their order', async () => {
  const raw = new Raw().listen()
  raw.connection.onRequest('m', it => it.text)
  raw.connection.onRequest('é'.repeat(50_000), it => it.text)
  const texts = [1, 100_000, 2, 60_000, 57_300, 100_000, 3].map((length, at) => `${at}é`.repeat(length))
  const all = texts.map((text, at) => request(at, at === 3 ? 'é'.repeat(50_000) : 'm', { text }))
  const found = await raw.say(all.length, ...all)
  assert.deepEqual(found.map(it => [it.id, it.result === texts[it.id]]), all.map(it => [it.id, true]))
  raw.connection.dispose()
})

test('params of 120 levels go through, and deeper ones are read', () => withBoth(server => {
  server.onRequest('depth', it => { let depth = 0; for (let at = it; Array.isArray(at); at = at[0]) depth++; return depth })
}, async client => {
  let at119 = 0
  for (let i = 0; i < 119; i++) at119 = [at119]
  assert.equal(await client.sendRequest('depth', at119), 119)
}))

test('many sayings in one turn', () => withBoth(server => {
  server.onRequest('m', it => it.n)
}, async (client, server) => {
  let seen = 0
  server.onNotification('n', it => { assert.equal(it.n, seen++) })
  const calls = []
  for (let n = 0; n < 5000; n++) {
    client.sendNotification('n', { n })
    calls.push(client.sendRequest(n % 100 ? 'm' : 'no\nbody', { n }).catch(it => it.code))
  }
  const found = await Promise.all(calls)
  assert.deepEqual(found, Array.from({ length: 5000 }, (_, n) => (n % 100 ? n : -32601)))
  assert.equal(seen, 5000)
}))
