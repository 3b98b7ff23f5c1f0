'use strict'
// Whatever a handler throws, returns or rejects with, and however what it gives behaves when it is looked at: its request
// is answered once, the next one too, and nothing escapes, which would end the process (and here the test).

const assert = require('node:assert/strict')
const { test } = require('node:test')
const util = require('node:util')
const { bullmyrtle, Raw, request, notice, withBoth, turns, until } = require('./helping')

const { ResponseError, ErrorCodes, ProgressType, Trace, CancellationTokenSource } = bullmyrtle
const raise = () => { throw new Error('looked at') }
const raises = names => Object.defineProperties({}, Object.fromEntries(names.map(it => [it, { get: raise, enumerable: true }])))
const with_ = (object, name, get) => Object.defineProperty(object, name, { get, configurable: true })
const revoked = target => {
  const { proxy, revoke } = Proxy.revocable(target, {})
  revoke()
  return proxy
}
const traps = ['get', 'has', 'getPrototypeOf', 'ownKeys', 'getOwnPropertyDescriptor', 'set', 'apply', 'construct']
const trapped = target => new Proxy(target, Object.fromEntries(traps.map(it => [it, raise])))
const ring = {}
ring.self = ring
class Hostile extends ResponseError {
  #name
  constructor(name) {
    super(1, 'hostile')
    this.#name = name
    Object.defineProperty(this, name, { get: raise })
  }
}

/** What may be thrown: all is answered -32603. */
const INTERNAL = {
  undefined: () => undefined,
  null: () => null,
  boolean: () => false,
  number: () => 0,
  NaN: () => NaN,
  bigint: () => 1n,
  text: () => 'text',
  symbol: () => Symbol('s'),
  function: () => raise,
  'a class': () => class {},
  'an empty object': () => ({}),
  'no prototype': () => Object.create(null),
  'a frozen error': () => Object.freeze(new Error('frozen')),
  'an error': () => new Error('plain'),
  'an error without a message': () => new Error(),
  'an error with a cause that is itself': () => { const it = new Error('c'); it.cause = it; return it },
  'many errors': () => new AggregateError([new Error('a'), revoked({})], 'many'),
  'a message that is a number': () => ({ message: 5 }),
  'a message that is a symbol': () => ({ message: Symbol('s') }),
  'a message that is an object': () => ({ message: Object.create(null) }),
  'a message that is halved': () => new Error('\ud800'),
  'a message with line feeds': () => new Error('a\nb\0c'),
  'a message that raises': () => raises(['message']),
  'a message that raises what raises': () => with_({}, 'message', () => { throw raises(['message', 'stack']) }),
  'a message that raises a revoked proxy': () => with_(new Error('e'), 'message', () => { throw revoked({}) }),
  'a stack that raises': () => with_(new Error('e'), 'stack', raise),
  'a name that raises': () => with_(new Error('e'), 'name', raise),
  'toString that raises': () => Object.assign(new Error('e'), { toString: raise, [Symbol.toPrimitive]: raise, toJSON: raise }),
  'a way to be shown that raises': () => ({ [Symbol.for('nodejs.util.inspect.custom')]: raise }),
  'a tag that raises': () => with_({}, Symbol.toStringTag, raise),
  'a revoked proxy': () => revoked({}),
  'a revoked proxy of an error': () => revoked(new Error('e')),
  'a revoked function': () => revoked(() => {}),
  'a proxy that raises': () => trapped({}),
  'a proxy of a ResponseError that raises': () => trapped(new ResponseError(1, 'm')),
  'a ring': () => ring,
  'a promise': () => Promise.resolve(1),
  'a promise that is rejected': () => Promise.reject(new Error('nobody waits')),
  'a thenable that raises': () => ({ then: raise }),
  'a ResponseError whose code raises': () => new Hostile('code'),
  'a ResponseError whose message raises': () => new Hostile('message'),
  'a ResponseError whose data raise': () => new Hostile('data'),
  'a ResponseError with a message that has no text': () => Object.assign(new ResponseError(1, 'm'), { message: Object.create(null) }),
  'data that are a ring': () => new ResponseError(1, 'm', ring),
  'data that are a BigInt': () => new ResponseError(1, 'm', 1n),
  'data that raise': () => new ResponseError(1, 'm', raises(['a'])),
  'data whose toJSON raises what raises': () => new ResponseError(1, 'm', { toJSON() { throw raises(['message']) } }),
  'data that are a revoked proxy': () => new ResponseError(1, 'm', revoked({}))
}

/** ResponseErrors, thrown or returned, and what they are answered. */
const UNKNOWN = ErrorCodes.UnknownErrorCode
const RESPONSES = {
  'a ResponseError': [() => new ResponseError(5, 'five', { a: 1 }), { code: 5, message: 'five', data: { a: 1 } }],
  'a code that is a text': [() => new ResponseError('5', 'm'), { code: UNKNOWN, message: 'm' }],
  'a code that is a symbol': [() => Object.assign(new ResponseError(1, 'm'), { code: Symbol('s') }), { code: UNKNOWN, message: 'm' }],
  'a code that is a BigInt': [() => Object.assign(new ResponseError(1, 'm'), { code: 1n }), { code: UNKNOWN, message: 'm' }],
  'a message that is a symbol': [() => Object.assign(new ResponseError(1, 'm'), { message: Symbol('s') }), { code: 1, message: 'Symbol(s)' }],
  'data that are a symbol': [() => new ResponseError(1, 'm', Symbol('s')), { code: 1, message: 'm' }],
  'data that are a function': [() => new ResponseError(1, 'm', raise), { code: 1, message: 'm' }],
  'a frozen ResponseError': [() => Object.freeze(new ResponseError(1, 'm')), { code: 1, message: 'm' }]
}

/** What may be returned and has no JSON: it is answered -32603. */
const NO_JSON = {
  bigint: () => 1n,
  symbol: () => Symbol('s'),
  function: () => raise,
  'a ring': () => ring,
  'a revoked proxy': () => revoked({}),
  'a revoked array': () => revoked([]),
  'a proxy that raises': () => trapped({}),
  'a getter that raises': () => raises(['a']),
  'a getter that raises what raises': () => with_({ a: { get b() { throw raises(['message']) } } }, 'c', raise),
  'toJSON that raises': () => ({ toJSON: raise }),
  'toJSON that raises a revoked proxy': () => ({ toJSON() { throw revoked({}) } }),
  'toJSON that raises what raises': () => ({ toJSON() { throw raises(['message', 'stack']) } }),
  'toJSON that raises null': () => ({ toJSON() { throw null } }),
  'toJSON that is no text': () => ({ toJSON: () => undefined }),
  'toJSON that is a BigInt': () => ({ toJSON: () => 1n }),
  'too deep': () => { let it = 0; for (let i = 0; i < 1e5; i++) it = [it]; return it },
  'an array that is too long': () => new Array(2 ** 32 - 1)
}

/** What may be returned, and its JSON. */
const JSON_OF = {
  undefined: [() => undefined, null],
  NaN: [() => NaN, null],
  text: [() => 'a\n\u2028\0', 'a\n\u2028\0'],
  'no prototype': [() => Object.assign(Object.create(null), { a: 1 }), { a: 1 }],
  'a frozen object': [() => Object.freeze({ a: Object.freeze([1]) }), { a: [1] }],
  'an own __proto__': [() => JSON.parse('{"__proto__":1}'), JSON.parse('{"__proto__":1}')],
  'members that are no JSON': [() => ({ a: undefined, b: Symbol('s'), c: raise, d: [undefined, raise] }), { d: [null, null] }],
  'an error': [() => new Error('e'), {}],
  'a map and bytes': [() => [new Map([[1, 2]]), new Uint8Array(2), new Date(0)], [{}, { 0: 0, 1: 0 }, '1970-01-01T00:00:00.000Z']],
  'an array with holes': [() => [, 1], [null, 1]], // eslint-disable-line no-sparse-arrays
  'an object with a then that is none': [() => ({ then: 5 }), { then: 5 }]
}

/** The ways of a handler to give a value up, of which each comes to its request's answer. */
const THROWING = {
  thrown: value => () => { throw value() },
  rejected: value => () => Promise.reject(value()),
  'rejected later': value => async () => { await null; throw value() },
  'rejected by a thenable': value => () => ({ then(resolve, reject) { reject(value()) } }),
  'rejected by a thenable, later': value => () => ({ then(resolve, reject) { setImmediate(() => reject(value())) } }),
  'thrown by a then': value => () => ({ then() { throw value() } }),
  'thrown by an async then': value => () => ({ async then() { throw value() } }),
  'thrown by the getter of a then': value => () => with_({}, 'then', () => { throw value() })
}
const RETURNING = {
  returned: value => () => value(),
  resolved: value => async () => { await null; return value() },
  'by a thenable': value => () => ({ then(resolve) { resolve(value()) } })
}

/** What each of these handlers answers. Behind each a plain request shows that the connection goes on. */
const answersOf = handlers => withBoth(server => {
  handlers.forEach((it, at) => server.onRequest(`${at}`, it))
  server.onRequest('next', () => 'next')
}, async (client, server) => {
  const answers = []
  for (let at = 0; at < handlers.length; at++) {
    answers.push(await client.sendRequest(`${at}`).then(result => ({ result }), error => ({ error: error.toJson() })))
    assert.equal(await client.sendRequest('next'), 'next', `handler ${at}`)
  }
  await turns()
  const { open, answersWritten } = server.counts()
  assert.deepEqual([server.open, open, answersWritten], [0, 0, handlers.length * 2])
  assert.deepEqual([server.reason, client.reason], [undefined, undefined])
  return answers
})

/** Each value in each way: the names, and the handlers. */
const inEach = (ways, values) => Object.entries(ways).flatMap(([way, handler]) => (
  Object.entries(values).map(([name, value]) => [`${name}, ${way}`, handler([value].flat()[0]), value])
))

test('all that is thrown, in each way, is answered -32603', async () => {
  const rows = inEach(THROWING, INTERNAL)
  const answers = await answersOf(rows.map(it => it[1]))
  rows.forEach(([name], at) => {
    const { error } = answers[at]
    assert.equal(error?.code, ErrorCodes.InternalError, `${name}: ${JSON.stringify(answers[at]).slice(0, 200)}`)
  })
})

test('a ResponseError is its answer, thrown or returned', async () => {
  const rows = [...inEach(THROWING, RESPONSES), ...inEach(RETURNING, RESPONSES)]
  const answers = await answersOf(rows.map(it => it[1]))
  rows.forEach(([name, , [, wanted]], at) => assert.deepEqual(answers[at].error, wanted, name))
})

test('what has no JSON is answered -32603', async () => {
  const rows = inEach(RETURNING, NO_JSON)
  const answers = await answersOf(rows.map(it => it[1]))
  rows.forEach(([name], at) => assert.equal(answers[at].error?.code, ErrorCodes.InternalError, name))
})

test('what has JSON is the result', async () => {
  const rows = inEach(RETURNING, JSON_OF)
  const answers = await answersOf(rows.map(it => it[1]))
  rows.forEach(([name, , [, wanted]], at) => assert.deepEqual(answers[at].result, wanted, name))
})

test('texts that are too long, and messages that are cut', async () => {
  const long = 'x'.repeat(2 ** 29 - 24) // (the longest string that there is)
  const cut = 'y'.repeat(2 ** 20)
  const answers = await answersOf([
    () => { throw new Error(long) }, () => long, () => { throw new Error(`${cut}z`) }, () => new ResponseError(1, `${cut}z`)
  ])
  const { InternalError } = ErrorCodes
  assert.deepEqual(answers.map(it => it.error.code), [InternalError, InternalError, InternalError, 1])
  assert.deepEqual(answers.slice(2).map(it => it.error.message), [`Request 2 failed with message: ${cut}`, cut])
})

/** Runs something while the standard error's lines are kept, and gives how many there were. */
async function printed(act) {
  const { error } = console
  let count = 0
  console.error = it => {
    count++
    util.inspect(it) // (as the real one does, which may raise too)
  }
  try {
    await act()
    await turns()
  } finally {
    console.error = error
  }
  return count
}

test('what handlers of notifications and of progress throw is logged', () => withBoth(() => {}, async (client, server, log) => {
  const rows = inEach(THROWING, INTERNAL)
  const type = new ProgressType()
  for (const [name, handler] of rows) {
    server.onNotification(name, handler)
    server.onProgress(type, name, handler)
    client.sendNotification(name)
    client.sendProgress(type, name, 1)
    await client.drained()
  }
  await until(() => log.errors.length >= rows.length * 2)
  await turns()
  assert.equal(log.errors.length, rows.length * 2)
  assert.deepEqual([server.open, server.counts().open, server.reason, client.reason], [0, 0, undefined, undefined])
}))

test('what listeners, loggers and tracers throw is printed', async () => {
  const rows = inEach(THROWING, INTERNAL).filter(([name]) => !name.includes(' then') && !name.includes('thenable'))
  for (const [name, handler] of rows) {
    const count = await printed(async () => {
      const raw = new Raw({ trace: undefined }).listen()
      const { connection } = raw
      connection.onUnhandledNotification(handler)
      connection.onRequest('well', () => 'well')
      connection.onNotification('bad', () => { throw new Error('for the logger') })
      raw.log.error = handler
      await connection.trace(Trace.Messages, { log: handler })
      raw.write(notice('bad'), notice('nobody'))
      const [answer] = await raw.say(1, request(1, 'well'))
      assert.equal(answer.result, 'well', name)
      connection.onClose(handler)
      raw.input.destroy(new Error('closed'))
      await until(() => connection.reason)
      connection.onDispose(handler)
      connection.dispose()
    })
    // (4 traces, a logger and 3 listeners; what can't be shown has two lines)
    assert.ok(count >= 8, `${name}: ${count}`)
  }
})

test('strategies and tokens that throw', async () => {
  const bad = [() => { throw raises(['message']) }, () => Promise.reject(revoked({})), () => { throw null }]
  for (const act of bad) {
    const raw = new Raw({ messageStrategy: { handleMessage: act } }).listen()
    const told = []
    raw.connection.onError(([it]) => told.push(it))
    const [answer] = await raw.say(1, notice('n'), request(1, 'm'))
    assert.equal(answer.error.code, ErrorCodes.InternalError)
    assert.equal(told.length, 1)
    raw.connection.dispose()
  }
  const sender = { sendCancellation: () => { throw raises(['message']) }, cleanup: () => { throw revoked({}) } }
  const strategy = { receiver: { createCancellationTokenSource: () => { throw revoked({}) } }, sender }
  const raw = new Raw({ cancellationStrategy: strategy }).listen()
  raw.connection.onRequest('m', () => 1)
  const source = new CancellationTokenSource()
  source.cancel()
  const call = raw.connection.sendRequest('x', source.token)
  assert.equal((await raw.say(2, request(7, 'm'))).find(it => it.id === 7).error.code, ErrorCodes.InternalError)
  raw.write({ jsonrpc: '2.0', id: 1, result: 'in spite of all' })
  assert.equal(await call, 'in spite of all')
  const token = { isCancellationRequested: false, onCancellationRequested: () => { throw revoked({}) } }
  assert.equal(await raw.connection.sendRequest('y', token).then(() => 'sent', () => 'rejected'), 'rejected')
  assert.equal(raw.connection.hasPendingResponse(), false)
  const lasting = { isCancellationRequested: false, onCancellationRequested: () => ({ dispose: raise }) }
  const calls = Promise.allSettled([raw.connection.sendRequest('z', lasting), raw.connection.sendRequest('z', lasting)])
  await until(() => raw.written.length === 4)
  assert.ok(await printed(() => raw.connection.dispose()) >= 2)
  assert.deepEqual((await calls).map(it => it.reason.code), Array(2).fill(ErrorCodes.PendingResponseRejected))
})
