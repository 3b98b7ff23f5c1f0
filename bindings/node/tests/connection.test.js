'use strict'
// The lower floor: what the scripts of checks/node_package.py don't reach.

const assert = require('node:assert/strict')
const { test } = require('node:test')
const { Connection, Refused } = require('..')
const { carry } = require('../lib/testing.js')

const line = it => Buffer.from(`${JSON.stringify(it)}\n`)
const refused = (act, code) => assert.throws(act, error => error instanceof Refused && error.code === code && error.name === 'Refused')

test('a call is told and answered', () => {
  const it = new Connection({ framing: 'lines' })
  it.feed(line({ jsonrpc: '2.0', method: 'add', params: [1, 2.50], id: 7 }))
  assert.deepEqual(it.events(), [{ kind: 'call', number: 1, method: 'add', params: '[1,2.5]', id: '7', isRequest: true }])
  it.answer(1, '3')
  assert.equal(it.pending, 36)
  assert.equal(it.take(10).toString(), '{"id":7,"j')
  assert.equal(it.take().toString(), 'sonrpc":"2.0","result":3}\n')
  refused(() => it.answer(1, '4'), 'NotOpen')
  it.end()
  assert.deepEqual([it.events(), it.isDone], [[{ kind: 'over', how: 'Clean' }], true])
})

test('each kind of event, and of what is said', () => {
  const it = new Connection({ framing: 'lines' })
  const told = it.fed(Buffer.concat([
    line({ jsonrpc: '2.0', method: 'wait', id: 'é' }), line({ jsonrpc: '2.0', method: 'note' }),
    line({ jsonrpc: '2.0', method: '$/cancelRequest', params: { id: 'é' } })
  ]))
  assert.deepEqual(told, [
    { kind: 'call', number: 1, method: 'wait', params: undefined, id: '"é"', isRequest: true },
    { kind: 'call', number: 2, method: 'note', params: undefined, id: undefined, isRequest: false },
    { kind: 'cancelled', number: 1 }
  ])
  assert.equal(it.call(1, 'ask', '{"a": 1}'), 1)
  assert.equal(it.callBatch(0, [['b'], ['c', '[1]']]), 2)
  it.withdraw(2)
  it.notify('n', Buffer.from('[true]'))
  it.cancel(1)
  it.answer(2)
  assert.deepEqual(it.take().toString().split('\n'), [
    '{"id":1,"jsonrpc":"2.0","method":"ask","params":{"a":1}}',
    '[{"id":2,"jsonrpc":"2.0","method":"b"},{"id":3,"jsonrpc":"2.0","method":"c","params":[1]}]',
    '{"jsonrpc":"2.0","method":"$/cancelRequest","params":{"id":2}}',
    '{"jsonrpc":"2.0","method":"n","params":[true]}',
    '{"jsonrpc":"2.0","method":"$/cancelRequest","params":{"id":1}}',
    '{"error":{"code":-32800,"message":"Request cancelled"},"id":"é","jsonrpc":"2.0"}', ''
  ])
  it.feed(line({ jsonrpc: '2.0', id: 2, result: null }))
  it.feed(line({ jsonrpc: '2.0', id: 3, error: { code: 5, message: 'no', data: [1] } }))
  assert.deepEqual(it.nextEvent(), { kind: 'replied', key: 2, result: 'null' })
  assert.deepEqual(it.nextEvent(), { kind: 'failed', key: 3, code: 5, message: 'no', data: '[1]' })
  assert.equal(it.nextEvent(), undefined)
  it.call(0, 'last')
  it.end(true)
  assert.deepEqual(it.events(), [{ kind: 'unanswered', key: 4 }, { kind: 'over', how: 'Read' }])
  assert.deepEqual(it.counts(), {
    calls: 2, requests: 1, open: 0, waiting: 0, ownCalls: 4, answersWritten: 1, unreadable: 0, invalid: 0, ignored: 0
  })
})

test('codes and numbers beyond 2^53', () => {
  const it = new Connection({ framing: 'lines' })
  it.call(0, 'x')
  it.feed(Buffer.from('{"jsonrpc":"2.0","id":1,"error":{"code":-9223372036854775808,"message":"m"}}\n'))
  assert.deepEqual(it.events(), [{ kind: 'failed', key: 1, code: -9223372036854775808n, message: 'm', data: undefined }])
  it.fed(Buffer.from('{"jsonrpc":"2.0","id":18446744073709551615,"method":"m"}\n'))
  it.take()
  it.fail(1, 9223372036854775807n, 'm')
  assert.equal(it.take().toString(), '{"error":{"code":9223372036854775807,"message":"m"},"id":18446744073709551615,"jsonrpc":"2.0"}\n')
})

test('more events than one crossing tells, each once and in order', () => {
  for (const size of [1_023, 1_024, 1_025, 2_048, 5_000]) {
    const it = new Connection({ framing: 'lines' })
    const many = Array.from({ length: size }, (_, at) => line({ jsonrpc: '2.0', method: 'm', id: at }))
    const told = it.fed(Buffer.concat(many))
    assert.deepEqual(told.map(event => event.id), Array.from({ length: size }, (_, at) => `${at}`))
  }
})

test('large texts, ASCII and not', () => {
  for (const letter of ['x', 'é', '😀', '"']) {
    const it = new Connection({ framing: 'frames' })
    const text = letter.repeat(4_000_000 / letter.length / 2)
    const content = Buffer.from(JSON.stringify({ jsonrpc: '2.0', method: text, params: [text], id: text }))
    it.feed(Buffer.from(`Content-Length: ${content.length}\r\n\r\n`))
    const [told] = it.fed(content)
    assert.ok(told.method === text && told.params === JSON.stringify([text]) && told.id === JSON.stringify(text))
    it.answer(1, told.params)
    assert.equal(it.take().length, it.counts().answersWritten && Buffer.byteLength(`Content-Length: 0000000\r\n\r\n{"id":,"jsonrpc":"2.0","result":}${told.id}${told.params}`))
  }
})

test('texts that just have room among others, and larger ones', () => {
  const small = { jsonrpc: '2.0', method: 'é', params: ['s'], id: 's' }
  const called = ({ method, params, id }, at) => (
    { kind: 'call', number: at + 1, method, params: JSON.stringify(params), id: JSON.stringify(id), isRequest: true }
  )
  const letters = [['x', 1, 1], ['é', 2, 10]]
  for (const room of [2 ** 13, 2 ** 16 - 2 ** 13, 2 ** 16]) {
    for (const [letter, size, step] of letters) {
      for (let length = room - 30; length < room + 6; length += step) {
        const text = letter.repeat(length / size)
        for (const part of [{ method: text }, { params: [text] }, { id: text }]) {
          const all = [small, { ...small, ...part }, small, { ...small, ...part }, { ...small, ...part }, small]
          const bytes = Buffer.concat(all.map(line))
          const together = new Connection({ framing: 'lines' })
          assert.deepEqual(together.fed(bytes), all.map(called), `${length}`)
        }
      }
    }
  }
})

test('each text of an event that is large, alone and one by one', () => {
  const text = 'é'.repeat(100_000)
  const it = new Connection({ framing: 'lines', broken: true })
  it.call(0, 'ask')
  it.call(0, 'ask')
  const sent = [
    { jsonrpc: '2.0', id: 1, error: { code: 1_152_921_504_606_847_000, message: text, data: text } },
    { jsonrpc: '2.0', id: 2, result: text },
    { jsonrpc: '2.0', method: text, params: { text }, id: text }, { jsonrpc: '2.0', method: 'x'.repeat(8_190) }
  ]
  const broken = Buffer.alloc(64, 0xff)
  const called = { kind: 'call', params: undefined, id: undefined }
  it.feed(Buffer.concat([...sent.map(line), broken, Buffer.from('\n')]))
  const offset = sent.reduce((length, one) => length + line(one).length, 0)
  const wanted = [
    { kind: 'failed', key: 1, code: 1_152_921_504_606_847_000n, message: text, data: JSON.stringify(text) },
    { kind: 'replied', key: 2, result: JSON.stringify(text) },
    { ...called, number: 1, method: text, params: JSON.stringify({ text }), id: JSON.stringify(text), isRequest: true },
    { ...called, number: 2, method: 'x'.repeat(8_190), isRequest: false },
    { kind: 'broken', offset, first: broken, what: 'Unreadable', entry: 0, entries: 0 }
  ]
  assert.deepEqual([it.nextEvent(), ...it.events(), it.nextEvent()], [...wanted, undefined])
})

test('a content goes as a whole, whatever its length and the room for it', () => {
  for (const length of [1, 2 ** 16 - 40, 2 ** 16 - 39, 2 ** 16, 3_000_000]) {
    const it = new Connection({ framing: 'contents' })
    const params = JSON.stringify(['y'.repeat(length)])
    it.notify('m', params)
    it.notify('n')
    const content = `{"jsonrpc":"2.0","method":"m","params":${params}}`
    assert.equal(it.pending, content.length)
    assert.equal(it.take(content.length - 1).length, 0)
    assert.equal(it.take(content.length + 1_000).toString(), content)
    assert.equal(it.take().toString(), '{"jsonrpc":"2.0","method":"n"}')
    assert.deepEqual([it.pending, it.take().length], [0, 0])
  }
})

test('the room of its buffers follows what waits, and not what has passed', () => {
  const params = JSON.stringify(['x'.repeat(4_000_000)])
  for (const framing of ['frames', 'lines', 'contents']) {
    const it = new Connection({ framing })
    assert.equal(it.held, 0)
    for (let i = 0; i < 3; i++) {
      it.notify('m', params)
      // (a content counts while it is lent, and here none is)
      if (framing !== 'contents') assert.ok(it.pending > params.length && it.held >= it.pending, `${it.pending}, ${it.held}`)
      assert.ok(it.take().length > params.length)
      assert.ok(it.held <= 73_728 + 4_096, `${it.held} in ${framing}`)
    }
  }
})

test('what is refused has changed nothing', () => {
  const it = new Connection({ framing: 'lines' })
  it.fed(line({ jsonrpc: '2.0', method: 'm', id: 1 }))
  refused(() => it.answer(2, '1'), 'NotOpen')
  refused(() => it.answer(18446744073709551615n, '1'), 'NotOpen')
  refused(() => it.withdraw(1), 'NotWaiting')
  for (const json of ['', '{', '"\ud800"', '"\udc00\ud800"', Buffer.from([0x22, 0xff, 0x22]), '['.repeat(121) + ']'.repeat(121), 'NaN']) {
    refused(() => it.answer(1, json), 'NotJson')
    refused(() => it.call(0, 'm', json), 'NotJson')
  }
  refused(() => it.answer(1), 'NotJson')
  refused(() => it.notify('m', '1'), 'NotJson')
  refused(() => it.call(0, '\ud800'), 'NotText')
  refused(() => it.fail(1, 1, 'a\udc00'), 'NotText')
  refused(() => it.callBatch(0, []), 'Empty')
  it.end()
  refused(() => it.end(), 'InputOver')
  refused(() => it.feed(Buffer.from('x')), 'InputOver')
  assert.deepEqual([it.pending, it.counts().open, it.events().length], [0, 1, 1])
  refused(() => it.call(0, 'm'), 'InputOver')
  for (const settings of [{ content: 0 }, { content: 2 ** 31 }, { calls: 0 }, { entries: 0 }]) refused(() => new Connection(settings), 'BadSettings')
})

test('what has another type is a TypeError', () => {
  const it = new Connection()
  const all = [
    () => it.answer(-1), () => it.answer(1.5), () => it.answer(NaN), () => it.answer('1'), () => it.answer(2n ** 64n),
    () => it.answer(2 ** 53), () => it.answer(1, 5), () => it.answer(1, null), () => it.call(0, undefined),
    () => it.fail(1, 1.5), () => it.fail(1, 2n ** 63n), () => it.fail(1, '5'), () => new Connection({ framing: 'x' }),
    () => new Connection({ order: 1 }), () => new Connection({ calls: -1 }), () => it.feed('text'), () => it.feed(undefined),
    () => it.fed([1])
  ]
  for (const act of all) assert.throws(act, error => error instanceof TypeError || error.code === 'ERR_INVALID_ARG_TYPE', `${act}`)
})

test('a connection that is closed says so, and closing it twice too', () => {
  const it = new Connection()
  it.close()
  for (const act of [() => it.close(), () => it.feed(Buffer.alloc(1)), () => it.events(), () => it.pending, () => it.held, () => it.answer(1)]) {
    assert.throws(act, { code: 'ERR_BULLMYRTLE_CLOSED' })
  }
})

test('any Uint8Array is bytes, also a part of a buffer', () => {
  const it = new Connection({ framing: 'lines' })
  const bytes = new Uint8Array(Buffer.from('xx{"jsonrpc":"2.0","method":"m"}\nyy'))
  assert.equal(it.fed(bytes.subarray(2, bytes.length - 2)).length, 1)
  it.feed(new Uint8Array(0))
  assert.deepEqual(it.events(), [])
})

test('contents are taken one by one', () => {
  const it = new Connection({ framing: 'contents' })
  it.notify('a')
  it.notify('b')
  assert.equal(it.take(3).length, 0)
  assert.equal(it.take().toString(), '{"jsonrpc":"2.0","method":"a"}')
  assert.equal(it.take(1000).toString(), '{"jsonrpc":"2.0","method":"b"}')
  assert.equal(it.take().length, 0)
})

test('two connections talk', () => {
  const one = new Connection()
  const other = new Connection()
  const key = one.call(0, 'twice', '[4]')
  assert.ok(carry(one, other) > 0)
  const [call] = other.events()
  other.answer(call.number, '8')
  carry(one, other)
  assert.deepEqual(one.events(), [{ kind: 'replied', key, result: '8' }])
})

const cancel = id => line({ jsonrpc: '2.0', method: 'notifications/cancelled', params: { requestId: id, reason: 'no' } })

test("cancels as MCP has them", () => {
  const it = new Connection({ framing: 'lines', cancels: 'mcp' })
  it.feed(Buffer.concat([line({ jsonrpc: '2.0', method: 'a', id: 7 }), line({ jsonrpc: '2.0', method: 'b', id: 8 }), cancel(7)]))
  assert.deepEqual(it.events().at(-1), { kind: 'cancelled', number: 1 })
  const key = it.call(1, 'ask')
  it.take()
  it.cancel(1)
  it.cancel(2)
  const said = [
    `{"jsonrpc":"2.0","method":"notifications/cancelled","params":{"requestId":${key}}}`,
    '{"error":{"code":-32800,"message":"Request cancelled"},"id":8,"jsonrpc":"2.0"}', ''
  ]
  assert.deepEqual(it.take().toString().split('\n'), said)
  const other = it.call(0, 'ask')
  it.withdraw(other)
  refused(() => it.withdraw(other), 'NotWaiting')
  it.feed(line({ jsonrpc: '2.0', id: other, result: 1 }))
  it.end()
  assert.deepEqual(it.events(), [{ kind: 'over', how: 'Clean' }])
  const { answersWritten, ignored, waiting } = it.counts()
  assert.deepEqual([answersWritten, ignored, waiting], [1, 1, 0])
})

test('whose cancels', () => {
  const given = Buffer.concat([
    line({ jsonrpc: '2.0', method: 'a', id: 7 }), line({ jsonrpc: '2.0', method: '$/cancelRequest', params: { id: 7 } }), cancel(7)
  ])
  const rows = [
    ['lsp', ['call', 'cancelled', 'call']], [undefined, ['call', 'cancelled', 'call']], [true, ['call', 'cancelled', 'call']],
    [null, ['call', 'call', 'call']], [false, ['call', 'call', 'call']], ['mcp', ['call', 'call', 'cancelled']]
  ]
  for (const [cancels, kinds] of rows) {
    assert.deepEqual(new Connection({ framing: 'lines', cancels }).fed(given).map(it => it.kind), kinds, `${cancels}`)
  }
  assert.throws(() => new Connection({ cancels: 'dap' }), /^TypeError: cancels has to be 'lsp' or 'mcp', and is 'dap'$/)
})

test('broken input is told, alone and with others, one by one and together', () => {
  const every = Buffer.from(Array.from({ length: 128 }, (_, at) => at + 128)) // (each byte that is no ASCII)
  const m = '{"jsonrpc":"2.0","method":"é"}'
  const rows = [
    ['nonsense', { what: 'Unreadable', entry: 0, entries: 0 }], ['5', { what: 'Invalid', entry: 0, entries: 1 }],
    [every, { what: 'Unreadable', entry: 0, entries: 0 }], [Buffer.from([0, 1, 0x7f, 0x80]), { what: 'Unreadable', entry: 0, entries: 0 }],
    [`[${`${m},`.repeat(12)}7,${m},8]`, { what: 'Invalid', entry: 12, entries: 2 }]
  ]
  const contents = rows.map(([it]) => Buffer.from(it))
  const bytes = Buffer.concat(contents.flatMap(it => [it, Buffer.from('\n')]))
  let offset = 0
  const wanted = rows.map(([, what], at) => {
    const told = { kind: 'broken', offset, first: contents[at].subarray(0, 64), ...what }
    offset += contents[at].length + 1
    return told
  })
  const brokenOf = told => told.filter(it => it.kind === 'broken')
  const together = new Connection({ framing: 'lines', broken: true }).fed(bytes)
  assert.equal(together.length, rows.length + 13)
  assert.ok(together.slice(-13).every(it => it.method === 'é'))
  assert.deepEqual(brokenOf(together), wanted)
  const one = new Connection({ framing: 'lines', broken: true })
  one.feed(bytes)
  const alone = []
  for (let it = one.nextEvent(); it !== undefined; it = one.nextEvent()) alone.push(it)
  assert.deepEqual(alone, together)
  const cut = new Connection({ framing: 'lines', broken: true })
  assert.deepEqual(Array.from(bytes, it => cut.fed(Buffer.from([it]))).flat(), together)
  const many = new Connection({ framing: 'lines', broken: true })
  const found = many.fed(Buffer.concat(Array.from({ length: 3_000 }, () => Buffer.concat([every.subarray(0, 64), Buffer.from('\n')]))))
  assert.deepEqual(found.map(it => it.offset), Array.from({ length: 3_000 }, (_, at) => at * 65))
  assert.ok(found.every(it => it.first.equals(every.subarray(0, 64))))
  assert.deepEqual(new Connection({ framing: 'lines' }).fed(bytes).length, 13)
})

test('a batch has at most so many entries', () => {
  const array = count => Buffer.from(`[${Array(count).fill('1')}]\n`)
  for (const [entries, count, invalid] of [
    [2, 2, 2], [2, 3, 1], [1n, 2, 1], [undefined, 100_000, 100_000], [undefined, 100_001, 1],
    [2 ** 32 - 1, 100_001, 100_001]
  ]) {
    const it = new Connection({ framing: 'lines', entries })
    assert.deepEqual([it.fed(array(count)), it.counts().invalid], [[], invalid])
  }
})

test('params that are null', () => {
  const call = Buffer.from('{"jsonrpc":"2.0","method":"m","params":null}\n')
  for (const [nullParams, params] of [[false, undefined], [true, 'null']]) {
    assert.equal(new Connection({ framing: 'lines', nullParams }).fed(call)[0].params, params)
  }
})

test('where a fault lies', () => {
  const it = new Connection({ framing: 'lines', content: 10 })
  it.feed(Buffer.from('{}\n{}\n'))
  assert.equal(it.faultOffset, undefined)
  it.feed(Buffer.from('x'.repeat(11)))
  assert.deepEqual([it.events().at(-1).how, it.faultOffset], ['TooLarge', 6])
})

