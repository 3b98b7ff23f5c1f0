'use strict'
// Trace: what a tracer is told, in words and as inspectors read it.

const assert = require('node:assert/strict')
const { test } = require('node:test')
const fs = require('node:fs')
const os = require('node:os')
const path = require('node:path')
const { bullmyrtle, Raw, request, notice, until, withBoth, turns } = require('./helping')

const { Trace, TraceFormat } = bullmyrtle

async function talk(raw) {
  raw.connection.onRequest('m', it => ({ got: it.a }))
  raw.connection.onNotification('n', () => {})
  await raw.say(2, request('x', 'm', { a: 1 }), request(2, 'nobody'), notice('n'))
  const call = raw.connection.sendRequest('back', { b: 1 })
  raw.connection.sendNotification('tell', { c: 1 })
  await until(() => raw.written.length === 4)
  raw.write({ jsonrpc: '2.0', id: 1, result: [5] })
  await call
  raw.connection.dispose()
}

test('in words', async () => {
  const rows = {
    [Trace.Messages]: [undefined, undefined],
    [Trace.Compact]: ['Params: {"a":1}\n\n', 'Result: {"got":1}\n\n'],
    [Trace.Verbose]: ['Params: {\n    "a": 1\n}\n\n', 'Result: {\n    "got": 1\n}\n\n']
  }
  for (const [level, [params, result]] of Object.entries(rows)) {
    const told = []
    const raw = new Raw().listen()
    await raw.connection.trace(Number(level), { log: (text, data) => told.push([text.replace(/\d+ms/, '0ms'), data]) })
    await talk(raw)
    const none = params && 'No parameters provided.\n\n'
    assert.deepEqual(told.slice(0, 5), [
      ["Received request 'm - (x)'.", params], ["Sending response 'm - (x)'. Processing request took 0ms", result],
      ["Received request 'nobody - (2)'.", undefined], ["Sending response 'nobody - (2)'. Processing request took 0ms", undefined],
      ["Received notification 'n'.", none]
    ])
    assert.deepEqual(told.slice(5).map(([text]) => text).sort(), [
      "Received response 'back - (1)' in 0ms.", "Sending notification 'tell'.", "Sending request 'back - (1)'."
    ])
  }
})

test('as inspectors read it, to a function and to a file', async () => {
  const wanted = [
    ['receive-request', { id: 'x', jsonrpc: '2.0', method: 'm', params: { a: 1 } }], ['send-response', { id: 'x', jsonrpc: '2.0', result: { got: 1 } }],
    ['receive-request', { id: 2, jsonrpc: '2.0', method: 'nobody' }],
    ['send-response', { id: 2, jsonrpc: '2.0', error: { code: -32601, message: 'Unhandled method nobody' } }],
    ['receive-notification', { jsonrpc: '2.0', method: 'n' }], ['send-notification', { jsonrpc: '2.0', method: 'tell', params: { c: 1 } }],
    ['send-request', { id: 1, jsonrpc: '2.0', method: 'back', params: { b: 1 } }], ['receive-response', { id: 1, jsonrpc: '2.0', result: [5] }]
  ]
  const file = path.join(fs.mkdtempSync(path.join(os.tmpdir(), 'trace-')), 'log')
  const lines = []
  for (const trace of [it => lines.push(it), file]) {
    await talk(new Raw({ trace }).listen())
    if (trace === file) {
      await until(() => fs.existsSync(file) && fs.readFileSync(file, 'utf8').split('\n').length > wanted.length)
      lines.splice(0, Infinity, ...fs.readFileSync(file, 'utf8').split('\n').filter(Boolean))
    }
    const told = lines.map(it => JSON.parse(it))
    assert.ok(told.every(it => it.isLSPMessage === true && Number.isInteger(it.timestamp)))
    assert.deepEqual(told.map(it => [it.type, it.message]), wanted)
  }
})

test('a tracer that throws, and trace that is switched off', () => withBoth(server => { server.onRequest('m', () => 1) }, async (client, server) => {
  const error = console.error
  console.error = () => {}
  try {
    await server.trace(Trace.Verbose, { log() { throw new Error('tracer') } }, { traceFormat: TraceFormat.JSON })
    assert.equal(await client.sendRequest('m'), 1)
  } finally {
    console.error = error
  }
  await server.trace(Trace.Off, { log() { assert.fail('it is off') } })
  assert.equal(await client.sendRequest('m'), 1)
}))

test('the other side is told what is traced, and what it traces is logged', () => withBoth(() => {}, async (client, server) => {
  const seen = []
  server.onNotification(bullmyrtle.SetTraceNotification.type, it => seen.push(it))
  const told = []
  await client.trace(Trace.Verbose, { log: (text, verbose) => told.push([text, verbose]) }, true)
  await server.sendNotification(bullmyrtle.LogTraceNotification.type, { message: 'a', verbose: 'b' })
  await turns()
  assert.deepEqual(seen, [{ value: 'verbose' }])
  assert.deepEqual(told.at(-1), ['a', 'b'])
  assert.deepEqual([Trace.fromString('COMPACT'), Trace.fromString('x'), Trace.toString(1), TraceFormat.fromString('JSON')], [2, 0, 'messages', 'json'])
}))
