'use strict'
// Names of methods, with params of each kind, with handlers and without: each request is answered once, and no name is
// taken for something else, as for a member that each object of JavaScript has.

const assert = require('node:assert/strict')
const { test } = require('node:test')
const { Raw, request, notice, until } = require('./helping')

const NAMES = [
  'm', '', ' ', '\0', '\n', 'a\nb', '"', '\\', '\x7f', '\u2028', 'é', '💡', '\ufffd', '__proto__', 'constructor', 'prototype',
  'hasOwnProperty', 'toString', 'valueOf', 'then', 'toJSON', 'length', '0', '-1', 'null', 'undefined', 'rpc.m', '$/m',
  'textDocument/hover', 'x'.repeat(10_000)
]
/** Params, and what a handler gets before its token. */
const PARAMS = [
  [undefined, []], [[], []], [[1], [1]], [[[1], { a: null }], [[1], { a: null }]], [{}, [{}]], [{ a: [] }, [{ a: [] }]],
  [JSON.parse('{"__proto__":1,"constructor":2}'), [JSON.parse('{"__proto__":1,"constructor":2}')]],
  [[null, false, 0, '', -0.5e-7], [null, false, 0, '', -0.5e-7]], [Array(1000).fill(7), Array(1000).fill(7)]
]

for (const [how, options] of [['frames', {}], ['lines', { framing: 'lines' }]]) {
  test(`each name with params of each kind, in ${how}`, async () => {
    const raw = new Raw(options).listen()
    const seen = []
    const rows = NAMES.flatMap(name => PARAMS.map(it => [name, ...it]))
    const unknown = await raw.say(rows.length, ...rows.map(([name, params], id) => request(id, name, params)))
    unknown.forEach((it, id) => assert.deepEqual(it, {
      jsonrpc: '2.0', id, error: { code: -32601, message: `Unhandled method ${rows[id][0]}` }
    }))
    for (const name of NAMES) {
      raw.connection.onRequest(name, (...given) => given.slice(0, -1))
      raw.connection.onNotification(name, (...given) => { seen.push([name, given]) })
    }
    const known = await raw.say(rows.length, ...rows.map(([name, params], id) => request(id, name, params)))
    known.forEach((it, id) => assert.deepEqual(it, { jsonrpc: '2.0', id, result: rows[id][2] }))
    raw.write(...rows.map(([name, params]) => notice(name, params)))
    await until(() => seen.length === rows.length)
    assert.deepEqual(seen, rows.map(([name, , given]) => [name, given]))
    assert.deepEqual([raw.connection.reason, raw.log.errors], [undefined, []])
    raw.connection.dispose()
  })
}
