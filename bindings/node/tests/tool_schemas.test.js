'use strict'
// JSON Schemas as tools have them, by the tables that bindings/python has too, and how the work of a check grows.

const assert = require('node:assert/strict')
const { test } = require('node:test')
const { ToolServer } = require('../lib/mcp')
const { CHECKED, Schema } = require('../lib/mcp/schema')
const { faultOf } = require('../lib/mcp/checks')
const { rows } = require('./tool_table')

const { words, edges, refused } = rows('schemas')
const of = schema => {
  const { check } = new Schema(schema)
  return value => faultOf(check, value, 'it')
}

test('the words of JSON Schema', () => {
  const tried = new Set()
  for (const [schema, allowed, forbidden] of words) {
    Object.keys(schema).forEach(it => tried.add(it))
    for (const it of allowed) assert.equal(of(schema)(it), undefined, JSON.stringify([schema, it]))
    for (const it of forbidden) assert.match(of(schema)(it), /^it/, JSON.stringify([schema, it]))
  }
  tried.delete('$defs')
  assert.deepEqual([...tried].sort(), [...CHECKED].sort())
})

test('the words at their edges', () => {
  for (const [schema, allowed, forbidden] of edges) {
    for (const it of allowed) assert.equal(of(schema)(it), undefined, JSON.stringify([schema, it]))
    for (const it of forbidden) assert.match(of(schema)(it), /^it/, JSON.stringify([schema, it]))
  }
})

test('a schema that is none is refused when it is registered, with the place', () => {
  assert.ok(refused.length >= 30)
  for (const [schema, said] of refused) {
    for (const option of ['inputSchema', 'outputSchema']) {
      const server = new ToolServer({ name: 's' })
      assert.throws(() => server.registerTool('it', { [option]: schema }, () => {}), error => {
        assert.ok(error instanceof TypeError && error.message.startsWith(option) && error.message.includes(said), `${said}: ${error}`)
        return true
      })
      server.registerTool('it', {}, () => {}) // (nothing was registered)
    }
  }
})

test('what is no JSON, and a root that is no object', () => {
  const ring = { type: 'object' }
  ring.properties = { a: ring }
  const server = new ToolServer({ name: 's' })
  for (const it of [ring, { const: 1n, type: 'object' }, () => 1, Symbol('a'), 5, 'object', null, { type: 'string' }, { properties: {} }, { $ref: '#/$defs/a', $defs: { a: { type: 'object' } } }]) {
    assert.throws(() => server.registerTool('it', { inputSchema: it }, () => {}), TypeError)
  }
})

test('what the program changes later in its schema is no part of it', async () => {
  const schema = { type: 'object', properties: { a: { type: 'string' } } }
  const check = of(schema)
  schema.properties.a = { type: 'strng' }
  assert.equal(check({ a: '' }), undefined)
})

// How the work grows: checks are counted, since times say nothing on a machine that does other things too.

const nested = (depth, leaf, level) => Array(depth).fill().reduce(level, leaf)
const PART = { type: 'object', properties: { a: { $ref: '#/$defs/tree' } }, required: ['a'] }
const LEAF = { type: 'integer' }
const tagged = kind => ({ properties: { ...PART.properties, kind }, required: ['a', 'kind'] })
const TREES = {
  anyOf: { anyOf: [PART, { ...PART, minProperties: 3 }, LEAF] },
  oneOf: { oneOf: [PART, { ...PART, minProperties: 3 }, LEAF] },
  allOf: { type: ['object', 'integer'], allOf: Array(2).fill({ ...PART, type: ['object', 'integer'] }) },
  tags: { anyOf: [tagged({ const: 'b' }), tagged({ type: 'string', enum: ['a'] })], type: ['object', 'integer'] },
  not: { not: { not: { anyOf: [PART, { ...PART, minProperties: 3 }, LEAF] } } }
}

const TOO_MUCH = 1_000_000

/** How many checks a value takes. */
function work(check, value) {
  let count = 0
  const kinds = Object.values(require('../lib/mcp/checks')).filter(it => typeof it === 'function' && it.prototype?.fault)
  const before = kinds.map(it => it.prototype.fault)
  kinds.forEach((it, at) => {
    it.prototype.fault = function (...given) {
      if (++count > TOO_MUCH) throw new Error('this has no end in sight')
      return before[at].apply(this, given)
    }
  })
  try {
    check(value)
  } finally {
    kinds.forEach((it, at) => { it.prototype.fault = before[at] })
  }
  return count
}

for (const [name, tree] of Object.entries(TREES)) {
  test(`a tree of ${name} is read once`, () => {
    const check = of({ $ref: '#/$defs/tree', $defs: { tree } })
    for (const [leaf, isRight] of [[1, true], ['x', false]]) {
      const value = depth => nested(depth, leaf, it => ({ a: it, kind: 'a' }))
      const counts = [15, 30, 60].map(it => work(check, value(it)))
      assert.ok(counts[2] - counts[1] < 2.2 * (counts[1] - counts[0]) && counts[2] < 100 * 60, `${counts}`)
      assert.equal(check(value(120)) === undefined, isRight)
    }
  })
}

test('schemas that share their parts: 2^40 ways to the last', () => {
  for (const word of ['allOf', 'anyOf', 'oneOf']) {
    const defs = { 40: { type: 'string' } }
    for (let at = 0; at < 40; at++) defs[at] = { [word]: Array(2).fill({ $ref: `#/$defs/${at + 1}` }) }
    assert.ok(work(of({ $ref: '#/$defs/0', $defs: defs }), 1) < 3_000, word)
  }
})

test('a hundred thousand items that are compared, and what nests too deep', () => {
  const check = of({ uniqueItems: true })
  const values = Array.from({ length: 100_000 }, (_, at) => ({ a: at * 2 ** 40 }))
  assert.equal(check(values), undefined)
  assert.equal(check([...values, { a: 0 }]), 'it must have no item twice')
  const long = of({ additionalProperties: { items: { type: 'integer' } } })
  assert.equal(long({ ['a'.repeat(1_000_000)]: [...Array(20_000).fill(0), 'x'] }), `it.${'a'.repeat(60)}[20000] must be an integer, got string`)
  const deep = nested(100_000, [], it => [it])
  assert.match(of({ items: { $ref: '#' }, anyOf: [{ type: 'array' }] })(deep), /nests too deep/)
})

test('texts that are cut hold no half of a surrogate pair', () => {
  const face = '\u{1f600}'
  const check = of({ enum: ['a'], properties: {} })
  assert.ok(check(`${'a'.repeat(59)}${face}`).isWellFormed?.() ?? true)
  assert.doesNotMatch(check(`${'a'.repeat(59)}${face}`), /[\ud800-\udbff](?![\udc00-\udfff])/)
  assert.equal(of({ maxLength: 2, minLength: 2 })(`${face}${face}`), undefined)
})
