'use strict'
// A tool server: schemas of all kinds, what is registered and taken away, and what its functions do that they shouldn't.

const assert = require('node:assert/strict')
const { test } = require('node:test')
const { spawnSync } = require('node:child_process')
const path = require('node:path')
const {
  ErrorCode, InMemoryTransport, McpError, ResourceTemplate, ToolClient, ToolError, ToolServer, completable, image,
  resourceLink, text, toolResult, toolUses
} = require('../lib/mcp')
const { Log, until, sleep } = require('./helping')
const { talking, rows } = require('./tool_table')

const LATEST = { version: '2025-11-25' }

/** A validator as zod 4 has it: with a JSON Schema of its own. */
const standard = (validate, jsonSchema) => ({
  '~standard': { version: 1, vendor: 'test', validate, ...(jsonSchema && { jsonSchema: { input: () => jsonSchema, output: () => jsonSchema } }) }
})
const issue = (message, ...at) => ({ issues: [{ message, path: at }] })
const ofText = standard(it => (typeof it === 'string' ? { value: it.trim() } : issue('Expected string')), { type: 'string' })
const ofCount = standard(it => (it === undefined ? { value: 1 } : Number.isInteger(it) ? { value: it } : issue('Expected integer')), { type: 'integer', default: 1 })

function makeServer(options) {
  const log = new Log()
  return { server: new ToolServer({ name: 's' }, { logger: log, grace: 50, ...options }), log }
}

const call = (talk, name, given) => talk.ask('tools/call', given === undefined ? { name } : { name, arguments: given })
const textOf = answer => answer.result.content.map(it => it.text).join()

test('validators with the Standard Schema interface', async () => {
  const { server, log } = makeServer()
  const of = { type: 'object', properties: { text: { type: 'string' } }, required: ['text'] }
  const validate = it => (typeof it.text === 'string' ? { value: { text: it.text, length: it.text.length } } : issue('Expected string', 'text'))
  server.registerTool('zod', { inputSchema: standard(validate, of) }, ({ length }) => `${length}`)
  server.registerTool('async', { inputSchema: standard(async it => validate(it), of) }, ({ length }) => `${length}`)
  // (arktype's are functions)
  const arktype = Object.assign(() => {}, standard(validate), { toJsonSchema: () => of })
  server.registerTool('arktype', { inputSchema: arktype }, ({ length }) => `${length}`)
  server.registerTool('valibot', { inputSchema: standard(validate), inputSchemaJson: of }, ({ length }) => `${length}`)
  server.registerTool('shape', { inputSchema: { text: ofText, count: ofCount } }, it => JSON.stringify(it))
  server.registerTool('empty', { inputSchema: {} }, (args, extra) => `${JSON.stringify(args)} ${extra.requestId}`)
  assert.throws(() => server.registerTool('none', { inputSchema: standard(validate) }, () => {}), /no JSON Schema to tell: give one as inputSchemaJson/)
  assert.throws(() => server.registerTool('none', { inputSchema: { a: ofText, b: { type: 'string' } } }, () => {}), /"b" isn't a validator/)
  await talking(server, async talk => {
    const { tools } = (await talk.ask('tools/list')).result
    assert.deepEqual(tools.slice(0, 4).map(it => it.inputSchema), [of, of, of, of])
    const properties = { text: { type: 'string' }, count: { type: 'integer', default: 1 } }
    assert.deepEqual(tools[4].inputSchema, { type: 'object', properties, required: ['text'] })
    assert.deepEqual(tools[5].inputSchema, { type: 'object', properties: {} })
    for (const it of ['zod', 'async', 'arktype', 'valibot']) {
      assert.equal(textOf(await call(talk, it, { text: 'abc' })), '3')
      const wrong = await call(talk, it, { text: 5 })
      assert.deepEqual([textOf(wrong), wrong.result.isError], ['Invalid params: arguments.text: Expected string', true])
    }
    assert.equal(textOf(await call(talk, 'shape', { text: ' a ', more: 1 })), '{"text":"a","count":1}')
    assert.equal(textOf(await call(talk, 'shape', { text: 'a', count: 'x' })), 'Invalid params: arguments.count: Expected integer')
    assert.equal(textOf(await call(talk, 'shape')), 'Invalid params: arguments.text: Expected string')
    assert.match(textOf(await call(talk, 'empty', { a: 1 })), /^\{\} \d+$/)
  }, LATEST)
  assert.deepEqual(log.errors, [])
})

test('validators that are none', async () => {
  const { server, log } = makeServer()
  const of = { type: 'object' }
  const bad = {
    throws: () => { throw new Error('odd') }, rejects: async () => { throw new Error('odd') }, nothing: () => undefined, other: () => 5,
    none: () => ({}), text: () => 'x'
  }
  for (const [name, validate] of Object.entries(bad)) server.registerTool(name, { inputSchema: standard(validate, of) }, () => 'called')
  const issues = { issues: [{ message: '\ud83d', path: [{ key: 'a' }, 0, Symbol('s')] }, null, { path: 5 }, {}] }
  server.registerTool('issues', { inputSchema: standard(() => issues, of) }, () => 'called')
  await talking(server, async talk => {
    for (const it of Object.keys(bad)) {
      const { result } = await call(talk, it, {})
      assert.equal(result.isError, true, it)
      assert.doesNotMatch(result.content[0].text, /called/)
    }
    assert.match(textOf(await call(talk, 'issues', {})), /^(Invalid params: arguments\.a\[0\]\.Symbol\(s\): \ufffd; arguments: isn't valid|TypeError)/)
    assert.deepEqual((await talk.ask('ping')).result, {})
  }, LATEST)
  assert.ok(log.errors.length >= 6)
})

test('results and their schemas', async () => {
  const { server, log } = makeServer()
  const outputSchema = { type: 'object', properties: { n: { type: 'integer' } }, required: ['n'], additionalProperties: false }
  const right = { n: 1 }
  const all = {
    value: () => right, byHand: () => ({ content: [], structuredContent: right }), bare: () => ({ structuredContent: right }),
    failed: () => ({ content: [text('no')], isError: true }), wrong: () => ({ n: 'x' }), lacking: () => ({ content: [] }), nothing: () => undefined
  }
  for (const [name, it] of Object.entries(all)) server.registerTool(name, { outputSchema }, it)
  const validator = standard(it => (it?.n === 1 ? { value: { n: 2 } } : issue('Expected 1', 'n')), outputSchema)
  server.registerTool('validator', { outputSchema: validator }, () => right)
  server.registerTool('refused', { outputSchema: validator }, () => ({ n: 5 }))
  server.registerTool('date', {}, () => new Date(0))
  server.registerTool('raw', {}, () => Buffer.from('x'))
  const parts = { text: [{ type: 'text' }], image: [{ type: 'image', data: 'x' }], number: [5], none: [null], named: [{}] }
  for (const [name, content] of Object.entries(parts)) server.registerTool(`part_${name}`, {}, () => ({ content }))
  server.registerTool('later', {}, () => ({ content: [{ type: 'hologram' }, text('a\ud83d')] }))
  await talking(server, async talk => {
    const structured = async name => (await call(talk, name)).result.structuredContent
    for (const it of ['value', 'byHand', 'bare']) assert.deepEqual(await structured(it), right, it)
    assert.deepEqual((await call(talk, 'bare')).result.content, [{ type: 'text', text: '{"n":1}' }])
    assert.deepEqual((await call(talk, 'failed')).result, { content: [{ type: 'text', text: 'no' }], isError: true })
    assert.deepEqual(await structured('validator'), { n: 2 })
    assert.deepEqual((await call(talk, 'date')).result, { content: [{ type: 'text', text: '"1970-01-01T00:00:00.000Z"' }] })
    assert.deepEqual(log.errors, [])
    for (const [name, words] of [
      ['raw', 'bytes are no result'],
      ['wrong', 'the result.n must be an integer, got string'], ['lacking', "isn't JSON"], ['nothing', "isn't JSON"],
      ['refused', 'the result.n: Expected 1'], ['part_text', 'the result.content[0] lacks text'],
      ['part_image', 'the result.content[0] lacks mimeType'], ['part_named', 'the result.content[0] lacks type']
    ]) {
      const { result } = await call(talk, name)
      assert.ok(result.isError && result.content[0].text.includes(words), `${name}: ${result.content[0].text}`)
    }
    assert.equal(log.errors.length, 8)
    assert.deepEqual((await call(talk, 'part_number')).result.content, [{ type: 'text', text: '5' }])
    // (half of a surrogate pair would be no message)
    assert.deepEqual((await call(talk, 'later')).result.content, [{ type: 'hologram' }, { type: 'text', text: 'a\ufffd' }])
  }, LATEST)
})

test('whatever a tool throws or returns', async () => {
  const { server, log } = makeServer()
  const revoked = () => {
    const { proxy, revoke } = Proxy.revocable({}, {})
    revoke()
    return proxy
  }
  const ring = {}
  ring.ring = ring
  class Odd extends Error { get message() { throw new Error('odd') } }
  const gives = {
    bigint: () => 1n, ring: () => ring, function: () => () => 1, symbol: () => Symbol('x'), revoked, thenable: () => ({ get then() { throw new Error('x') } }),
    toJSON: () => ({ toJSON() { throw new Error('x') } }), bytes: () => ({ content: [{ type: 'text', text: 1n }] })
  }
  const throws = {
    null: () => null, undefined: () => undefined, text: () => 'x', number: () => 5, revoked, odd: () => new Odd(), long: () => new Error('x'.repeat(3_000_000)),
    half: () => new Error('\ud83d'), promise: () => Promise.reject(new Error('y'))
  }
  for (const [name, it] of Object.entries(gives)) server.registerTool(`gives_${name}`, {}, it)
  for (const [name, it] of Object.entries(throws)) {
    server.registerTool(`throws_${name}`, {}, () => { throw it() })
    server.registerTool(`rejects_${name}`, {}, async () => { throw it() })
  }
  await talking(server, async talk => {
    const names = [...Object.keys(gives).map(it => `gives_${it}`), ...Object.keys(throws).flatMap(it => [`throws_${it}`, `rejects_${it}`])]
    for (const name of names) {
      const { result } = await call(talk, name)
      assert.equal(result?.isError, true, name)
      assert.equal(typeof result.content[0].text, 'string')
    }
    assert.deepEqual((await talk.ask('ping')).result, {})
    assert.equal(log.errors.length, names.length)
    for (const it of ['undefined', 'nothing']) assert.equal((await call(talk, it)).error.code, ErrorCode.InvalidParams)
  }, LATEST)
})

test('errors that are told, and those that are logged', async () => {
  const { server, log } = makeServer()
  const throws = { told: new ToolError('no such city'), plain: new Error('no'), unmeant: new RangeError('far'), refused: new McpError(5, 'refused') }
  for (const [name, it] of Object.entries(throws)) server.registerTool(name, {}, () => { throw it })
  await talking(server, async talk => {
    const found = []
    for (const it of Object.keys(throws)) found.push(textOf(await call(talk, it)))
    assert.deepEqual(found, ['no such city', 'no', 'RangeError: far', 'refused'])
  }, LATEST)
  assert.equal(log.errors.length, 2)
  assert.match(log.errors[1], /^the tool unmeant threw RangeError: far\n    at /)
})

test('a tool that never answers, and one that answers after a cancel', async () => {
  const { server, log } = makeServer()
  const seen = []
  server.registerTool('never', { timeout: 20 }, extra => new Promise(() => { extra.signal.addEventListener('abort', () => seen.push('late')) }))
  server.registerTool('fails_late', { timeout: 5 }, () => sleep(30).then(() => { throw new Error('late') }))
  server.registerTool('cancelled', {}, extra => new Promise((resolve, reject) => extra.signal.addEventListener('abort', () => {
    seen.push(extra.isCancelled)
    extra.reportProgress(1)
    extra.log('error', 'still there')
    reject(new Error('aborted'))
  })))
  server.registerTool('early', {}, extra => { seen.push(extra.signal.aborted) })
  await talking(server, async talk => {
    const late = await call(talk, 'never')
    assert.deepEqual(late.result, { content: [{ type: 'text', text: 'The tool took longer than 0.02 seconds' }], isError: true })
    assert.equal((await call(talk, 'fails_late')).result.isError, true)
    const params = { name: 'cancelled', _meta: { progressToken: 1 } }
    await talk.say([{ id: 'c', method: 'tools/call', params }, { id: 'p', method: 'ping' }], 1)
    const found = await talk.say([{ method: 'notifications/cancelled', params: { requestId: 'c' } }, { id: 'q', method: 'ping' }], 2)
    assert.deepEqual(found.map(it => it.id ?? it.method), ['notifications/message', 'q'])
    await call(talk, 'early')
    await sleep(40)
    assert.deepEqual(seen, ['late', true, false])
    assert.deepEqual(talk.written.filter(it => it.id === 'c'), [])
  }, LATEST)
  assert.deepEqual(log.errors, ['the tool never took longer than 0.02 seconds', 'the tool fails_late took longer than 0.005 seconds'])
})

test('a host that ends midway', async () => {
  const { server, log } = makeServer()
  let extra
  const told = []
  server.registerTool('asks', {}, async it => {
    extra = it
    await it.createMessage({ messages: '?' }).catch(error => told.push(error.code))
    it.reportProgress(1)
    it.log('error', 'x')
    it.sendNotification({ method: 'notifications/none' })
    it.createMessage({ messages: '?' })
    return 'late'
  })
  await talking(server, async talk => {
    talk.say([{ id: 1, method: 'tools/call', params: { name: 'asks' } }], 1)
    await until(() => talk.written.some(it => it.method === 'sampling/createMessage'))
    talk.input.end('{"jsonrpc":"2.0"')
    await until(() => !server.isConnected())
    await until(() => told.length)
    await sleep(20)
    await assert.rejects(extra.sendNotification({ method: 'notifications/none' }))
    server.sendLoggingMessage({ level: 'error', data: 1 })
    server.sendToolListChanged()
  }, { ...LATEST, capabilities: { sampling: {} } })
  assert.deepEqual(told, [-32097])
  assert.match(log.errors.join(), /the session ended: the input ended inside a message|^$/)
})

test('what is registered comes, changes and goes', async () => {
  const { server } = makeServer()
  const count = server.registerTool('count', { title: 'A', inputSchema: { type: 'object' } }, () => 'one')
  assert.throws(() => server.registerTool('count', {}, () => {}), /there is a tool 'count' already/)
  const resource = server.registerResource('r', 'a://1', {}, () => '')
  assert.throws(() => server.registerResource('other', 'a://1', {}, () => ''), /there is a resource 'a:\/\/1' already/)
  server.registerPrompt('p', {}, () => '')
  assert.throws(() => server.registerPrompt('p', {}, () => ''), /there is a prompt 'p' already/)
  await talking(server, async talk => {
    const names = async () => (await talk.ask('tools/list')).result.tools.map(it => [it.name, it.title])
    count.disable()
    count.disable()
    assert.deepEqual([await names(), count.enabled, (await call(talk, 'count')).error.message], [[], false, 'Unknown tool: count'])
    assert.throws(() => server.registerTool('count', {}, () => {}))
    count.enable()
    count.update({ title: 'B', callback: () => 'two' })
    assert.deepEqual([await names(), textOf(await call(talk, 'count'))], [[['count', 'B']], 'two'])
    assert.throws(() => count.update({ inputSchema: { type: 'strng' } }), TypeError)
    assert.equal(textOf(await call(talk, 'count')), 'two')
    count.remove()
    count.remove()
    const again = server.registerTool('count', {}, () => 'three')
    count.remove() // (that of another life takes nothing away)
    assert.deepEqual(await names(), [['count', undefined]])
    again.remove()
    resource.remove()
    await talk.ask('ping')
    const changes = talk.written.filter(it => it.method?.endsWith('list_changed')).map(it => it.method.split('/')[1])
    assert.deepEqual(changes, ['tools', 'tools', 'tools', 'tools', 'tools', 'tools', 'resources'])
  }, LATEST)
})

test('what can not be registered', () => {
  const { server } = makeServer()
  for (const it of [undefined, null, 5, 'x', {}]) {
    assert.throws(() => server.registerTool('t', {}, it), TypeError)
    assert.throws(() => server.registerPrompt('p', {}, it), TypeError)
    assert.throws(() => server.registerResource('r', 'a://1', {}, it), TypeError)
    assert.throws(() => server.setRequestHandler('m', it), TypeError)
    assert.throws(() => completable({ type: 'string' }, it), TypeError)
  }
  for (const uri of [undefined, 5, 'no scheme', '']) assert.throws(() => server.registerResource('r', uri, {}, () => ''), TypeError)
  assert.throws(() => server.registerResource('r', new ResourceTemplate('a://{x}', { complete: { y: () => [] } }), {}, () => ''), /no part 'y'/)
  assert.throws(() => new ResourceTemplate('a://{x}', { list: () => [] }), TypeError)
  for (const src of ['file:///a.png', 'javascript:0', '']) assert.throws(() => new ToolServer({ name: 's', icons: [{ src }] }), TypeError)
  assert.throws(() => new ToolServer({ name: 's', icons: [{ src: 'data:', theme: 'blue' }] }), TypeError)
  for (const pageSize of [0, -1, 1.5, 'x']) assert.throws(() => new ToolServer({ name: 's' }, { pageSize }), RangeError)
  assert.throws(() => new ToolServer({}), TypeError)
  assert.throws(() => server.registerTool(Symbol('x'), {}, () => {}), TypeError)
  assert.throws(() => image(5, 'image/png'), TypeError)
  assert.throws(() => image(Buffer.alloc(1)), TypeError)
  assert.throws(() => server.sendLoggingMessage({ level: 'loud', data: 1 }), TypeError)
})

test('names of tools that some hosts refuse', async () => {
  const warnings = []
  const hear = it => warnings.push(it.message)
  process.on('warning', hear)
  const { server } = makeServer()
  for (const name of ['a', 'a_b-c.X9', 'a'.repeat(128)]) server.registerTool(name, {}, () => {})
  await sleep(1)
  assert.deepEqual(warnings, [])
  for (const name of ['', 'a b', 'a/b', '\u00e9', 'a'.repeat(129), 'a\n']) server.registerTool(name, {}, () => {})
  await sleep(1)
  process.off('warning', hear)
  assert.equal(warnings.length, 6)
  assert.match(warnings[0], /letters, digits, and _ - \. are what hosts take/)
})

test('turns in which a model uses tools', async () => {
  const { turns } = rows('turns')
  const { server } = makeServer()
  server.registerTool('count', { title: 'T', inputSchema: { type: 'object' } }, () => 1)
  const found = []
  server.registerTool('ask', {}, async extra => {
    for (const [messages] of turns) found.push(await extra.createMessage({ messages }).then(() => null, error => error.message))
    for (const [tools, toolChoice] of [[['none'], 'auto'], [['count'], 'maybe'], [['count'], { mode: 'maybe' }]]) {
      await extra.createMessage({ messages: '?', tools, toolChoice }).catch(error => found.push(error.message))
    }
    const uses = toolUses(await extra.createMessage({ messages: '?', tools: ['count'], toolChoice: 'required' }))
    return toolResult(uses[0], 2)
  })
  const [one, other] = InMemoryTransport.createLinkedPair()
  await server.connect(other)
  const use = { type: 'tool_use', id: '1', name: 'count', input: {} }
  const asked = []
  const sampling = params => {
    asked.push(params)
    return params.tools ? { role: 'assistant', content: [use], model: 'm' } : 'yes'
  }
  const client = new ToolClient({ name: 'c' }, { sampling, samplingTools: true })
  await client.connect(one)
  const { structuredContent } = await client.callTool({ name: 'ask' })
  await client.close()
  turns.forEach(([, words], at) => assert.ok(words === null ? found[at] === null : found[at].startsWith(words), `${words}: ${found[at]}`))
  assert.deepEqual(found.slice(turns.length), ["there is no tool 'none'", ...Array(2).fill('toolChoice is one of auto, required, none: "maybe"')])
  assert.deepEqual(structuredContent, { type: 'tool_result', toolUseId: '1', content: [{ type: 'text', text: '2' }] })
  const { tools, toolChoice } = asked.at(-1)
  assert.deepEqual([tools, toolChoice], [[{ name: 'count', title: 'T', inputSchema: { type: 'object' } }], { mode: 'required' }])
})

test('forms as versions have them', async () => {
  const { server } = makeServer()
  const titled = { type: 'string', oneOf: [{ const: 'r', title: 'Red' }] }
  const several = { type: 'array', items: { anyOf: [{ const: 'r', title: 'Red' }] } }
  const of = properties => ({ message: '?', requestedSchema: { type: 'object', properties } })
  for (const [name, properties] of Object.entries({ titled: { c: titled }, several: { c: several }, nested: { c: { type: 'object' } }, plain: { c: { type: 'boolean' } } })) {
    server.registerTool(name, {}, async extra => (await extra.elicitInput(of(properties))).action)
  }
  for (const version of ['2025-06-18', '2025-11-25']) {
    await talking(server, async talk => {
      const asked = async name => (await talk.say([{ id: name, method: 'tools/call', params: { name } }], 1))[0]
      const schema = (await asked('titled')).params.requestedSchema.properties.c
      assert.deepEqual(schema, version === '2025-11-25' ? titled : { type: 'string', enum: ['r'], enumNames: ['Red'] })
      assert.match(JSON.stringify(await asked('nested')), /\\"c\\" can't be asked for/)
      const found = await asked('several')
      if (version === '2025-11-25') assert.deepEqual(found.params.requestedSchema.properties.c, several)
      else assert.equal(textOf(found), '"c": the host\'s version has no choice of several')
    }, { version, capabilities: { elicitation: {} } })
  }
})

test('methods of the program\'s own, links, and what a resource reads', async () => {
  const { server, log } = makeServer({ capabilities: { experimental: { mine: {} } } })
  const heard = []
  server.setRequestHandler('mine/add', ({ params }, extra) => ({ sum: params.a + params.b, id: extra.requestId }))
  server.setNotificationHandler('mine/told', ({ params }) => { heard.push(params) })
  server.registerResource('r', 'a://1', {}, () => ({ contents: [{ uri: 'a://1', text: 'x' }] }))
  server.registerResource('bad', 'a://2', {}, () => ({ contents: [{ uri: 5 }] }))
  server.registerResource('throws', 'a://3', {}, () => { throw new Error('no') })
  server.registerTool('reads', {}, async (extra) => (await extra.readResource({ uri: 'a://1' }))[0].text)
  server.registerTool('missing', {}, extra => extra.readResource({ uri: 'b://1' }))
  server.registerTool('link', {}, () => [resourceLink({ uri: 'a://1', name: 'r', icons: [{ src: 'data:image/png;base64,' }] })])
  await talking(server, async talk => {
    assert.deepEqual(talk.begun.result.capabilities.experimental, { mine: {} })
    await talk.say([{ method: 'mine/told', params: [1] }], 0)
    assert.equal((await talk.ask('mine/add', { a: 1, b: 2 })).result.sum, 3)
    assert.deepEqual(heard, [[1]])
    assert.deepEqual((await talk.ask('resources/read', { uri: 'a://1' })).result.contents, [{ uri: 'a://1', text: 'x' }])
    assert.equal((await talk.ask('resources/read', { uri: 'a://2' })).error.code, -32603)
    assert.equal((await talk.ask('resources/read', { uri: 'a://3' })).error.code, -32603)
    assert.equal(textOf(await call(talk, 'reads')), 'x')
    assert.equal(textOf(await call(talk, 'missing')), 'Resource not found')
    assert.deepEqual((await call(talk, 'link')).result.content[0].icons, [{ src: 'data:image/png;base64,' }])
  }, LATEST)
  assert.deepEqual(log.errors, [])
})

test('a server over the standard streams', () => {
  const program = `
    const { ToolServer } = require(${JSON.stringify(path.join(__dirname, '..', 'lib', 'mcp'))})
    const server = new ToolServer({ name: 's' })
    server.registerTool('prints', {}, () => { console.log('by console'); return 'printed' })
    server.registerTool('ends', {}, () => { server.close(); return 'ended' })
    server.run()`
  const lines = [
    { id: 1, method: 'initialize', params: { protocolVersion: '2025-11-25', capabilities: {}, clientInfo: { name: 'h', version: '1' } } },
    { id: 2, method: 'tools/call', params: { name: 'prints' } }, { id: 3, method: 'tools/call', params: { name: 'ends' } }
  ].map(it => `${JSON.stringify({ jsonrpc: '2.0', ...it })}\n`)
  for (const count of [2, 3]) {
    const { stdout, stderr, status } = spawnSync(process.execPath, ['-e', program], { input: lines.slice(0, count).join(''), encoding: 'utf8' })
    const answers = stdout.trim().split('\n').map(it => JSON.parse(it))
    assert.deepEqual(answers.map(it => it.id), [1, 2, 3].slice(0, count))
    assert.equal(stderr, 'by console\n')
    assert.equal(status, 0)
  }
})

test('params of initialize and of lists that lack something, or are none, are answered -32602', () => talking(makeServer().server, async talk => {
  const about = { protocolVersion: '2025-11-25', capabilities: {}, clientInfo: { name: 'h', version: '1' } }
  const without = name => Object.fromEntries(Object.entries(about).filter(it => it[0] !== name))
  for (const [params, message] of [
    [without('capabilities'), 'Invalid params: capabilities is missing'],
    [without('clientInfo'), 'Invalid params: clientInfo is missing'],
    [{ ...about, capabilities: null }, 'Invalid params: capabilities must be an object, got null']
  ]) assert.deepEqual((await talk.ask('initialize', params)).error, { code: -32602, message })
  await talk.begin('2025-11-25')
  for (const method of ['tools/list', 'resources/list', 'resources/templates/list', 'prompts/list']) {
    const { error } = await talk.ask(method, [])
    assert.deepEqual(error, { code: -32602, message: 'Invalid params: params must be an object, got array' }, method)
  }
}))
