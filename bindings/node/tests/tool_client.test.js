'use strict'
// A host: whole sessions, results that aren't their method's, and servers and functions that do what they shouldn't.

const assert = require('node:assert/strict')
const { test } = require('node:test')
const {
  InMemoryTransport, InvalidResult, McpError, ResourceTemplate, StdioClientTransport, ToolClient, ToolServer, UrlElicitationRequired,
  completable
} = require('../lib/mcp')
const { bullmyrtle, rejectsWith, sleep, until } = require('./helping')
const { Talk, rows } = require('./tool_table')

const INITIALIZED = { protocolVersion: '2025-11-25', capabilities: {}, serverInfo: { name: 's', version: '1' } }

/** A client with a server, whose tools are registered by `register`. */
async function withServer(register, act, options = {}) {
  const server = new ToolServer({ name: 'words', version: '1' }, { logger: { error() {} }, grace: 50, ...options.server })
  register(server)
  const [one, other] = InMemoryTransport.createLinkedPair()
  await server.connect(other)
  const client = new ToolClient({ name: 'c' }, options.client)
  await client.connect(one)
  try {
    return await act(client, server)
  } finally {
    await client.close()
  }
}

/** A client with a connection that answers each method by a function or a value. */
async function withAnswers(answers, act, options) {
  const [one, other] = InMemoryTransport.createLinkedPair()
  const server = bullmyrtle.createMessageConnection(other.input, other.output, undefined, { protocol: 'mcp' })
  server.onRequest((method, params, token) => {
    const found = method in answers ? answers[method] : method === 'initialize' ? INITIALIZED : {}
    return typeof found === 'function' ? found(params, token) : found
  })
  server.listen()
  const client = new ToolClient({ name: 'c' }, options)
  try {
    await client.connect(one)
    return await act(client, server)
  } finally {
    await client.close()
    server.dispose()
  }
}

test('a whole session', () => {
  const told = []
  const heard = []
  const controller = new AbortController()
  return withServer(server => {
    server.registerTool('count', { inputSchema: { type: 'object' } }, ({ text }, extra) => {
      const words = text.split(' ')
      words.forEach((_, at) => extra.reportProgress(at + 1, words.length))
      extra.log('info', 'counted')
      return { result: words.length }
    })
    server.registerTool('title', {}, async extra => {
      const reply = await extra.createMessage({ messages: 'A title' })
      const said = await extra.elicitInput({ message: 'Take it?', requestedSchema: { type: 'object', properties: {} } })
      return `${reply.content.text} ${said.action} ${(await extra.listRoots())[0].uri}`
    })
    server.registerTool('waits', {}, extra => new Promise(resolve => {
      extra.signal.addEventListener('abort', () => resolve(told.push('aborted')))
      controller.abort() // (now that it has begun)
    }))
    server.registerResource('one', 'a://1', {}, () => 'one')
    server.registerResource('x', new ResourceTemplate('b://{x}'), {}, (uri, { x }) => x)
    const argsSchema = { type: 'object', properties: { name: completable({ type: 'string' }, value => [`${value}!`]) } }
    server.registerPrompt('hello', { argsSchema }, ({ name }) => `Hello ${name}`)
  }, async (client, server) => {
    assert.deepEqual([client.getServerVersion().name, client.protocolVersion, client.getInstructions()], ['words', '2025-11-25', 'none'])
    assert.ok(client.getServerCapabilities().completions)
    assert.deepEqual((await client.listTools()).tools.map(it => it.name), ['count', 'title', 'waits'])
    const reached = []
    const result = await client.callTool({ name: 'count', arguments: { text: 'a b c' } }, { onprogress: it => reached.push([it.progress, it.total]) })
    assert.deepEqual([result.content[0].text, result.structuredContent], ['{"result":3}', { result: 3 }])
    assert.deepEqual(reached, [[1, 3], [2, 3], [3, 3]])
    assert.deepEqual(told, [{ level: 'info', data: 'counted' }])
    assert.equal((await client.callTool({ name: 'title' })).content[0].text, 'Flowers accept file:///work')
    await assert.rejects(client.callTool({ name: 'waits' }, { signal: controller.signal }), { name: 'AbortError' })
    await until(() => told.includes('aborted'))
    await assert.rejects(client.ping({ signal: AbortSignal.abort(new Error('before')) }), /before/)
    await rejectsWith(client.callTool({ name: 'nothing' }), -32602, 'Unknown tool: nothing')
    assert.deepEqual((await client.listResources()).resources.map(it => it.uri), ['a://1'])
    assert.equal((await client.listResourceTemplates()).resourceTemplates.length, 1)
    assert.equal((await client.readResource({ uri: 'b://x' })).contents[0].text, 'x')
    client.setNotificationHandler('notifications/resources/updated', ({ params }) => { heard.push(params.uri) })
    await client.subscribeResource({ uri: 'a://1' })
    server.sendResourceUpdated({ uri: 'a://1' })
    await client.unsubscribeResource({ uri: 'a://1' })
    assert.deepEqual(heard, ['a://1'])
    assert.deepEqual((await client.listPrompts()).prompts.map(it => it.name), ['hello'])
    assert.equal((await client.getPrompt({ name: 'hello', arguments: { name: 'Ys' } })).messages[0].content.text, 'Hello Ys')
    const argument = { name: 'name', value: 'a' }
    assert.deepEqual((await client.complete({ ref: { type: 'ref/prompt', name: 'hello' }, argument })).completion.values, ['a!'])
    await client.setLoggingLevel('error')
    await assert.rejects(client.setLoggingLevel('loud'), TypeError)
    await client.ping()
    await client.sendRootsListChanged(['file:///other'])
    assert.equal((await client.callTool({ name: 'title' })).content[0].text, 'Flowers accept file:///other')
  }, {
    server: { pageSize: 2, instructions: 'none' },
    client: { sampling: async () => 'Flowers', elicitation: () => ({}), roots: ['file:///work'], log: it => told.push(it) }
  })
})

test('results that are not their method\'s', async () => {
  const calls = {
    'initialize': undefined, 'tools/list': it => it.listTools(), 'tools/call': it => it.callTool({ name: 'a' }),
    'resources/read': it => it.readResource({ uri: 'a://1' }), 'prompts/get': it => it.getPrompt({ name: 'a' }),
    'completion/complete': it => it.complete({ ref: { type: 'ref/prompt', name: 'a' }, argument: { name: 'b', value: '' } }), 'ping': it => it.ping()
  }
  const { wrong } = rows('results')
  assert.ok(wrong.length >= 20)
  for (const [method, result, words] of wrong) {
    const asked = withAnswers({ [method]: result }, client => calls[method]?.(client))
    const place = words.startsWith(' ') ? words : `.${words}`
    await assert.rejects(asked, error => {
      assert.ok(error instanceof InvalidResult, `${error}`)
      assert.ok(error.message.startsWith(`${method}: result${place}`), error.message)
      return true
    })
  }
})

test('what a server may leave out, or writes as null', () => withAnswers({
  'tools/list': { tools: [{ name: 'a', inputSchema: {}, title: null, more: 5 }], nextCursor: null },
  'tools/call': { content: null, more: 5, structuredContent: null }
}, async client => {
  assert.equal((await client.listTools()).tools[0].name, 'a')
  assert.deepEqual((await client.callTool({ name: 'a' })).content, [])
}))

test('pages that go round, or have no end', async () => {
  const listing = answer => withAnswers({ 'tools/list': answer }, client => client.listTools())
  await assert.rejects(listing({ tools: [], nextCursor: 'again' }), /pages go round: "again"/)
  let asked = 0
  await assert.rejects(listing(() => ({ tools: [], nextCursor: String(++asked) })), /more than 1,000 pages/)
  assert.equal(asked, 1000)
})

test('what a server asks that it may not, and what a host\'s functions do that they shouldn\'t', async () => {
  const seen = []
  const own = {
    sampling: params => {
      seen.push(params)
      return { text: 'x', number: 5, wrong: { role: 'none' }, nothing: undefined }[params.systemPrompt] ?? (params.systemPrompt === 'throws' ? Promise.reject(new Error('odd')) : undefined)
    },
    elicitation: message => ({ declines: null, cancels: { action: 'cancel' }, number: 5, gives: { a: 1 } })[message], roots: () => { throw new Error('no') }
  }
  await withAnswers({}, async (client, server) => {
    for (const method of ['sampling/createMessage', 'elicitation/create']) {
      for (const params of [undefined, [], [1], {}, { messages: 5 }, { message: 5 }, { message: 'a', requestedSchema: 5 }]) {
        await rejectsWith(server.sendRequest(method, ...(params ? [bullmyrtle.ParameterStructures.byName, params] : []).slice(Array.isArray(params) ? 1 : 0)), -32602)
      }
    }
    assert.deepEqual(seen, [])
    const sample = systemPrompt => server.sendRequest('sampling/createMessage', { messages: [], maxTokens: 1, systemPrompt })
    assert.deepEqual(await sample('text'), { role: 'assistant', content: { type: 'text', text: 'x' }, model: 'unknown', stopReason: 'endTurn' })
    await rejectsWith(sample('nothing'), -1, 'User rejected sampling request')
    for (const it of ['number', 'wrong', 'throws']) await rejectsWith(sample(it), -32603)
    await rejectsWith(server.sendRequest('sampling/createMessage', { messages: [], maxTokens: 1, tools: [] }), -32602)
    const elicit = message => server.sendRequest('elicitation/create', { message })
    assert.deepEqual(await elicit('declines'), { action: 'decline' })
    assert.deepEqual(await elicit('cancels'), { action: 'cancel' })
    assert.deepEqual(await elicit('gives'), { action: 'accept', content: { a: 1 } })
    await rejectsWith(elicit('number'), -32603)
    await rejectsWith(server.sendRequest('elicitation/create', { mode: 'url', message: 'a', url: 'b', elicitationId: 'c' }), -32602)
    await rejectsWith(server.sendRequest('roots/list'), -32603)
    await rejectsWith(server.sendRequest('nothing'), -32601)
    assert.deepEqual(await server.sendRequest('ping'), {})
    // (progress that nobody asked for, or none)
    for (const params of [{ progressToken: 1, progress: 1 }, { progressToken: {} }, [], undefined]) {
      await server.sendNotification('notifications/progress', ...(params ? [params] : []))
    }
    await client.ping()
  }, own)
})

test('pages that a user opens', async () => {
  const done = []
  const page = 'https://example.com/pay'
  const agrees = { true: true, false: false, nothing: undefined, cancel: { action: 'cancel' } }
  for (const [name, agreed] of Object.entries(agrees)) {
    await withServer(server => {
      server.registerTool('ask', {}, async extra => (await extra.elicitInput({ mode: 'url', message: 'Pay', url: page, elicitationId: name })).action)
      server.registerTool('needs', {}, () => { throw new UrlElicitationRequired([{ message: 'Pay', url: page, elicitationId: 'x' }]) })
      server.registerTool('wrong', {}, extra => extra.elicitInput({ mode: 'url', message: 'Pay', url: 'javascript:0' }))
    }, async (client, server) => {
      const action = { true: 'accept', cancel: 'cancel' }[name] ?? 'decline'
      assert.equal((await client.callTool({ name: 'ask' })).content[0].text, action)
      await rejectsWith(client.callTool({ name: 'needs' }), -32042)
      assert.equal((await client.callTool({ name: 'wrong' })).isError, true)
      for (let i = 0; i < 2; i++) server.sendElicitationComplete({ elicitationId: name })
      await client.ping()
    }, { client: { page: () => agreed, pageDone: it => done.push(it) } })
  }
  assert.deepEqual(done, ['true'])
})

test('a progress function that throws, and one whose call is over', () => withServer(server => {
  server.registerTool('work', {}, extra => { extra.reportProgress(1) })
}, async client => {
  const errors = []
  const { error } = console
  console.error = it => errors.push(it)
  try {
    for (const onprogress of [() => { throw new Error('odd') }, async () => { throw new Error('odd') }]) {
      assert.deepEqual((await client.callTool({ name: 'work' }, { onprogress })).content, [])
    }
    await sleep(1)
  } finally {
    console.error = error
  }
  assert.equal(errors.length, 2)
}))

test('a server that ends midway', async () => {
  const ends = []
  const talk = new Talk()
  const client = new ToolClient({ name: 'c' })
  client.onclose = it => ends.push(it.how)
  const connected = client.connect(talk)
  await until(() => talk.written.length)
  talk.input.write(`${JSON.stringify({ jsonrpc: '2.0', id: 1, result: INITIALIZED })}\n`)
  await connected
  const waits = client.callTool({ name: 'a' })
  talk.input.end()
  await rejectsWith(waits, -32097)
  assert.deepEqual(ends, ['Clean'])
  await assert.rejects(client.ping(), bullmyrtle.ConnectionError)
  await client.sendNotification({ method: 'x' }).catch(() => {})
  client.sendNotification({ method: 'x' })
  await client.close()
  await client.close()
})

const start = (program, more) => new StdioClientTransport({ command: process.execPath, args: ['-e', program], ...more })

test('servers that a command starts', async () => {
  const mcp = JSON.stringify(require.resolve('../lib/mcp'))
  const client = new ToolClient({ name: 'c' })
  const program = `const { ToolServer } = require(${mcp}); const s = new ToolServer({ name: 's' })
    s.registerTool('env', {}, () => process.env.WORD); s.registerTool('dies', {}, () => process.exit(3)); s.run()`
  const transport = start(program, { env: { ...process.env, WORD: 'x' } })
  await client.connect(transport)
  assert.equal((await client.callTool({ name: 'env' })).content[0].text, 'x')
  await assert.rejects(client.connect(transport), /one server in its life/)
  await rejectsWith(client.callTool({ name: 'dies' }), -32097)
  await client.close()
  const alive = pid => {
    try {
      return process.kill(pid, 0)
    } catch {
      return false
    }
  }
  assert.equal(alive(transport.pid), false)
  await assert.rejects(new ToolClient({ name: 'c' }).connect(new StdioClientTransport({ command: '/nowhere/none' })), { code: 'ENOENT' })
  // (one that ends at once, one that speaks no protocol, and one that won't end)
  await assert.rejects(new ToolClient({ name: 'c' }).connect(start('process.exit(1)')))
  await assert.rejects(new ToolClient({ name: 'c' }).connect(start('console.log("hello"); process.stdin.once("data", () => process.exit(0))')))
  const stuck = start(`process.on('SIGTERM', () => {}); setInterval(() => {}, 1000)
    process.stdin.on('data', () => console.log(${JSON.stringify(JSON.stringify({ jsonrpc: '2.0', id: 1, result: { ...INITIALIZED, protocolVersion: '1' } }))}))`, { grace: 100 })
  await assert.rejects(new ToolClient({ name: 'c' }).connect(stuck), { name: 'UnknownVersion' })
  assert.equal(alive(stuck.pid), false)
})

test('what is no client', async () => {
  assert.throws(() => new ToolClient({}), TypeError)
  assert.throws(() => new ToolClient({ name: 'c' }, { versions: [] }), RangeError)
  assert.throws(() => new StdioClientTransport({}), TypeError)
  assert.throws(() => new ToolClient({ name: 'c' }).setNotificationHandler('a', 5), TypeError)
  await assert.rejects(new ToolClient({ name: 'c' }).ping(), /connect the client first/)
  assert.equal(McpError, bullmyrtle.ResponseError)
})
