'use strict'
// A tool server over HTTP: sessions, streams that go on where they broke, and each status.

const assert = require('node:assert/strict')
const { test } = require('node:test')
const { setTimeout: sleep } = require('node:timers/promises')
const { Bearer, NotEnough, ToolError, ToolServer, VERSIONS } = require('../lib/mcp')
const { Log, until } = require('./helping')
const { POST, Web, served } = require('./web')

const TEXT = { type: 'object', properties: { text: { type: 'string' } }, required: ['text'] }
const NAME = { type: 'object', properties: { name: { type: 'string' }, count: { type: 'integer' } }, required: ['name'] }
const progress = number => (
  { jsonrpc: '2.0', method: 'notifications/progress', params: { progressToken: 1, progress: number } }
)
const content = text => [{ type: 'text', text }]

/** A server with tools, and what they wait for. */
function words(options) {
  const log = new Log()
  const server = new ToolServer({ name: 'words', version: '1.0' }, { logger: log, grace: 50, ...options })
  const go = {}
  server.registerTool('count', { inputSchema: TEXT }, ({ text }) => ({ result: text.split(/\s+/).length }))
  server.registerTool('steps', { inputSchema: NAME }, async ({ name, count = 3 }, extra) => {
    for (let it = 1; it <= count; it++) extra.reportProgress(it)
    await new Promise(resolve => { go[name] = resolve })
    return `done: ${name}`
  })
  server.registerTool('title', {}, async extra => {
    extra.log('info', 'asking')
    const asked = extra.createMessage({ messages: 'A title?', maxTokens: 9 })
    go.title = () => {} // (it is asked)
    return (await asked).content.text
  })
  server.registerTool('who', {}, extra => `${extra.user.name} ${extra.sessionId !== undefined}`)
  return { server, go, log }
}

/** Runs a test with a server; nothing of it is left. The test is told which responses the server has not ended. */
async function over(act, settings = {}, made = words()) {
  const handler = made.server.http(settings)
  const open = new Set()
  const watched = (request, response) => {
    open.add(response)
    response.on('close', () => open.delete(response))
    handler(request, response)
  }
  await served(watched, async url => {
    await act(new Web(url), { ...made, handler, url, open })
    await handler.close()
    assert.equal(handler.sessions, 0)
  })
  return made.log
}

const web = (name, act, settings) => test(name, async () => {
  const log = await over(act, settings)
  assert.deepEqual(log.errors, [])
})

/** An answer that is there at once, as a stream or not. (On a busy machine one may be late, and so a stream; but not each of them.) */
async function answered(it, text, isStream) {
  let answer = await it.call('count', { text }).whole
  for (let turn = 1; turn < 5 && answer.isStream !== isStream; turn++) answer = await it.call('count', { text }).whole
  return answer
}

web('a call, and the end of a session', async it => {
  assert.deepEqual((await it.begin()).serverInfo, { name: 'words', version: '1.0' })
  const answer = await answered(it, 'a b c', false)
  assert.deepEqual([answer.status, answer.headers['content-type'], answer.json.id], [200, 'application/json', it.last])
  assert.deepEqual(answer.json.result.structuredContent, { result: 3 })
  assert.equal((await it.ask('DELETE').whole).status, 204)
  assert.equal((await it.call('count').whole).status, 404)
})

web('a stream', async (it, { go }) => {
  await it.begin()
  const answer = it.call('steps', { name: 'a' }, { progressToken: 1 })
  await answer.until(() => answer.events.length === 4)
  assert.ok(answer.isStream)
  go.a()
  await answer.whole
  assert.deepEqual(answer.messages.slice(0, -1), [1, 2, 3].map(progress))
  assert.deepEqual([answer.messages.at(-1).id, answer.messages.at(-1).result.content], [2, content('done: a')])
  // (an event first that has no data, so that a client can ask for the rest)
  assert.deepEqual([answer.events[0][1], new Set(answer.events.map(one => one[0])).size], ['', 5])
})

web('a stream goes on where it broke, and once more when all is over', async (it, { go }) => {
  await it.begin()
  for (const at of [0, 1, 2, 3]) {
    const name = `cut ${at}`
    const answer = it.call('steps', { name }, { progressToken: 1 })
    await answer.until(() => answer.events.length === 4)
    answer.cut()
    const again = it.get(answer.events[at][0])
    await again.until(() => again.messages.length === 3 - at)
    go[name]()
    await again.whole
    assert.deepEqual(again.messages.slice(0, -1), [1, 2, 3].slice(at).map(progress))
    assert.deepEqual(again.messages.at(-1).result.content, content(`done: ${name}`))
    assert.deepEqual((await it.get(answer.events[at][0]).whole).events, again.events)
  }
})

for (const [answers, quick, slow] of [['auto', false, true], ['json', false, false], ['stream', true, true]]) {
  web(`an answer that is there at once, and a late one: ${answers}`, async (it, { go }) => {
    await it.begin()
    const answer = await answered(it, 'a', quick)
    assert.deepEqual([answer.isStream, answer.messages.length], [quick, 1])
    const late = it.call('steps', { name: 'a', count: 0 })
    await until(() => go.a)
    if (slow) await late.until(() => late.status)
    else await sleep(100)
    go.a()
    await late.whole
    assert.deepEqual([late.isStream, late.messages.length], [slow, 1])
  }, { answers })
}

web('what a call asks is on its own stream, and on no other', async it => {
  await it.begin(undefined, { sampling: {} })
  const own = it.get()
  const calls = [0, 1, 2].map(() => it.call('title'))
  for (const one of calls) {
    await one.until(() => one.messages.length === 2)
    assert.deepEqual(one.messages.map(m => m.method), ['notifications/message', 'sampling/createMessage'])
  }
  for (const at of [2, 0, 1]) {
    const result = { role: 'assistant', content: content(`${at}`)[0], model: 'm' }
    const reply = await it.post({ jsonrpc: '2.0', id: calls[at].messages[1].id, result }).whole
    assert.deepEqual([reply.status, reply.data], [202, ''])
    await calls[at].whole
    assert.deepEqual(calls[at].messages[2].result.content, content(`${at}`))
  }
  assert.deepEqual(own.messages, [])
  own.cut()
})

web('where answers are JSON, what is asked goes to the stream of a GET', async it => {
  await it.begin(undefined, { sampling: {} })
  const own = it.get()
  const answer = it.call('title')
  await own.until(() => own.messages.length === 2)
  const result = { role: 'assistant', content: content('Flowers')[0], model: 'm' }
  await it.post({ jsonrpc: '2.0', id: own.messages[1].id, result }).whole
  assert.deepEqual((await answer.whole).json.result.content, content('Flowers'))
  own.cut()
}, { answers: 'json' })

web('what belongs to no call goes to one stream of a GET, waits where there is none, and comes once', async (it, { server, open }) => {
  const say = data => server.sendLoggingMessage({ level: 'info', data })
  const came = of => of.messages.map(m => m.params.data)
  await it.begin()
  say(1)
  const first = it.get()
  await first.until(() => came(first).length === 1)
  const second = it.get()
  await second.until(() => second.status)
  say(2)
  await second.until(() => came(second).length === 1)
  second.cut()
  await until(() => open.size === 1) // (the server knows)
  say(3)
  await first.until(() => came(first).length === 2)
  first.cut()
  await until(() => open.size === 0)
  say(4)
  const again = it.get(first.events[0][0])
  await again.until(() => came(again).length === 2)
  assert.deepEqual([first, second, again].map(came), [[1, 3], [2], [3, 4]])
  again.cut()
})

web('a stream that drops is no cancel, and a cancel has no answer', async (it, { go, server }) => {
  const ended = []
  server.registerTool('work', {}, async extra => {
    extra.reportProgress(1)
    await new Promise(resolve => { go.work = resolve })
    ended.push(extra.isCancelled)
    return 'worked'
  })
  await it.begin()
  const dropped = it.call('work', {}, { progressToken: 1 })
  await dropped.until(() => dropped.messages.length === 1)
  dropped.cut()
  assert.deepEqual((await it.send('ping').whole).json.result, {})
  assert.deepEqual(ended, [])
  go.work()
  const again = await it.get(dropped.events.at(-1)[0]).whole
  assert.deepEqual([again.messages[0].result.content, ended], [content('worked'), [false]])

  delete go.work
  const cancelled = it.call('work', {}, { progressToken: 1 })
  const requestId = it.last
  await cancelled.until(() => cancelled.messages.length === 1)
  assert.equal(await it.tell('notifications/cancelled', { requestId }), 202)
  go.work()
  await cancelled.whole
  assert.deepEqual([cancelled.status, cancelled.messages.length, ended], [200, 1, [false, true]])
})

test('a cancel where answers are JSON is answered 202', () => over(async (it, { go }) => {
  await it.begin()
  const answer = it.call('steps', { name: 'a' })
  await until(() => go.a)
  await it.tell('notifications/cancelled', { requestId: it.last })
  go.a()
  assert.deepEqual([(await answer.whole).status, answer.data], [202, ''])
}, { answers: 'json' }))

web('batches: 2025-03-26 has them, and no other version', async it => {
  for (const version of VERSIONS) {
    await it.begin(version)
    const batch = [it.message('ping'), { jsonrpc: '2.0', method: 'notifications/x' }, it.message('nothing')]
    const answer = await it.post(batch).whole
    if (version !== '2025-03-26') {
      assert.deepEqual([answer.status, answer.json.error.code], [400, -32600])
      continue
    }
    assert.deepEqual(answer.json.map(one => one.id), [batch[0].id, batch[2].id])
    assert.equal((await it.post([batch[1]]).whole).status, 202)
    assert.equal((await it.post([it.message('initialize', {})]).whole).status, 400)
  }
})

for (const version of VERSIONS) {
  web(`what ${version} is told of streams`, async (it, { go }) => {
    await it.begin(version)
    const answer = it.call('steps', { name: 'a' }, { progressToken: 1 })
    await until(() => go.a)
    const isNew = version === '2025-11-25'
    let came = answer
    if (isNew) {
      await answer.whole // (it ends, and its client asks again)
      go.a()
      came = await it.get(answer.events.at(-1)[0]).whole
    } else {
      await sleep(200)
      assert.equal(answer.isOver, false)
      go.a()
      await answer.whole
    }
    assert.deepEqual([answer.events[0][1] === '', answer.data.includes('retry: 250\n')], [isNew, isNew])
    assert.deepEqual(came.messages.at(-1).result.content, content('done: a'))
  }, { poll: 100, retry: 250 })
}

// Statuses

const INITIALIZE = { protocolVersion: '2025-11-25', capabilities: {}, clientInfo: { name: 't', version: '1' } }

web('what is refused, by its status', async (it, { handler }) => {
  const status = async answer => (await answer.whole).status
  const begun = { jsonrpc: '2.0', id: 1, method: 'initialize', params: INITIALIZE }
  it.version = undefined
  for (const [wanted, answer] of [
    [400, it.post('{')], [400, it.post('{"jsonrpc":"2.0","id":1,"method":"ping"}')],
    [400, it.post({ ...begun, id: null })], [400, it.post([begun])], [400, it.post('\xff\xfe')], [400, it.get()],
    [400, it.ask('DELETE')], [404, it.post(begun, { headers: { 'mcp-session-id': 'none' } })], [405, it.ask('PUT')],
    [405, it.ask('OPTIONS')], [406, it.post(begun, { headers: { accept: 'application/json' } })],
    [406, it.post(begun, { headers: { accept: 'application/json, text/event-stream;q=0' } })],
    [200, it.post(begun, { headers: { accept: '*/*' } })], [200, it.post(begun, { headers: { accept: undefined } })],
    [415, it.post(begun, { headers: { 'content-type': 'text/plain' } })],
    [415, it.post(begun, { headers: { 'content-type': 'application/json; charset=latin1' } })],
    [415, it.post(begun, { headers: { 'content-encoding': 'gzip' } })],
    [413, it.post(JSON.stringify({ ...begun, more: 'x'.repeat(70_000) }))],
    [403, it.post(begun, { headers: { origin: 'https://example.com' } })],
    [403, it.post(begun, { headers: { origin: 'null' } })],
    [403, it.post(begun, { headers: { origin: 'http://localhost.example.com' } })],
    [200, it.post(begun, { headers: { origin: 'http://localhost:3000' } })]
  ]) assert.equal(await status(answer), wanted, answer.data)
  assert.equal(handler.sessions, 3)
  await it.begin()
  for (const [wanted, answer] of [
    [400, it.send('ping', undefined, { headers: { 'mcp-protocol-version': '1999-01-01' } })],
    [400, it.get('x')], [400, it.get('none-1')], [406, it.get(undefined, { headers: { accept: 'text/html' } })],
    [400, it.post({ jsonrpc: '2.0', id: 5 })], [400, it.post({ jsonrpc: '2.0', id: 1.5, method: 'ping' })]
  ]) assert.equal(await status(answer), wanted, answer.data)
})

web('a header that may stand once stands twice', async (it, { url }) => {
  await it.begin()
  const head = [['mcp-session-id', it.session], ...Object.entries(POST)].flat()
  for (const name of ['Mcp-Session-Id', 'Content-Type', 'Origin', 'Authorization']) {
    const answer = new Web(url).ask('POST')
    answer.cut()
    const { request } = require('node:http')
    const status = await new Promise(resolve => {
      request(url, { method: 'POST', headers: [...head, name, 'a', name, 'b'], agent: false }, it => {
        resolve(it.statusCode)
        it.resume()
      }).end('{"jsonrpc":"2.0","id":9,"method":"ping"}')
    })
    assert.equal(status, 400, name)
  }
})

web('a body that is too large', async (it, { handler }) => {
  await it.begin()
  assert.equal((await it.post('x'.repeat(2_000)).whole).status, 413)
  assert.equal(handler.sessions, 1)
}, { body: 1_000 })

// (without state, so that no body before it has so little time)
web('a body that never ends', async it => {
  const endless = it.post('{', { ends: false, headers: { 'transfer-encoding': 'chunked' } })
  await endless.until(() => endless.status)
  assert.equal(endless.status, 408)
  endless.cut()
}, { stateless: true, bodyTimeout: 100 })

web('ids that collide, and those of another session', async (it, { go, url }) => {
  await it.begin()
  const answer = it.call('steps', { name: 'a' }, { progressToken: 1 })
  await answer.until(() => answer.messages.length)
  const same = { jsonrpc: '2.0', id: it.last, method: 'ping' }
  assert.equal((await it.post(same).whole).status, 400)
  const other = new Web(url)
  await other.begin()
  assert.deepEqual((await other.post(same).whole).json, { id: it.last, jsonrpc: '2.0', result: {} })
  assert.equal((await other.get(answer.events[0][0]).whole).status, 400)
  go.a()
  assert.deepEqual((await answer.whole).messages.at(-1).id, it.last)
})

web('bounds: of sessions, of their requests, and how long they are unused', async (it, { go, url, handler }) => {
  await it.begin()
  const waits = [it.call('steps', { name: 'a' }), it.call('steps', { name: 'b' })]
  await until(() => go.a && go.b)
  const refused = await it.send('ping').whole
  assert.deepEqual([refused.status, refused.json.error.code], [429, -32000])
  go.a()
  go.b()
  for (const one of waits) assert.equal((await one.whole).status, 200)
  const other = new Web(url)
  // (what has a stream is used, however long the next requests take)
  const streams = [it.get()]
  await streams[0].until(() => streams[0].status)
  await other.begin()
  streams.push(other.get())
  await streams[1].until(() => streams[1].status)
  const full = await new Web(url).send('initialize', INITIALIZE).whole
  assert.deepEqual([full.status, full.headers['retry-after']], [503, '30'])
  for (const one of streams) one.cut()
  await until(() => handler.sessions === 0)
  assert.equal((await it.send('ping').whole).status, 404)
  // (longer than a busy machine takes from one request to the next)
}, { sessions: 2, sessionStreams: 2, sessionTimeout: 3_000 })

web('a client that reads nothing is let go', async (it, { server }) => {
  let isSaid = false
  server.registerTool('much', {}, async extra => {
    for (let at = 1; at <= 300; at++) {
      extra.reportProgress(at, undefined, 'x'.repeat(100_000))
      await sleep(1)
    }
    isSaid = true
    return 'said'
  })
  await it.begin()
  const deaf = it.call('much', {}, { progressToken: 1 }, { reads: false })
  await until(() => isSaid)
  await sleep(300)
  /** @type {any} */
  const { res } = deaf.request
  res.setEncoding('utf8').on('data', data => { deaf.data += data }).resume()
  await deaf.whole
  // (what the sockets held has come, and not the 30 MB)
  assert.ok(deaf.data.length < 20_000_000 && !deaf.data.includes('said'), `${deaf.data.length}`)
  assert.deepEqual((await it.send('ping').whole).json.result, {})
}, { unread: 200_000, unreadTimeout: 200 })

test('what no client reads is bounded, and who asks is told', () => over(async (it, { server, go }) => {
  await it.begin(undefined, { sampling: {} })
  const answer = it.call('title')
  await until(() => go.title)
  for (let at = 0; at < 200; at++) server.sendLoggingMessage({ level: 'info', data: at })
  const { isError, content: [part] } = (await answer.whole).json.result
  assert.deepEqual([isError, part.text], [true, 'the client reads no stream'])
  const own = it.get()
  await own.until(() => own.messages.length === 100)
  assert.deepEqual(own.messages.map(m => m.params.data), Array.from({ length: 100 }, (_, at) => 100 + at))
  own.cut()
}, { answers: 'json' }))

// Who may call

const BEARER = new Bearer(async token => {
  if (token === 'weak') throw new NotEnough('tools')
  if (token === 'bad') throw new Error('the check fails')
  return { one: { name: 'ann' }, two: { name: 'bob' } }[token] // (equal each time, and not the same)
}, 'https://example.com/mcp', ['https://login.example.com'], { scopes: ['tools'] })

test('a bearer', async () => {
  const log = await over(async (it, { url }) => {
    const metadata = 'resource_metadata="https://example.com/.well-known/oauth-protected-resource/mcp"'
    for (const [token, status, challenge] of [
      [undefined, 401, `Bearer ${metadata}, scope="tools"`],
      ['Basic one', 401, `Bearer ${metadata}, scope="tools"`],
      ['Bearer none', 401, `Bearer error="invalid_token", ${metadata}, scope="tools"`],
      ['Bearer weak', 403, `Bearer error="insufficient_scope", ${metadata}, scope="tools"`],
      ['Bearer bad', 500, undefined]
    ]) {
      const answer = await it.send('initialize', INITIALIZE, { headers: { authorization: token } }).whole
      assert.deepEqual([answer.status, answer.headers['www-authenticate']], [status, challenge])
    }
    const about = await it.ask('GET', { path: '/.well-known/oauth-protected-resource/mcp' }).whole
    assert.deepEqual(about.json, {
      resource: 'https://example.com/mcp', bearer_methods_supported: ['header'],
      authorization_servers: ['https://login.example.com'], scopes_supported: ['tools']
    })
    const ann = new Web(url, { authorization: 'Bearer one' })
    await ann.begin()
    assert.deepEqual((await ann.call('who').whole).json.result.content, content('ann true'))
    const bob = new Web(url, { authorization: 'Bearer two' })
    bob.session = ann.session
    assert.equal((await bob.call('who').whole).status, 404)
  }, { bearer: BEARER })
  assert.equal(log.errors.length, 1)
  for (const odd of [() => new Bearer(5, 'https://a'), () => new Bearer(() => 1, 'ftp://a'), () => new Bearer(() => 1, 'https://a/#b')]) {
    assert.throws(odd, TypeError)
  }
})

test('the texts of errors that are not for hosts stay here', async () => {
  const log = await over(async (it, { server }) => {
    server.registerTool('fails', {}, () => { throw new Error('secret') })
    server.registerTool('tells', {}, () => { throw new ToolError('told') })
    server.registerResource('r', 'a://r', {}, () => { throw new Error('secret') })
    await it.begin()
    for (const [name, text] of [['fails', 'the tool failed'], ['tells', 'told']]) {
      const { isError, content: [part] } = (await it.call(name).whole).json.result
      assert.deepEqual([isError, part.text], [true, text])
    }
    const { error } = (await it.send('resources/read', { uri: 'a://r' }).whole).json
    assert.deepEqual([error.code, error.message], [-32603, 'Internal error'])
  })
  assert.equal(log.errors.filter(it => it.includes('secret')).length, 2)
})

test('pages and names that are allowed', () => over(async it => {
  const begun = (origin, host) => it.send('initialize', INITIALIZE, { headers: { origin, host } }).whole
  const statuses = await Promise.all([
    begun('https://example.com', 'a.example'), begun('https://example.com', 'a.example:80'), begun(undefined, 'A.example'),
    begun('http://localhost', 'a.example'), begun(undefined, 'evil.example'), begun(undefined, '127.0.0.1')
  ])
  assert.deepEqual(statuses.map(one => one.status), [200, 200, 200, 403, 403, 403])
}, { origins: ['https://example.com'], hosts: ['a.example'] }))

// Without state

test('without state a POST needs no initialize', () => over(async (it, { go }) => {
  for (const [version, status, hasStructure] of [['2025-11-25', 200, true], [undefined, 200, false], ['1999-01-01', 400]]) {
    it.version = version
    const answer = await it.call('count', { text: 'a b' }).whole
    assert.equal(answer.status, status)
    if (status !== 200) continue
    assert.equal(answer.headers['mcp-session-id'], undefined)
    // (an absent version is 2025-03-26, which has no structuredContent)
    assert.equal('structuredContent' in answer.json.result, hasStructure)
  }
  assert.deepEqual((await it.begin(undefined, { sampling: {} })).capabilities, { logging: {}, tools: {} })
  assert.equal(it.session, undefined)
  const asked = (await it.call('title').whole).messages.at(-1).result
  assert.deepEqual([asked.isError, asked.content[0].text], [true, 'the host has no sampling'])
  const answer = it.call('steps', { name: 'a' }, { progressToken: 1 })
  await answer.until(() => answer.messages.length === 3)
  go.a()
  await answer.whole
  assert.deepEqual([answer.messages.length, new Set(answer.events.map(one => one[0]))], [4, new Set([undefined])])
  const get = await it.get().whole
  assert.deepEqual([get.status, get.headers.allow, (await it.ask('DELETE').whole).status], [405, 'POST', 405])
}, { stateless: true }))

// In an application

test('a body that a framework has read, and a path below which it is', async () => {
  const { server } = words()
  const handler = server.http()
  await served(async (request, response) => {
    const parts = []
    for await (const it of request) parts.push(it)
    request.body = JSON.parse(Buffer.concat(parts).toString() || 'null') ?? undefined
    request.url = request.url.replace('/below', '')
    await handler(request, response)
  }, async url => {
    const it = new Web(url.replace('/mcp', '/below/mcp?x=1'))
    await it.begin()
    assert.deepEqual((await it.call('count', { text: 'a b' }).whole).json.result.structuredContent, { result: 2 })
    await handler.close()
  })
})

test('runHttp answers this machine\'s names alone, at its path', async () => {
  const { server } = words()
  const { url, close } = await server.runHttp(0)
  const it = new Web(url)
  await it.begin()
  assert.equal((await it.send('ping').whole).status, 200)
  assert.equal((await it.send('ping', undefined, { headers: { host: 'evil.example' } }).whole).status, 403)
  assert.equal((await it.send('ping', undefined, { path: '/other' }).whole).status, 404)
  await close()
  assert.equal(server.isConnected(), false)
})

test('settings that none can be', () => {
  const { server } = words()
  for (const odd of [
    { answers: 'xml' }, { path: 'mcp' }, { origins: 'https://a' }, { hosts: 'a' }, { body: 0 }, { sessions: NaN },
    { streams: -1 }, { unread: 0 }, { ping: -1 }, { sesions: 1 }
  ]) assert.throws(() => server.http(/** @type {any} */ (odd)), Error, JSON.stringify(odd))
})
