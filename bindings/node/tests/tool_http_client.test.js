'use strict'
// Hosts of tool servers over HTTP: ours with our server, with streams that are cut, and with the one in Python; Python's
// and curl with ours.

const assert = require('node:assert/strict')
const { test } = require('node:test')
const { createServer } = require('node:http')
const path = require('node:path')
const { execFile, spawn, spawnSync } = require('node:child_process')
const { once } = require('node:events')
const { promisify } = require('node:util')
const { McpError, MemoryEvents, StreamableHTTPClientTransport, ToolClient, ToolServer } = require('../lib/mcp')
const { Log, patience, until } = require('./helping')

const run = promisify(execFile)
const TOP = path.join(__dirname, '..', '..', '..')
const env = { ...process.env, PYTHONPATH: path.join(TOP, 'bindings', 'python') }
const TEXT = { type: 'object', properties: { text: { type: 'string' } }, required: ['text'] }
const BEGUN = { protocolVersion: '2025-11-25', capabilities: {}, clientInfo: { name: 't', version: '1' } }

function words() {
  const log = new Log()
  const server = new ToolServer({ name: 'words', version: '1.0' }, { logger: log, grace: 50 })
  server.registerTool('count', { description: 'Counts words.', inputSchema: TEXT }, ({ text }) => ({ result: text.split(' ').length }))
  server.registerTool('steps', {}, async extra => {
    for (let it = 1; it <= 20; it++) {
      extra.reportProgress(it)
      await new Promise(resolve => setTimeout(resolve, 5))
    }
    return 'done'
  })
  server.registerTool('title', {}, async extra => (await extra.createMessage({ messages: 'A title?', maxTokens: 9 })).content.text)
  server.registerTool('waits', {}, ({ signal }) => new Promise(resolve => { signal.addEventListener('abort', resolve) }))
  return { server, log }
}

/** A host of a server, whose streams `around` may cut. */
async function hosted(act, { around = (request, response) => {}, settings = {}, options = {}, of = undefined } = {}) {
  const { server, log } = words()
  const handler = server.http({ retry: 10, ...settings })
  const web = createServer((request, response) => {
    if (around(request, response) !== true) handler(request, response)
  })
  web.keepAliveTimeout = patience(web.keepAliveTimeout)
  await new Promise(resolve => web.listen(0, '127.0.0.1', () => resolve(undefined)))
  const url = `http://127.0.0.1:${/** @type {any} */ (web.address()).port}/mcp`
  const client = new ToolClient({ name: 'h', version: '1' }, { sampling: () => 'Flowers', ...options })
  try {
    await client.connect(new StreamableHTTPClientTransport(url, of))
    await act({ client, server, log, handler })
    await client.close()
  } finally {
    await handler.close()
    web.closeAllConnections()
    web.close()
  }
}

test('calls, progress, questions, notifications and the end', () => hosted(async ({ client, server, handler }) => {
  assert.equal(client.protocolVersion, '2025-11-25')
  assert.deepEqual((await client.callTool({ name: 'count', arguments: { text: 'a b' } })).structuredContent, { result: 2 })
  const told = []
  const { content } = await client.callTool({ name: 'steps' }, { onprogress: it => { told.push(it.progress) } })
  assert.deepEqual([content[0].text, told], ['done', Array.from({ length: 20 }, (_, at) => at + 1)])
  assert.equal((await client.callTool({ name: 'title' })).content[0].text, 'Flowers')
  await assert.rejects(client.callTool({ name: 'none' }), { code: -32602, message: 'Unknown tool: none' })
  const changed = new Promise(resolve => client.setNotificationHandler('notifications/tools/list_changed', resolve))
  server.registerTool('new', {}, () => 'new')
  await changed
  const controller = new AbortController()
  const waiting = client.callTool({ name: 'waits' }, { signal: controller.signal })
  setTimeout(() => controller.abort(), 100)
  await assert.rejects(waiting, { name: 'AbortError' })
  assert.deepEqual(await client.ping(), {})
  await client.close()
  await until(() => handler.sessions === 0) // (it said so: a DELETE)
}))

test('streams that are cut after each part are taken up again: nothing is lost, and nothing comes twice', async () => {
  const methods = []
  const around = (request, response) => {
    methods.push(request.method)
    const { write } = response
    let parts = 0
    response.write = (...given) => {
      // (so that some are on their way; and behind its end the next request may be under way on its connection)
      if (++parts === 4) setImmediate(() => response.writableEnded || response.destroy())
      return write.apply(response, given)
    }
  }
  await hosted(async ({ client, server }) => {
    const told = []
    // (few steps are ahead of those that were told, so that each connection has few of them, however late it is there)
    server.registerTool('paced', {}, async extra => {
      for (let it = 1; it <= 60; it++) {
        extra.reportProgress(it)
        await until(() => told.length > it - 5)
      }
      return 'done'
    })
    const { content } = await client.callTool({ name: 'paced' }, { onprogress: it => { told.push(it.progress) } })
    assert.deepEqual([content[0].text, told], ['done', Array.from({ length: 60 }, (_, at) => at + 1)])
    assert.ok(methods.filter(it => it === 'GET').length > 3, `${methods}`)
  }, { around })
})

test('polling: the connections of a stream end, and the client asks again', () => hosted(async ({ client }) => {
  const told = []
  const { content } = await client.callTool({ name: 'steps' }, { onprogress: it => { told.push(it.progress) } })
  assert.deepEqual([content[0].text, told.length], ['done', 20])
}, { settings: { poll: 20, events: () => new MemoryEvents() } }))

test('without state', () => hosted(async ({ client }) => {
  assert.deepEqual((await client.callTool({ name: 'count', arguments: { text: 'a' } })).structuredContent, { result: 1 })
  const { isError } = await client.callTool({ name: 'title' })
  assert.equal(isError, true)
}, { settings: { stateless: true } }))

test('a session that the server knows no more is over; a status that is none of success is an error', async () => {
  let status
  const around = (request, response) => {
    if (status === undefined) return undefined
    response.writeHead(status, { Location: 'http://127.0.0.1:1/', 'WWW-Authenticate': 'Bearer x' }).end('no JSON')
    return true
  }
  await hosted(async ({ client }) => {
    status = 401
    await assert.rejects(client.ping(), { code: -32000, message: 'HTTP: status 401: Bearer x' })
    status = 302 // (no token goes elsewhere)
    await assert.rejects(client.ping(), { code: -32000, message: 'HTTP: status 302: Bearer x' })
    const over = new Promise(resolve => { client.onclose = resolve })
    status = 404
    await assert.rejects(client.ping(), McpError)
    await over
    status = undefined
  }, { around })
})

test('headers of each request, and a URL that is none', async () => {
  const seen = new Set()
  let count = 0
  const around = request => { seen.add(request.headers.authorization) }
  await hosted(({ client }) => client.ping(), { around, of: { headers: async () => ({ Authorization: `Bearer ${++count}` }) } })
  assert.ok(seen.size >= 3 && seen.has('Bearer 1'), `${[...seen]}`)
  assert.throws(() => new StreamableHTTPClientTransport('ftp://a'), TypeError)
  const client = new ToolClient({ name: 'h', version: '1' })
  await assert.rejects(client.connect(new StreamableHTTPClientTransport('http://127.0.0.1:1/mcp')), { code: -32000 })
})

const has = (...words) => spawnSync(words[0], words.slice(1), { env }).status === 0
const lacks = (it, isThere) => (isThere ? false : `${it}, which is not here`)

test("Python's client drives it", { skip: lacks('python3', has('python3', '-c', 'import bullmyrtle.mcp')) }, async () => {
  const { server } = words()
  const { url, close } = await server.runHttp(0)
  const listed = await run('python3', ['-m', 'bullmyrtle.mcp', url], { env })
  assert.match(listed.stdout, /^words 1\.0, MCP 2025-11-25\ntools\n {2}count - Counts words\.\n {4}text: string\n/)
  const called = await run('python3', ['-m', 'bullmyrtle.mcp', url, 'call', 'count', 'text=a rose is a rose'], { env })
  assert.equal(called.stdout, '{"result":5}\n')
  await close()
})

test('the examiner finds nothing over HTTP', { skip: lacks('python3', has('python3', '-c', 'import bullmyrtle.examine')) }, async () => {
  const { server } = words()
  const { url, close } = await server.runHttp(0)
  const options = ['--rules', 'mcp', '--level', 'note', '--seconds', `${patience(20)}`, '--only', 'initialize', '--connect', url]
  const { stdout } = await run('python3', ['-m', 'bullmyrtle.examine', ...options], { env }).catch(error => error)
  const [, well] = /^0 must, 0 should, 0 note, .* (\d+) ok of \d+ cases/m.exec(stdout) ?? []
  assert.ok(Number(well) > 10, stdout)
  await close()
})

test('curl drives it', { skip: lacks('curl', has('curl', '--version')) }, async () => {
  const { server } = words()
  const { url, close } = await server.runHttp(0)
  const post = async (body, ...more) => (await run('curl', [
    '-s', '-i', '-H', 'Content-Type: application/json', ...more, '-d', JSON.stringify({ jsonrpc: '2.0', ...body }), url
  ])).stdout
  const begun = await post({ id: 1, method: 'initialize', params: BEGUN })
  const [, session] = /^Mcp-Session-Id: (\S+)/m.exec(begun)
  const call = { id: 2, method: 'tools/call', params: { name: 'steps', _meta: { progressToken: 1 } } }
  const answer = await post(call, '-N', '-H', `Mcp-Session-Id: ${session}`)
  assert.match(answer, /^HTTP\/1\.1 200 OK\r\nContent-Type: text\/event-stream\r\n/)
  assert.equal([...answer.matchAll(/^id: .*\nevent: message\ndata: \{/gm)].length, 21)
  await close()
})

const IN_PYTHON = `
from bullmyrtle.mcp import Context, ToolServer
server = ToolServer("words", "1.0")
@server.tool
async def count(text: str, context: Context) -> int:
    context.report_progress(1)
    return len((await context.sample("A title?"))["content"]["text"] + text)
server.run_http(0)
`
const PYTHON = ['/usr/bin/python3', 'python3'].find(it => has(it, '-c', 'import uvicorn, bullmyrtle.mcp'))

test("it drives Python's server", { skip: lacks('python3 with uvicorn', PYTHON !== undefined) }, async () => {
  const server = spawn(PYTHON, ['-c', IN_PYTHON], { env, stdio: ['ignore', 'ignore', 'pipe'] })
  const closed = once(server, 'close')
  try {
    let said = ''
    server.stderr.on('data', it => { said += it })
    const port = () => /running on http:\/\/127\.0\.0\.1:(\d+)/.exec(said)?.[1]
    await until(() => port() || server.exitCode !== null)
    assert.ok(port(), said)
    const client = new ToolClient({ name: 'h', version: '1' }, { sampling: () => 'Flowers' })
    await client.connect(new StreamableHTTPClientTransport(`http://127.0.0.1:${port()}/mcp`))
    const told = []
    const { structuredContent } = await client.callTool(
      { name: 'count', arguments: { text: 'ab' } }, { onprogress: it => { told.push(it.progress) } }
    )
    assert.deepEqual([structuredContent, told], [{ result: 9 }, [1]])
    await client.close()
  } finally {
    server.kill('SIGINT')
    await closed
  }
})

test('many sessions, half of which are cut and taken up again: nothing is lost, nothing twice, and nothing stays', async () => {
  const { server } = words()
  server.registerTool('tell', { inputSchema: TEXT }, async ({ text }, extra) => {
    for (let it = 1; it <= 3; it++) {
      extra.reportProgress(it)
      await new Promise(resolve => setImmediate(resolve))
    }
    return text
  })
  const handler = server.http({ retry: 5, answers: 'stream' })
  let count = 0
  const web = createServer((request, response) => {
    const { write } = response
    let parts = 0
    const isCut = ++count % 2 === 0 && request.method === 'POST'
    response.write = (...given) => {
      if (isCut && ++parts === 3) setImmediate(() => response.writableEnded || response.destroy())
      return write.apply(response, given)
    }
    handler(request, response)
  })
  // (a request on a connection that is closed at this moment fails, since nobody knows whether it came)
  web.keepAliveTimeout = patience(web.keepAliveTimeout)
  await new Promise(resolve => web.listen(0, '127.0.0.1', () => resolve(undefined)))
  const url = `http://127.0.0.1:${/** @type {any} */ (web.address()).port}/mcp`
  const session = async name => {
    const client = new ToolClient({ name: 'h', version: '1' })
    await client.connect(new StreamableHTTPClientTransport(url))
    for (let at = 0; at < 10; at++) {
      const told = []
      const text = `${name} ${at}`
      const { content } = await client.callTool({ name: 'tell', arguments: { text } }, { onprogress: it => { told.push(it.progress) } })
      assert.deepEqual([content[0].text, told], [text, [1, 2, 3]])
    }
    await client.close()
  }
  try {
    for (let at = 0; at < 20; at += 10) await Promise.all(Array.from({ length: 10 }, (_, it) => session(at + it)))
    await until(() => handler.sessions === 0)
    assert.ok(count > 20 * 11)
  } finally {
    web.closeAllConnections()
    web.close()
  }
})
