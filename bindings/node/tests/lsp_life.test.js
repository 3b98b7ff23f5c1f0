'use strict'
// The life of a language server: what may come when, with the errors and statuses of LSP 3.17, and what handlers do to it.

const assert = require('node:assert/strict')
const { test } = require('node:test')
const path = require('node:path')
const fs = require('node:fs')
const os = require('node:os')
const { spawn } = require('node:child_process')
const { once } = require('node:events')
const { bullmyrtle, frame, messages, patience, rejectsWith, sleep, turns, until } = require('./helping')
const { lsp, at, inSession, joined } = require('./language_sessions')

const { ResponseError } = bullmyrtle
const PARAMS = { processId: null, rootUri: null, capabilities: {} }
const hovers = server => server.onHover(() => ({ contents: 'x' }))
const HOVER = { capabilities: { hoverProvider: true } }

test('while initialize is being answered a request is answered -32002, and initialize -32600', async () => {
  let answer
  await inSession(server => {
    hovers(server)
    server.onInitialize(() => new Promise(resolve => { answer = resolve }))
  }, async client => {
    const first = client.ask('initialize', PARAMS)
    await until(() => answer)
    await rejectsWith(client.ask('textDocument/hover', at(0, 0)), -32002)
    await rejectsWith(client.ask('initialize', PARAMS), -32600)
    answer({ capabilities: {} })
    assert.deepEqual(await first, { capabilities: { textDocumentSync: 0 } })
  }, { initialize: false })
})

test('an initialize that failed may come again', async () => {
  const answers = [
    () => { throw new Error('no') }, () => { throw new ResponseError(1, 'one') }, async () => { throw new ResponseError(2, 'two') },
    () => new ResponseError(3, 'three'), async () => new ResponseError(4, 'four'), () => 'text', () => ({ capabilities: [] }),
    () => ({ capabilities: 5 })
  ]
  await inSession(server => {
    hovers(server)
    server.onInitialize(() => (answers.length ? answers.shift()() : undefined))
  }, async client => {
    for (const code of [-32603, 1, 2, 3, 4, -32603, -32603, -32603]) await rejectsWith(client.ask('initialize', PARAMS), code)
    await rejectsWith(client.ask('textDocument/hover', at(0, 0)), -32002)
    await rejectsWith(client.ask('initialize'), -32602)
    assert.deepEqual(await client.begin(), { capabilities: { textDocumentSync: 0 } })
    assert.deepEqual(await client.ask('textDocument/hover', at(0, 0)), { contents: 'x' })
  }, { initialize: false })
})

test('capabilities are what onInitialize gives, with the kind of sync that it left to us', async () => {
  const cases = [
    [{}, 0, { textDocumentSync: 0 }],
    [{}, 2, { textDocumentSync: 2 }],
    [{ textDocumentSync: 1, hoverProvider: true }, 2, { textDocumentSync: 1, hoverProvider: true }],
    [{ textDocumentSync: { openClose: true } }, 2, { textDocumentSync: { openClose: true, change: 2 } }],
    [{ textDocumentSync: { openClose: true, change: 1 } }, 2, { textDocumentSync: { openClose: true, change: 1 } }]
  ]
  for (const [given, sync, expected] of cases) {
    await inSession(server => {
      if (sync === 2) new lsp.TextDocuments(lsp.TextDocument).listen(server)
    }, async client => {
      const result = { serverInfo: { name: 'n', version: '1' }, capabilities: expected }
      assert.deepEqual(await client.begin(), result)
    }, { result: { serverInfo: { name: 'n', version: '1' }, capabilities: given } })
  }
})

test('a shutdown that fails is answered with its error, and the server is shut down', () => inSession(server => {
  server.onShutdown(async () => { throw new Error('no') })
}, async client => {
  await client.begin()
  await rejectsWith(client.ask('shutdown'), -32603)
  await rejectsWith(client.ask('shutdown'), -32600)
}))

test('what is said of its life by other names keeps the life', () => inSession(server => {
  server.onRequest('initialize', () => ({ capabilities: { hoverProvider: true } }))
  server.onRequest(lsp.ShutdownRequest.type, () => undefined)
  server.onNotification(lsp.InitializedNotification.type, () => server.console.log('initialized'))
  hovers(server)
}, async client => {
  await rejectsWith(client.ask('shutdown'), -32002)
  assert.deepEqual(await client.begin(), { capabilities: { hoverProvider: true, textDocumentSync: 0 } })
  assert.deepEqual(client.logged, ['initialized'])
  assert.equal(await client.ask('shutdown'), null)
  await rejectsWith(client.ask('textDocument/hover', at(0, 0)), -32600)
}, { initialize: false }))

test('a position encoding that the client did not offer fails initialize', () => inSession(() => {}, async (client, server) => {
  await rejectsWith(client.ask('initialize', PARAMS), -32603, /position encoding utf-8/)
  assert.equal(server.positionEncoding, 'utf-16')
  await client.begin({ general: { positionEncodings: ['utf-32', 'utf-8'] } })
  assert.equal(server.positionEncoding, 'utf-8')
}, { capabilities: { positionEncoding: 'utf-8' } }))

test('over streams of the program the process goes on when the session ends', async () => {
  const order = []
  const { client, dispose, down } = joined(server => {
    server.onInitialize(() => ({ capabilities: {} }))
    server.onExit(async () => {
      await sleep(5)
      order.push('exit')
    })
    server.onRequest('never', () => new Promise(() => {}))
  })
  await client.begin()
  const never = client.ask('never', {})
  await turns()
  await client.ask('shutdown')
  client.tell('exit')
  await rejectsWith(never, -32800)
  await until(() => down.writableEnded)
  assert.deepEqual(order, ['exit'])
  dispose()
})

test('handlers that are no functions are refused at once', () => inSession(server => {
  for (const name of ['onInitialize', 'onShutdown', 'onHover', 'onDidOpenTextDocument', 'onCompletionResolve']) {
    for (const it of [undefined, null, 'text', {}]) assert.throws(() => server[name](it), /a handler has to be a function/, name)
  }
}, async client => { await client.begin() }))

// Processes

const LIBRARY = JSON.stringify(path.join(__dirname, '..', 'lib', 'lsp', 'index.js'))

/** Runs a program of a server: what it wrote, its standard error, and its status. */
async function ran(program, bytes, { words = [], keepsOpen = false } = {}) {
  const folder = fs.mkdtempSync(path.join(os.tmpdir(), 'life-'))
  const file = path.join(folder, 'server.js')
  fs.writeFileSync(file, `const lsp = require(${LIBRARY})\n${program}`)
  const server = spawn(process.execPath, [file, ...words], { stdio: ['pipe', 'pipe', 'pipe'] })
  const [out, err] = [[], []]
  server.stdout.on('data', it => out.push(it))
  server.stderr.on('data', it => err.push(it))
  if (keepsOpen) server.stdin.write(bytes)
  else server.stdin.end(bytes)
  const [status] = await once(server, 'close')
  fs.rmSync(folder, { recursive: true })
  return { status, said: messages(Buffer.concat(out)), error: Buffer.concat(err).toString() }
}

const PLAIN = 'const connection = lsp.createConnection()\nconnection.onInitialize(() => ({ capabilities: {} }))\nconnection.listen()\n'
const request = (id, method, params) => frame({ jsonrpc: '2.0', id, method, params })
const notice = (method, params) => frame({ jsonrpc: '2.0', method, params })
const BEGIN = [request(1, 'initialize', PARAMS), notice('initialized', {})]
const SHUT = request(2, 'shutdown')
const EXIT = notice('exit')

for (const [name, parts, status] of [
  ['the end of the input without shutdown', BEGIN, 1],
  ['no input', [], 1],
  ['an input that ends inside a message', [...BEGIN, SHUT, Buffer.from('Content-Length: 9\r\n\r\n{')], 1],
  ['an input that is no header', [Buffer.from('{"jsonrpc":"2.0"}\n')], 1]
]) {
  test(`the status of a process: ${name}`, async () => {
    const found = await ran(PLAIN, Buffer.concat(parts), { keepsOpen: parts.includes(EXIT) })
    assert.deepEqual([found.status, found.said.length], [status, parts.filter(it => it.includes('"id"')).length], found.error)
  })
}

test('what a program prints does not reach the stream', async () => {
  const program = `${PLAIN}console.log('a word'); process.stdout.write('and another'); setTimeout(() => console.info('late'), 1)\n`
  const found = await ran(program, Buffer.concat([...BEGIN, SHUT, EXIT]))
  assert.deepEqual([found.status, found.said.map(it => it.id)], [0, [1, 2]])
  assert.match(found.error, /a word\nand another/)
})

test('a server ends when the process of its client does', { timeout: patience(120_000) }, async () => {
  const client = spawn(process.execPath, ['-e', `setTimeout(() => {}, ${patience(120_000)})`])
  const kill = `connection.onShutdown(() => process.kill(${client.pid}))\n`
  const first = request(1, 'initialize', { ...PARAMS, processId: client.pid })
  const begun = ran(PLAIN + kill, Buffer.concat([first, SHUT]), { keepsOpen: true })
  const [, found] = await Promise.all([once(client, 'close'), begun])
  assert.equal(found.status, 0)
})
