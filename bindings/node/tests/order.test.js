'use strict'
// In which order handlers begin, and what runs between them.

const assert = require('node:assert/strict')
const { test } = require('node:test')
const net = require('node:net')
const { once } = require('node:events')
const { bullmyrtle, Raw, request, notice, until, sleep, withBoth, frame, turns } = require('./helping')

test('handlers begin in the order of the stream, plain and async ones', async () => {
  const raw = new Raw().listen()
  const begun = []
  raw.connection.onRequest('plain', n => { begun.push(n); return n })
  raw.connection.onRequest('async', async n => { begun.push(n); await sleep(1); return n })
  raw.connection.onNotification('note', n => { begun.push(n) })
  raw.connection.onNotification('later', async n => { begun.push(n) })
  const kinds = ['plain', 'async', 'note', 'later']
  const all = Array.from({ length: 1000 }, (_, n) => (n % 4 < 2 ? request(n, kinds[n % 4], [n]) : notice(kinds[n % 4], [n])))
  raw.write(...all)
  await until(() => begun.length === 1000 && raw.connection.open === 0)
  assert.deepEqual(begun, Array.from({ length: 1000 }, (_, n) => n))
  assert.equal(new Set(raw.written.map(it => it.result)).size, 500)
  raw.connection.dispose()
})

test('behind a handler that returned a promise, microtasks run before the next call begins', async () => {
  for (const cut of [Infinity, 100, 7]) {
    const raw = new Raw().listen()
    const texts = new Map()
    raw.connection.onNotification('didChange', async it => {
      for (let i = 0; i < 20; i++) await null
      texts.set('a', it.text)
    })
    raw.connection.onRequest('hover', () => texts.get('a'))
    const bytes = Buffer.concat(Array.from({ length: 50 }, (_, n) => [frame(notice('didChange', { text: n })), frame(request(n, 'hover'))]).flat())
    for (let at = 0; at < bytes.length; at += cut) raw.input.write(bytes.subarray(at, Math.min(at + cut, bytes.length)))
    await until(() => raw.written.length === 50)
    assert.deepEqual(raw.written.map(it => it.result), Array.from({ length: 50 }, (_, n) => n), `cut at ${cut}`)
    raw.connection.dispose()
  }
})

test('who awaits a reply goes on before the next call begins', async () => {
  const raw = new Raw().listen()
  const seen = []
  const call = raw.connection.sendRequest('initialize').then(() => {
    raw.connection.onNotification('ready', () => seen.push('ready'))
  })
  raw.connection.onUnhandledNotification(() => seen.push('unhandled'))
  await until(() => raw.written.length === 1)
  raw.write({ jsonrpc: '2.0', id: 1, result: {} }, notice('ready'))
  await call
  await until(() => seen.length === 1)
  assert.deepEqual(seen, ['ready'])
  raw.connection.dispose()
})

test('progress comes before the reply that it belongs to', async () => {
  const raw = new Raw().listen()
  const seen = []
  raw.connection.onNotification('busy', async () => { await sleep(1) })
  raw.connection.onProgress(new bullmyrtle.ProgressType(), 1, it => seen.push(it))
  const call = raw.connection.sendRequest('work').then(() => seen.push('replied'))
  await until(() => raw.written.length === 1)
  raw.write(notice('busy'), notice('$/progress', { token: 1, value: 'a' }), notice('$/progress', { token: 1, value: 'b' }), { jsonrpc: '2.0', id: 1, result: 1 })
  await call
  assert.deepEqual(seen, ['a', 'b', 'replied'])
  raw.connection.dispose()
})

test('as they came: answers wait for those before them', async () => {
  const raw = new Raw({ order: 'as-came' }).listen()
  let release
  raw.connection.onRequest('slow', () => new Promise(resolve => { release = resolve }))
  raw.connection.onRequest('quick', () => 'quick')
  raw.write(request(1, 'slow'), request(2, 'quick'))
  await until(() => raw.connection.open === 1)
  await turns()
  assert.deepEqual(raw.written, [])
  release('slow')
  await until(() => raw.written.length === 2)
  assert.deepEqual(raw.written.map(it => it.result), ['slow', 'quick'])
  raw.connection.dispose()
})

test('what is said stands in the order in which it was said', () => withBoth((server, client) => {
  client.seen = []
  client.onNotification('note', it => { client.seen.push(it.n) })
  server.onRequest('m', async () => {
    server.sendNotification('note', { n: 1 })
    const call = server.sendRequest('back')
    server.sendNotification('note', { n: 2 })
    await call
    server.sendNotification('no\nte', { n: 0 })
    server.sendNotification('note', { n: 3 })
    return client.seen.length
  })
  client.onRequest('back', () => { client.seen.push('back') })
}, async client => {
  await client.sendRequest('m')
  assert.deepEqual(client.seen, [1, 'back', 2, 3])
}))

test('over a socket each piece is its own turn', async () => {
  const server = net.createServer(socket => {
    const connection = bullmyrtle.createMessageConnection(socket, socket)
    const texts = []
    connection.onNotification('change', async it => { await null; texts.push(it.n) })
    connection.onRequest('count', () => texts.length)
    connection.listen()
  })
  server.listen(0, '127.0.0.1')
  await once(server, 'listening')
  const socket = net.createConnection(server.address().port, '127.0.0.1')
  const client = bullmyrtle.createMessageConnection(socket, socket)
  client.listen()
  for (let n = 1; n <= 200; n++) {
    client.sendNotification('change', { n })
    assert.equal(await client.sendRequest('count'), n)
  }
  client.dispose()
  socket.destroy()
  server.close()
})
