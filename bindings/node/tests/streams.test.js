'use strict'
// Streams of all kinds: pieces, backpressure, streams that re-enter, sockets, pipes, ports, processes, web sockets.

const assert = require('node:assert/strict')
const { test } = require('node:test')
const path = require('node:path')
const { fork } = require('node:child_process')
const { EventEmitter, once } = require('node:events')
const { Duplex, PassThrough, Writable } = require('node:stream')
const { MessageChannel, Worker } = require('node:worker_threads')
const { bullmyrtle, Raw, request, notice, frame, messages, until, sleep, withBoth, turns } = require('./helping')

const { createMessageConnection } = bullmyrtle
const { BrowserMessageReader, BrowserMessageWriter } = require('../browser/ports.js')

test('the input cut at each byte', async () => {
  const raw = new Raw().listen()
  raw.connection.onRequest('m', it => it)
  const bytes = Buffer.concat([frame(request('é😀', 'm', { a: 'é😀' })), frame(Buffer.from('{')), frame([request(2, 'm', {}), request(3, 'x')])])
  for (const it of bytes) raw.input.write(Buffer.from([it]))
  await until(() => raw.written.length === 3)
  assert.deepEqual(raw.written[0], { id: 'é😀', jsonrpc: '2.0', result: { a: 'é😀' } })
  raw.connection.dispose()
})

test('a stream with an encoding', async () => {
  const raw = new Raw({ framing: 'lines' })
  raw.input.setEncoding('utf8')
  raw.listen()
  raw.connection.onRequest('m', it => it)
  const [answer] = await raw.say(1, request(1, 'm', { a: 'é😀' }))
  assert.equal(answer.result.a, 'é😀')
  raw.connection.dispose()
})

test('3,000 calls back at once, both ways, over buffers of 1 KB', async () => {
  for (const highWaterMark of [1024, 16]) {
    await withBoth((server, client) => {
      for (const [one, other] of [[server, client], [client, server]]) {
        one.onRequest('many', async ({ count }) => {
          const all = await Promise.all(Array.from({ length: count }, (_, n) => one.sendRequest('twice', { n, text: 'x'.repeat(100) })))
          return all.reduce((sum, it) => sum + it, 0)
        })
        one.onRequest('twice', it => 2 * it.n)
        void other
      }
    }, async (client, server) => {
      const count = highWaterMark === 16 ? 300 : 3000
      const sums = await Promise.all([client.sendRequest('many', { count }), server.sendRequest('many', { count })])
      assert.deepEqual(sums, [count * (count - 1), count * (count - 1)])
      for (const it of [client, server]) assert.deepEqual([it.pending, it.open, it.counts().waiting, it.counts().open], [0, 0, 0, 0])
    }, { highWaterMark })
  }
})

test('what is said waits while the output is full, and goes on at its drain', async () => {
  const input = new PassThrough()
  const taken = []
  let release
  const output = new Writable({ highWaterMark: 1024, write(chunk, encoding, done) { taken.push(chunk); release = done } })
  const connection = createMessageConnection(input, output, undefined, { pauseOver: 200_000 })
  connection.onRequest('large', () => 'x'.repeat(100_000))
  connection.listen()
  const errors = []
  connection.onError(([it]) => errors.push(it.message))
  for (let n = 0; n < 4; n++) {
    input.write(frame(request(n, 'large')))
    await turns()
  }
  // the stream has one room's worth, the connection the rest, and the input isn't read any more
  assert.ok(Buffer.concat(taken).length <= 65_536 && connection.pending > 200_000, `${connection.pending}`)
  assert.equal(input.isPaused(), true)
  let isOut = false
  connection.drained().then(() => { isOut = true })
  input.write(frame(request('last', 'nobody')))
  for (;;) {
    const found = messages(Buffer.concat(taken)).map(it => it.id)
    if (found.includes('last')) break
    if (!found.includes(2)) assert.equal(isOut, false)
    release()
    await turns()
  }
  release()
  await until(() => isOut)
  assert.deepEqual(messages(Buffer.concat(taken)).map(it => it.id), [0, 1, 2, 3, 'last'])
  assert.deepEqual([input.isPaused(), connection.pending, errors], [false, 0, []])
  connection.dispose()
})

test('who does not read is told of after a while, and once', async () => {
  const output = new Writable({ highWaterMark: 10, write() {} })
  const connection = createMessageConnection(new PassThrough(), output, undefined, { stalled: 20 })
  const errors = []
  connection.onError(([it]) => errors.push(it.message))
  connection.listen()
  connection.sendNotification('m', { text: 'x'.repeat(100_000) })
  await until(() => errors.length)
  await sleep(60)
  assert.equal(errors.length, 1)
  assert.match(errors[0], /nothing of the output was taken for 0\.02 seconds: \d+ bytes wait/)
  connection.dispose()
})

test("a notification's promise waits for the output", async () => {
  let release
  const output = new Writable({ highWaterMark: 10, write(chunk, encoding, done) { release = done } })
  const connection = createMessageConnection(new PassThrough(), output)
  connection.listen()
  const done = []
  connection.sendNotification('m').then(() => done.push(1))
  await turns()
  assert.deepEqual(done, [])
  release()
  await until(() => done.length)
  connection.dispose()
})

/** Two ends in memory that bring what is written before `write` returns. */
function reentrant() {
  class End extends EventEmitter {
    write(bytes) { this.other.emit('data', Buffer.from(bytes)); return true }
    pause() {}
    resume() {}
    end() { this.other.emit('end') }
  }
  const [one, other] = [new End(), new End()]
  one.other = other
  other.other = one
  return [one, other]
}

test('streams that re-enter', async () => {
  const [up, down] = reentrant()
  const { StreamMessageReader, StreamMessageWriter } = bullmyrtle
  const server = createMessageConnection(new StreamMessageReader(up), new StreamMessageWriter(up))
  const client = createMessageConnection(new StreamMessageReader(down), new StreamMessageWriter(down))
  server.onRequest('deep', ({ n }) => (n ? server.sendRequest('deep', { n: n - 1 }) : 'ground'))
  client.onRequest('deep', async ({ n }) => (n ? client.sendRequest('deep', { n: n - 1 }) : 'ground'))
  server.onRequest('plain', it => it)
  server.listen()
  client.listen()
  assert.equal(await client.sendRequest('deep', { n: 200 }), 'ground')
  const all = await Promise.all(Array.from({ length: 3000 }, (_, n) => client.sendRequest('plain', { n })))
  assert.deepEqual(all.map(it => it.n), Array.from({ length: 3000 }, (_, n) => n))
  client.onRequest('lines', () => { throw new Error('a\nb') })
  server.onRequest('lines', () => server.sendRequest('lines').catch(error => error.message))
  await turns()
  assert.equal(await client.sendRequest('lines'), 'Request lines failed with message: a\nb')
  const batch = await client.sendBatch([['plain', { n: 1 }], ['deep', { n: 5 }]])
  assert.deepEqual(batch, [{ n: 1 }, 'ground'])
  client.end()
  await until(() => server.reason?.how === 'Clean')
})

test('bytes that come inside a handler are heard after those that are being heard', async () => {
  const [up] = reentrant()
  const connection = createMessageConnection(up, up)
  const begun = []
  connection.onNotification('first', () => { begun.push('first'); up.emit('data', frame(notice('third'))); up.emit('end') })
  for (const it of ['second', 'third']) connection.onNotification(it, () => begun.push(it))
  connection.onClose(({ how }) => begun.push(how))
  connection.listen()
  up.emit('data', Buffer.concat([frame(notice('first')), frame(notice('second'))]))
  assert.deepEqual(begun, ['first', 'second', 'third', 'Clean'])
})

test('a chain of connections that re-enter', async () => {
  const { StreamMessageReader, StreamMessageWriter } = bullmyrtle
  let back = { sendRequest: (method, it) => it.n }
  const links = []
  for (let i = 0; i < 40; i++) {
    const [up, down] = reentrant()
    const server = createMessageConnection(new StreamMessageReader(up), new StreamMessageWriter(up))
    const client = createMessageConnection(new StreamMessageReader(down), new StreamMessageWriter(down))
    const next = back
    server.onRequest('m', it => next.sendRequest('m', { n: it.n + 1 }))
    server.listen()
    client.listen()
    back = client
    links.push(server, client)
  }
  const all = await Promise.all(Array.from({ length: 200 }, (_, n) => back.sendRequest('m', { n })))
  assert.deepEqual(all, Array.from({ length: 200 }, (_, n) => n + 40))
  for (const it of links) it.dispose()
})

test('random traffic between two connections, cut and delayed at random', async () => {
  let seed = 7
  const random = most => (seed = (seed * 48271) % 2147483647) % most
  for (let round = 0; round < 5; round++) {
    const cut = () => new Duplex({
      read() {},
      write(chunk, encoding, done) {
        for (let at = 0; at < chunk.length;) {
          const size = 1 + random(200)
          this.push(Buffer.from(chunk.subarray(at, at + size)))
          at += size
        }
        if (random(3)) done()
        else setImmediate(done)
      }
    })
    const [up, down] = [cut(), cut()]
    const one = createMessageConnection(up, down)
    const other = createMessageConnection(down, up)
    for (const it of [one, other]) {
      it.onRequest('plain', v => v)
      it.onRequest('async', async v => { await sleep(random(3)); return v })
      it.onRequest('back', v => it.sendRequest(random(2) ? 'plain' : 'async', v))
      it.onNotification('note', () => {})
      it.listen()
    }
    const calls = Array.from({ length: 400 }, async (_, n) => {
      await sleep(random(5))
      const side = random(2) ? one : other
      side.sendNotification('note', { n })
      const value = { n, text: ['é', '😀', 'x', ''][random(4)].repeat(random(300)) }
      assert.deepEqual(await side.sendRequest(['plain', 'async', 'back'][random(3)], value), JSON.parse(JSON.stringify(value)))
    })
    await Promise.all(calls)
    for (const it of [one, other]) {
      const { open, waiting, unreadable, invalid, ignored } = it.counts()
      assert.deepEqual([open, waiting, unreadable, invalid, ignored], [0, 0, 0, 0, 0])
      it.dispose()
    }
  }
})

// Other transports

const answers = connection => { connection.onRequest('twice', it => it.n * 2); connection.listen() }

test('sockets and pipes, by both ways to begin', async () => {
  const name = bullmyrtle.generateRandomPipeName()
  const ways = [
    [await bullmyrtle.createClientPipeTransport(name), () => bullmyrtle.createServerPipeTransport(name)],
    await bullmyrtle.createClientSocketTransport(0).then(it => [it, () => bullmyrtle.createServerSocketTransport(it.address.port)])
  ]
  for (const [waiting, connect] of ways) {
    const [reader, writer] = connect()
    const server = createMessageConnection(reader, writer)
    answers(server)
    const client = createMessageConnection(...await waiting.onConnected())
    client.listen()
    assert.equal(await client.sendRequest('twice', { n: 4 }), 8)
    const text = 'x'.repeat(3_000_000)
    server.onRequest('size', it => it.text.length)
    assert.equal(await client.sendRequest('size', { text }), text.length)
    const ended = new Promise(resolve => server.onClose(resolve))
    client.end()
    assert.equal((await ended).how, 'Clean')
    client.dispose()
    server.dispose()
  }
  await assert.rejects(bullmyrtle.createClientPipeTransport('/nowhere/at/all'), { syscall: 'listen' })
})

test('sockets whose readers are slow get just what was written to them', async () => {
  const pairs = await Promise.all(['a', 'b', 'c'].map(async letter => {
    const name = bullmyrtle.generateRandomPipeName()
    const waiting = await bullmyrtle.createClientPipeTransport(name)
    const [reader, writer] = bullmyrtle.createServerPipeTransport(name)
    const writing = createMessageConnection(reader, writer)
    writing.listen()
    const [theirs] = await waiting.onConnected()
    return { letter, writing, socket: theirs.stream }
  }))
  for (let n = 0; n < 30; n++) {
    for (const { letter, writing } of pairs) writing.sendNotification(letter, { n, text: letter.repeat(50_000) })
    await sleep(0)
  }
  for (const { letter, writing, socket } of pairs) {
    const bytes = []
    socket.on('data', it => bytes.push(it))
    await writing.drained()
    writing.end()
    await once(socket, 'end')
    const found = messages(Buffer.concat(bytes))
    assert.deepEqual(found.map(it => [it.method, it.params.n]), Array.from({ length: 30 }, (_, n) => [letter, n]))
    assert.ok(found.every(it => it.params.text === letter.repeat(50_000)))
    socket.destroy()
    writing.dispose()
  }
})

test('ports, and workers that end with calls open', async () => {
  const { port1, port2 } = new MessageChannel()
  const { PortMessageReader, PortMessageWriter } = bullmyrtle
  const server = createMessageConnection(new PortMessageReader(port1), new PortMessageWriter(port1))
  answers(server)
  const client = createMessageConnection(new PortMessageReader(port2), new PortMessageWriter(port2))
  client.listen()
  assert.equal(await client.sendRequest('twice', { n: 4 }), 8)
  assert.deepEqual(await client.sendBatch([['twice', { n: 1 }], ['twice', { n: 2 }]]), [2, 4])
  port2.close()
  await until(() => server.reason?.how === 'Clean')

  for (let round = 0; round < 3; round++) {
    const worker = new Worker(path.join(__dirname, 'worker.js'))
    const connection = createMessageConnection(new PortMessageReader(worker), new PortMessageWriter(worker))
    connection.listen()
    assert.equal(await connection.sendRequest('twice', { n: 5 }), 10)
    const open = Array.from({ length: 50 }, () => connection.sendRequest('never'))
    const left = Promise.allSettled(open)
    if (round === 1) connection.sendNotification('exit')
    else worker.terminate()
    assert.ok((await left).every(it => it.status === 'rejected'))
    connection.dispose()
  }
})

test('ports as browsers have them, by their events', async () => {
  const { port1, port2 } = new MessageChannel()
  const server = createMessageConnection(new BrowserMessageReader(port1), new BrowserMessageWriter(port1))
  const client = createMessageConnection(new BrowserMessageReader(port2), new BrowserMessageWriter(port2))
  const writer = new BrowserMessageWriter(port1)
  const seen = []
  writer.onError(([error, , count]) => seen.push(error.name, count))
  writer.onClose(() => seen.push('closed'))
  server.onRequest('m', it => it)
  for (const it of [server, client]) it.listen()
  assert.deepEqual(await client.sendRequest('m', { a: 1 }), { a: 1 })
  await assert.rejects(writer.write({ no() {} }), { name: 'DataCloneError' })
  port1.close()
  await until(() => client.reason && seen.length === 3)
  assert.deepEqual([client.reason.how, seen], ['Clean', ['DataCloneError', 1, 'closed']])
})

test('another process, by its messages', async () => {
  const child = fork(path.join(__dirname, 'worker.js'), ['ipc'])
  const connection = createMessageConnection(new bullmyrtle.IPCMessageReader(child), new bullmyrtle.IPCMessageWriter(child))
  connection.listen()
  assert.equal(await connection.sendRequest('twice', { n: 4 }), 8)
  const call = connection.sendRequest('never')
  child.kill()
  await assert.rejects(call, { code: bullmyrtle.ErrorCodes.PendingResponseRejected })
})

test('objects like WebSocket, of both kinds', async () => {
  class ByEvents extends EventTarget {
    send(text) { queueMicrotask(() => this.other.dispatchEvent(Object.assign(new Event('message'), { data: text }))) }
    close() { for (const it of [this, this.other]) it.dispatchEvent(new Event('close')) }
  }
  class ByListeners extends EventEmitter {
    send(text) { queueMicrotask(() => this.other.emit('message', Buffer.from(text), false)) }
    close() { for (const it of [this, this.other]) it.emit('close') }
  }
  for (const Kind of [ByEvents, ByListeners]) {
    const [one, other] = [new Kind(), new Kind()]
    one.other = other
    other.other = one
    const both = it => [new bullmyrtle.WebSocketMessageReader(it), new bullmyrtle.WebSocketMessageWriter(it)]
    const server = createMessageConnection(...both(one))
    answers(server)
    const client = createMessageConnection(...both(other))
    client.listen()
    assert.equal(await client.sendRequest('twice', { n: 4 }), 8)
    const text = 'é'.repeat(100_000)
    server.onRequest('echo', it => it)
    assert.deepEqual(await client.sendRequest('echo', { text }), { text })
    one.send('{')
    await until(() => client.counts().unreadable === 1)
    client.end()
    await until(() => server.reason?.how === 'Clean')
  }
})

test("readers and writers of one's own", async () => {
  class Reader extends bullmyrtle.AbstractMessageReader {
    listen(callback) { this.callback = callback; return { dispose() {} } }
  }
  class Writer extends bullmyrtle.AbstractMessageWriter {
    sent = []
    async write(message) { this.sent.push(message) }
  }
  const [reader, writer] = [new Reader(), new Writer()]
  const connection = createMessageConnection(reader, writer)
  answers(connection)
  const errors = []
  connection.onError(it => errors.push(it))
  reader.callback(request(1, 'twice', { n: 2 }))
  await until(() => writer.sent.length)
  assert.deepEqual(writer.sent, [{ id: 1, jsonrpc: '2.0', result: 4 }])
  reader.fireError(new Error('reader'))
  writer.fireError(new Error('writer'), { a: 1 }, 3)
  assert.deepEqual(errors.map(([it, message, count]) => [it.message, message, count]), [['reader', undefined, undefined], ['writer', { a: 1 }, 3]])
  writer.write = () => Promise.reject(new Error('refused'))
  reader.callback(request(2, 'twice', { n: 2 }))
  await until(() => errors.length === 3)
  reader.fireClose()
  await until(() => connection.reason?.how === 'Clean')
  assert.throws(() => createMessageConnection(reader, new PassThrough()), TypeError)
})

test('messages of all lengths go to a writer one by one, each as a whole', async () => {
  class Reader extends bullmyrtle.AbstractMessageReader {
    listen() { return { dispose() {} } }
  }
  class Writer extends bullmyrtle.AbstractMessageWriter {
    sent = []
    async write(message) { this.sent.push(message) }
  }
  const writer = new Writer()
  const connection = createMessageConnection(new Reader(), writer)
  const errors = []
  connection.onError(it => errors.push(it))
  connection.listen()
  const content = JSON.stringify(notice('m', { text: '' })).length
  // (the first of all that are said in a turn is large)
  const lengths = [2 ** 20, 2 ** 16 - 1, 2 ** 16, 2 ** 16 + 1].flatMap(it => [it - content, it - content, 1, 2])
  const wanted = lengths.map(it => notice('m', { text: 'x'.repeat(it) }))
  for (const it of wanted) connection.sendNotification('m', it.params)
  await until(() => writer.sent.length >= wanted.length)
  assert.ok(writer.sent.every((it, at) => JSON.stringify(it) === JSON.stringify(wanted[at])))
  assert.deepEqual(errors, [])
  connection.dispose()
})

test('a reader and a writer of streams, without a connection', async () => {
  const stream = new PassThrough()
  const reader = new bullmyrtle.StreamMessageReader(stream)
  const writer = new bullmyrtle.StreamMessageWriter(stream)
  const seen = []
  const errors = []
  reader.onError(it => errors.push(it.message))
  const listening = reader.listen(it => seen.push(it))
  await writer.write(request(1, 'é', { a: 1 }))
  await writer.write(notice('n'))
  stream.write('Content-Length: 1')
  stream.write('\r\n\r\n5')
  await until(() => seen.length === 3)
  assert.deepEqual(seen, [JSON.parse(JSON.stringify(request(1, 'é', { a: 1 }))), JSON.parse(JSON.stringify(notice('n'))), 5])
  stream.write('A: 1\r\n\r\n')
  await until(() => errors.length === 1)
  listening.dispose()
  stream.write(frame(notice('late')))
  await turns()
  assert.equal(seen.length, 3)
  assert.throws(() => new bullmyrtle.StreamMessageReader(stream, { contentDecoder: {} }), /has no contentDecoder/)
})
