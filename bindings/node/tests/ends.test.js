'use strict'
// The ends: why there are, what becomes of calls and answers, and the end of a process.

const assert = require('node:assert/strict')
const { test } = require('node:test')
const path = require('node:path')
const { spawn } = require('node:child_process')
const { once } = require('node:events')
const { PassThrough, Writable } = require('node:stream')
const {
  bullmyrtle, Raw, request, notice, until, rejectsWith, withBoth, frame, turns
} = require('./helping')

const { ConnectionErrors, ErrorCodes } = bullmyrtle

/** How a connection ends that gets these bytes, and then its input's end, or an error of its stream. */
async function endOf(bytes, options = {}, error) {
  const raw = new Raw(options)
  const errors = []
  const closes = []
  raw.connection.onError(([it]) => errors.push(it.message))
  raw.connection.onClose(it => closes.push(it))
  raw.listen()
  raw.input.write(bytes)
  if (error) raw.input.destroy(error)
  else raw.input.end()
  await until(() => closes.length)
  await turns()
  assert.equal(closes.length, 1)
  assert.equal(raw.connection.reason, closes[0])
  return { how: closes[0].how, error: closes[0].error?.message, errors, written: raw.written, connection: raw.connection }
}

test('each end has its reason', async () => {
  const content = '{"jsonrpc":"2.0","method":"m"}'
  const rows = [
    ['Clean', '', {}], ['Clean', `Content-Length: ${content.length}\r\n\r\n${content}`, {}], ['BadHead', 'x\r\n\r\n', {}],
    ['BadLength', 'Content-Length: x\r\n\r\n', {}], ['TwoLengths', 'Content-Length: 1\r\nContent-Length: 1\r\n\r\n', {}],
    ['TooLarge', 'Content-Length: 101\r\n\r\n', { content: 100 }], ['NoLength', 'Content-Type: a\r\n\r\n', {}],
    ['HeadTooLong', `A: ${'x'.repeat(5000)}`, {}], ['Truncated', 'Content-Length: 10\r\n\r\nxx', {}],
    ['Full', `Content-Length: ${content.length}\r\n\r\n${content}`.repeat(2), { calls: 1 }],
    ['TooLarge', 'x'.repeat(200), { framing: 'lines', content: 100 }], ['Clean', 'x', { framing: 'lines' }]
  ]
  for (const [how, bytes, options] of rows) {
    const found = await endOf(Buffer.from(bytes), options)
    assert.equal(found.how, how, bytes)
    assert.equal(found.errors.length, how === 'Clean' ? 0 : 1, `${how}: ${found.errors}`)
    assert.equal(found.error, found.errors[0])
  }
  const broken = await endOf(Buffer.from(''), {}, new Error('reset'))
  assert.deepEqual([broken.how, broken.error, broken.errors], ['Read', 'reset', ['reset']])
})

test('a fault of the input has its place', async () => {
  const before = Buffer.concat(Array.from({ length: 300 }, () => frame(notice('m'))))
  const rows = [
    ['BadHead', 'nonsense\r\n\r\n', ': "nonsense\\r\\n\\r\\n": messages begin with `Content-Length: N`, CR LF, CR LF; what'],
    ['BadHead', '{"id":1}\r\n\r\n', `: ${JSON.stringify('{"id":1}\r\n\r\n')}: if each line is a message, the option is framing: 'lines'`],
    ['BadHead', 'GET / HTTP/1.1\r\n\r\n', ': "GET / HTTP/1.1\\r\\n\\r\\n": this is HTTP, and no stream of messages'],
    ['BadHead', '\ufeffContent-Length: 1\r\n\r\n', ': "\\u00ef\\u00bb\\u00bfContent-Length: 1\\r\\n\\r\\n": it begins with a byte order mark, which'],
    ['BadLength', 'Content-Length: x\r\n\r\n', ': "Content-Length: x\\r\\n\\r\\n": header lines end with CR LF, one is `Content-Length: N`,'],
    ['NoLength', 'Content-Type: a\r\n\r\n', ': "Content-Type: a\\r\\n\\r\\n": header lines end with CR LF, one is `Content-Length: N`,'],
    ['TooLarge', 'Content-Length: 16777217\r\n\r\n', ': "Content-Length: 16777217\\r\\n\\r\\n": it may allow up to 2,147,483,647'],
    ['HeadTooLong', `A: ${'x'.repeat(5000)}`, `: "A: ${'x'.repeat(61)}": messages begin with`],
    ['Truncated', 'Content-Length: 10\r\n\r\nxx', ': the other side ended before it had written all of it']
  ]
  for (const [how, bytes, told] of rows) {
    const { connection, error } = await endOf(Buffer.concat([before, Buffer.from(bytes)]))
    assert.deepEqual([connection.reason.how, connection.reason.offset], [how, before.length])
    assert.equal(error, `the connection ended: ${connection.reason.text}`)
    assert.ok(error.includes(`, at byte ${before.length}${told}`), error)
  }
  const lines = await endOf(Buffer.from(`{}\n${'x'.repeat(200)}`), { framing: 'lines', content: 100 })
  assert.deepEqual([lines.how, lines.connection.reason.offset], ['TooLarge', 3])
  const clean = await endOf(before)
  assert.deepEqual(clean.connection.reason, { how: 'Clean', error: undefined })
})

test('broken input is told, in its place, and the connection goes on', async () => {
  const raw = new Raw({ framing: 'lines' })
  const told = []
  raw.connection.onBroken(it => told.push(it))
  raw.connection.onBroken(() => { throw new Error('a listener') })
  raw.connection.onNotification('m', () => told.push('m'))
  const error = console.error
  console.error = () => {}
  try {
    raw.listen()
    const m = '{"jsonrpc":"2.0","method":"m"}'
    raw.input.write(Buffer.concat([Buffer.from(`${m}\n`), Buffer.from([0xff, 0, 0x80, 0x41]), Buffer.from(`\n[${m},5,{}]\n${m}\n`)]))
    await until(() => told.length === 5)
  } finally {
    console.error = error
  }
  assert.deepEqual(told, [
    'm', { offset: 31, first: Buffer.from([0xff, 0, 0x80, 0x41]), what: 'Unreadable', entry: 0, entries: 0 },
    { offset: 36, first: Buffer.from('[{"jsonrpc":"2.0","method":"m"},5,{}]'), what: 'Invalid', entry: 1, entries: 2 }, 'm', 'm'
  ])
  assert.deepEqual(raw.connection.counts().unreadable, 1)
  raw.connection.dispose()
})

test('calls that wait are rejected at the end, and no more can be made', async () => {
  const raw = new Raw().listen()
  const call = raw.connection.sendRequest('m')
  const batch = raw.connection.sendBatch([['a'], ['b']])
  await until(() => raw.written.length === 2)
  assert.equal(raw.connection.hasPendingResponse(), true)
  raw.input.end()
  await rejectsWith(call, ErrorCodes.PendingResponseRejected, 'Pending response rejected since the input is over')
  await rejectsWith(batch, ErrorCodes.PendingResponseRejected)
  await until(() => raw.connection.reason)
  assert.equal(raw.connection.hasPendingResponse(), false)
  for (const act of [() => raw.connection.sendRequest('m'), () => raw.connection.sendNotification('m'), () => raw.connection.listen(), () => raw.connection.sendBatch([['m']])]) {
    assert.throws(act, { code: ConnectionErrors.Closed, message: 'Connection is closed.' })
  }
})

test('requests that go on at the end are answered all the same', async () => {
  const raw = new Raw().listen()
  let release
  raw.connection.onRequest('slow', () => new Promise(resolve => { release = resolve }))
  raw.write(request(1, 'slow'))
  raw.input.end()
  await until(() => raw.connection.reason)
  assert.equal(raw.connection.open, 1)
  release('late')
  await raw.connection.settled()
  await raw.connection.drained()
  assert.deepEqual(raw.written, [{ id: 1, jsonrpc: '2.0', result: 'late' }])
})

test('a call made in the same turn as the end is rejected', async () => {
  const raw = new Raw().listen()
  raw.input.end()
  await until(() => raw.input.readableEnded)
  const call = raw.connection.reason ? Promise.reject(new bullmyrtle.ConnectionError(1, '')) : raw.connection.sendRequest('m')
  await assert.rejects(call)
})

test('dispose: calls are rejected, what was said is written, nothing is heard', () => withBoth(server => {
  server.onRequest('slow', () => new Promise(() => {}))
}, async (client, server, log, both) => {
  const disposed = []
  client.onDispose(it => disposed.push(it))
  const call = client.sendRequest('slow')
  const seen = []
  server.onNotification('last', () => seen.push('last'))
  client.sendNotification('last')
  client.dispose()
  client.dispose()
  await rejectsWith(call, ErrorCodes.PendingResponseRejected, 'Pending response rejected since connection got disposed')
  await until(() => seen.length)
  assert.deepEqual(disposed, [undefined])
  assert.deepEqual(client.reason, { how: 'Disposed' })
  assert.equal(client.counts().ownCalls, 1)
  both.down.write(frame(notice('x')))
  for (const act of [() => client.sendRequest('m'), () => client.listen(), () => client.onRequest('m', () => 1)]) {
    assert.throws(act, { code: ConnectionErrors.Disposed, message: 'Connection is disposed.' })
  }
  assert.deepEqual([client.pending, client.open], [0, 0])
  await client.drained()
}))

test('dispose inside a handler, and inside a write that brings bytes', async () => {
  for (const when of ['plain', 'async']) {
    const raw = new Raw().listen()
    raw.connection.onRequest('plain', () => { raw.connection.dispose(); return 1 })
    raw.connection.onRequest('async', async () => { await null; raw.connection.dispose(); return 1 })
    raw.write(request(1, when), request(2, when))
    await turns()
    assert.deepEqual(raw.written, [])
  }
  const input = new PassThrough()
  let connection
  let late
  const output = new Writable({
    write(chunk, encoding, done) {
      late ??= assert.rejects(connection.sendRequest('late'), { code: ErrorCodes.PendingResponseRejected })
      connection.dispose()
      done()
    }
  })
  connection = bullmyrtle.createMessageConnection(input, output)
  connection.listen()
  const call = connection.sendRequest('m')
  await rejectsWith(call, ErrorCodes.PendingResponseRejected)
  await late
})

test('listening twice, and calling before it', () => {
  const { connection } = new Raw()
  assert.throws(() => connection.sendRequest('m'), /Call listen\(\) first/)
  connection.listen()
  assert.throws(() => connection.listen(), { code: ConnectionErrors.AlreadyListening, message: 'Connection is already listening' })
  connection.dispose()
})

test('an input that has ended before anybody listens', async () => {
  const input = new PassThrough()
  input.end()
  input.resume()
  await once(input, 'end')
  const connection = bullmyrtle.createMessageConnection(input, new PassThrough())
  connection.listen()
  await until(() => connection.reason?.how === 'Clean')
})

test('an output that fails', async () => {
  const input = new PassThrough()
  const output = new Writable({ write(chunk, encoding, done) { done(new Error('no reader')) } })
  const connection = bullmyrtle.createMessageConnection(input, output)
  const errors = []
  connection.onError(([it]) => errors.push(it.message))
  connection.listen()
  const call = connection.sendRequest('m')
  await rejectsWith(call, ErrorCodes.PendingResponseRejected)
  assert.deepEqual([connection.reason.how, connection.reason.error.message, errors], ['OutputClosed', 'no reader', ['no reader']])
  await connection.drained()
  input.write(frame(request(1, 'm')))
  await turns()
  connection.dispose()
})

test('end() ends the output behind all that was said', () => withBoth(() => {}, async (client, server) => {
  const seen = []
  server.onNotification('n', () => seen.push('n'))
  server.onClose(it => seen.push(it.how))
  client.sendNotification('n')
  client.end()
  await until(() => seen.length === 2)
  assert.deepEqual(seen, ['n', 'Clean'])
}))

// Processes

const RUN = path.join(__dirname, 'run_server.js')

async function ran(protocol, ...steps) {
  const child = spawn(process.execPath, [RUN, protocol], { stdio: ['pipe', 'pipe', 'pipe'] })
  const closed = once(child, 'close') // (it may have ended before the last step is done)
  child.stdin.on('error', () => {}) // (and then it reads no more)
  let out = ''
  let errors = ''
  child.stdout.on('data', it => { out += it })
  child.stderr.on('data', it => { errors += it })
  try {
    for (const step of steps) {
      if (typeof step === 'function') await step(() => out, child, closed)
      else child.stdin.write(protocol === 'mcp' ? `${JSON.stringify(step)}\n` : frame(step))
    }
  } catch (error) {
    child.kill() // (which would wait for more, and this process for it)
    throw error
  }
  child.stdin.end()
  const [status] = await closed
  const told = errors.split('\n').filter(it => it.startsWith('bullmyrtle: ')).map(it => it.slice('bullmyrtle: '.length))
  return { status, out, errors, told }
}

test('run: all is answered, and the status is 0', async () => {
  const found = await ran('mcp', request(1, 'late', { ms: 20 }), request(2, 'print'))
  assert.equal(found.status, 0)
  assert.deepEqual(found.out.split('\n').filter(Boolean).map(it => JSON.parse(it).id).sort(), [1, 2])
  assert.match(found.errors, /by console/)
  assert.match(found.errors, /by stdout/)
  assert.deepEqual(found.told, [])
})

test('run: a handler that never answers has its grace', async () => {
  const { status, out, told } = await ran('mcp', request(1, 'never'), request(2, 'late', { ms: 1 }), request(3, 'never'))
  const cancelled = id => ({ error: { code: -32800, message: 'Request cancelled' }, id, jsonrpc: '2.0' })
  const answers = out.split('\n').filter(Boolean).map(it => JSON.parse(it)).filter(it => it.id !== 2)
  assert.deepEqual([status, answers], [1, [cancelled(1), cancelled(3)]])
  assert.deepEqual(told, [`2 request(s) weren't answered within the grace of 1 seconds: "never"`])
})

test('run: stop(status), a broken head, an input that ends inside a frame', async () => {
  const bytes = it => (out, child) => { child.stdin.write(it) }
  const rows = [
    [notice('exit', { status: 7 }), 7], [notice('exit'), 0],
    [bytes('x\r\n\r\n'), 1, `a header line isn't a field, at byte 0: "x\\r\\n\\r\\n": messages begin with`],
    [bytes('Content-Length: 5\r\n\r\n'), 1, 'the input ended inside a message, at byte 0: the other side ended before']
  ]
  for (const [step, status, text] of rows) {
    const found = await ran('lsp', step)
    assert.equal(found.status, status, found.errors)
    assert.equal(found.told.length, text === undefined ? 0 : 1, found.errors)
    if (text !== undefined) assert.ok(found.told[0].startsWith(`the session ended: ${text}`), found.errors)
  }
})

test('run: megabytes of answers are written before the process ends', async () => {
  const found = await ran('mcp', request(1, 'large', { size: 8_000_000 }), notice('exit', { status: 3 }))
  assert.equal(found.status, 3)
  assert.equal(JSON.parse(found.out).result.length, 8_000_000)
})

test('run: nobody reads', async () => {
  const found = await ran('mcp', (out, child) => { child.stdout.destroy() }, request(1, 'large', { size: 1_000_000 }), (out, child, closed) => closed)
  assert.equal(found.status, 1)
  assert.match(found.told.join(), /^the session ended: the output can't be written: the other side has ended, or reads no more: \S/)
})

test('run: a process that ends itself has written what fitted the pipe', async () => {
  const found = await ran('mcp', request(1, 'print'), (out) => until(() => out().includes('\n')), request(2, 'die'))
  assert.equal(found.status, 9)
  assert.equal(JSON.parse(found.out).id, 1)
})
