'use strict'
// Each request for memory of the addon, and of the library in it, is refused in turn. Run by checks/node_package.py with an
// addon that is linked with refused_memory.c.

const assert = require('node:assert/strict')
const { test } = require('node:test')
const { Connection, Refused } = require('..')
const { joined, sleep, turns, until, Log, Raw, request, notice } = require('./helping')

const MOST = 400

/** Does something with the n-th request for memory refused, and gives whether it came to that. */
function refusing(n, act) {
  process.env.REFUSE_NTH = `${n}`
  try {
    act()
  } finally {
    var was = process.env.REFUSE_NTH
    delete process.env.REFUSE_NTH
  }
  return was === 'refused'
}

const isNoMemory = error => (error instanceof Refused && error.code === 'NoMemory') || error.code === 'ERR_MEMORY_ALLOCATION_FAILED'
const text = 'x'.repeat(100_000)
const line = it => Buffer.from(`${JSON.stringify({ jsonrpc: '2.0', ...it })}\n`)

/** What is done with a connection, one step after the other. */
const STEPS = [
  it => { it.connection = new Connection({ framing: 'lines' }) },
  it => it.connection.feed(Buffer.concat([line({ method: 'm', id: 1, params: [text] }), line({ method: 'é', id: 2 }), line({ method: 'n', id: 3 })])),
  it => { it.told.push(...it.connection.events()) },
  it => it.told.push(it.connection.call(1, 'ask', `["${text}"]`)),
  it => it.told.push(it.connection.callBatch(2, [['a', '[1]'], ['b']])),
  it => it.connection.notify('note', '{"a":[1,2,3]}'),
  it => it.connection.withdraw(1),
  it => it.connection.feed(Buffer.concat([line({ id: 1, result: [text] }), line({ id: 2, error: { code: 5, message: 'm', data: text } })])),
  it => { for (let told; (told = it.connection.nextEvent());) it.told.push(told) },
  it => it.connection.answer(1, `"${text}"`),
  it => it.connection.fail(2, 5, 'message', '{"data":1}'),
  it => it.connection.cancel(3)
]

function played(upTo) {
  const it = { told: [] }
  for (const step of STEPS.slice(0, upTo)) step(it)
  return it
}

function rest(it, from) {
  for (const step of STEPS.slice(from)) step(it)
  it.connection.end()
  it.told.push(...it.connection.events())
  return [it.told, it.connection.take().toString(), it.connection.counts()]
}

test('the lower floor: what is refused memory says so, and goes on when it is done again', () => {
  const wanted = rest(played(0), 0)
  let count = 0
  STEPS.forEach((step, at) => {
    for (let n = 1; n < MOST; n++) {
      const it = played(at)
      let isDone = false
      const wasRefused = refusing(n, () => {
        try {
          step(it)
          isDone = true
        } catch (error) {
          if (!isNoMemory(error)) throw error
        }
      })
      if (!isDone) step(it)
      assert.deepEqual(rest(it, at + 1), wanted, `step ${at}, request ${n}`)
      if (!wasRefused) break
      count++
    }
  })
  assert.ok(count >= 40, `${count}`)
})

test('fed: bytes are taken or not, and events come later', () => {
  const bytes = Buffer.concat([line({ method: 'm', id: 1, params: [text] }), line({ method: 'n', id: 2 })])
  let count = 0
  for (let n = 1; n < MOST; n++) {
    const connection = new Connection({ framing: 'lines' })
    let told
    const wasRefused = refusing(n, () => {
      try {
        told = connection.fed(bytes)
      } catch (error) {
        if (!isNoMemory(error)) throw error
      }
    })
    told = [...(told ?? connection.fed(bytes)), ...connection.events()]
    assert.deepEqual(told.map(it => it.id), ['1', '2'], `request ${n}`)
    if (!wasRefused) break
    count++
  }
  assert.ok(count > 3, `${count}`)
})

test('the upper floor: a call is answered or rejected, or the connection ends and says why', async () => {
  let refused = 0
  let answered = 0
  let ended = 0
  for (let n = 1; n < MOST; n++) {
    const { server, client, dispose } = joined({ logger: new Log() })
    server.onRequest('echo', it => it)
    server.onRequest('back', it => client.hasPendingResponse() && server.sendRequest('echo', it))
    client.onRequest('echo', it => it)
    server.listen()
    client.listen()
    process.env.REFUSE_NTH = `${n}`
    const calls = [client.sendRequest('echo', { text }), client.sendRequest('back', { n }), client.sendBatch([['echo', { n }]])]
    let settled = []
    const done = Promise.allSettled(calls).then(it => { settled = it })
    await until(() => settled.length || server.reason || client.reason) // (else calls are open, and nothing has ended)
    await Promise.race([done, turns()])
    const wasRefused = process.env.REFUSE_NTH === 'refused'
    delete process.env.REFUSE_NTH
    answered += settled.filter(it => it.status === 'fulfilled').length
    if (server.reason || client.reason) ended++
    else assert.deepEqual(await client.sendRequest('echo', { well: n }), { well: n })
    dispose()
    if (!wasRefused) break
    refused++
  }
  assert.ok(refused >= 30 && answered > refused, `${refused} refusals, ${answered} answers, ${ended} ends`)
})

/** A server that gets these messages, with the n-th request for memory refused from then on. */
async function refusedServer(n, messages) {
  const raw = new Raw()
  const told = []
  raw.connection.onError(([it]) => told.push(it.message))
  raw.connection.onRequest('echo', it => it)
  raw.connection.onRequest('late', async it => { await null; return it })
  raw.connection.onRequest('bad', () => { throw new Error('bad') })
  raw.listen()
  process.env.REFUSE_NTH = `${n}`
  for (const it of messages) {
    raw.write(it)
    await turns()
  }
  const wasRefused = process.env.REFUSE_NTH === 'refused'
  delete process.env.REFUSE_NTH
  await sleep(30) // (what was refused is tried again)
  return { raw, told, wasRefused }
}

test('a server over streams: each request is answered, or the input ends and onError says why', async () => {
  const messages = [request(1, 'echo', { text }), request(2, 'bad'), notice('note', { text }), request(3, 'late', { text }), request(4, 'none')]
  let ended = 0
  for (let n = 1; n < MOST; n++) {
    const { raw, told, wasRefused } = await refusedServer(n, messages)
    const { reason } = raw.connection
    if (reason !== undefined) {
      ended++
      assert.equal(reason.how, 'Read', `request ${n}`)
      assert.match(reason.error.message, /memory was refused/, `request ${n}`)
      assert.deepEqual(told, [reason.error.message], `request ${n}`)
    } else {
      assert.deepEqual(raw.written.map(it => it.id).sort(), [1, 2, 3, 4], `request ${n}: ${told} ${raw.log.errors}`)
      assert.deepEqual(told, [], `request ${n}`)
    }
    assert.equal(raw.connection.counts().open, 0, `request ${n}`)
    raw.connection.dispose()
    if (!wasRefused) break
  }
  assert.ok(ended >= 3, `${ended} ends`)
})
