'use strict'
// Makes many connections and prints what memory is resident: for memory.test.js, which
// names node's options.

const { setImmediate: turn } = require('node:timers/promises')
const { PassThrough } = require('node:stream')
const { Connection, createMessageConnection } = require('..')
const { joined } = require('../lib/testing.js')

const LINE = Buffer.from('{"jsonrpc":"2.0","method":"m","params":["some text"],"id":1}\n')

/** What is done with a connection that is then dropped. */
const WAYS = {
  lower() {
    const it = new Connection({ framing: 'lines' })
    it.fed(LINE)
    it.call(1, 'ask', '[1]')
  },
  upper() {
    createMessageConnection(new PassThrough(), new PassThrough()).listen()
  },
  async busy() {
    const { server, client } = joined()
    server.onRequest('m', it => it)
    server.onRequest('never', () => new Promise(() => {}))
    server.listen()
    client.listen()
    client.sendRequest('never', { text: 'x'.repeat(1000) })
    await client.sendRequest('m', { text: 'x'.repeat(1000) })
  },
  async waiting() {
    const input = new PassThrough()
    const connection = createMessageConnection(input, new PassThrough({ highWaterMark: 10 }), undefined, { stalled: 0 })
    connection.onRequest('m', () => 'x'.repeat(3_000))
    connection.listen()
    // (the first answer fills the output, and the second waits)
    const content = '{"jsonrpc":"2.0","method":"m","id":1}'
    const piece = `Content-Length: ${content.length}\r\n\r\n${content}`
    input.write(piece)
    await turn()
    input.write(piece)
    await turn()
    if (connection.pending === 0) throw new Error('nothing waits')
  }
}

async function collected() {
  for (let i = 0; i < 4; i++) {
    global.gc()
    await turn()
  }
  return process.memoryUsage.rss()
}

async function dropped(act) {
  let early = 0
  for (let i = 1; i <= 10_000; i++) {
    await act()
    if (i % 500 === 0) await collected()
    if (i === 2_000) early = await collected()
  }
  return { early, late: await collected() }
}

async function idle() {
  const kept = []
  const make = () => {
    const both = joined()
    both.server.onRequest('m', it => it)
    both.server.listen()
    both.client.listen()
    kept.push(both)
    return both.client.sendRequest('m', {})
  }
  for (let i = 0; i < 100; i++) await make()
  const before = await collected()
  for (let i = 0; i < 5_000; i++) await make()
  return { each: ((await collected()) - before) / 10_000, kept: kept.length }
}

const what = process.argv[2]
;(what === 'idle' ? idle() : dropped(WAYS[what])).then(it => console.log(JSON.stringify(it)))
