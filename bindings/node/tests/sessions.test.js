'use strict'
// Random sessions of two sides that call each other and cancel: each call ends, and nothing is kept of it. The kinds of
// methods are those of the Python package's tests.

const assert = require('node:assert/strict')
const { test } = require('node:test')
const { bullmyrtle, Log, joined, sleep, until } = require('./helping')

const { CancellationTokenSource, ResponseError } = bullmyrtle
const SESSIONS = 15
const CALLS = 150
const KINDS = ['plain', 'async', 'thread', 'later', 'raises', 'nope', 'back', 'deep', 'batch', 'stubborn']

/** Numbers from 0 to 1, the same for the same seed. */
function chances(seed) {
  let state = seed * 2654435761 + 1
  return () => {
    state = (state * 1103515245 + 12345) % 2147483648
    return state / 2147483648
  }
}

/** The methods that both sides have. What is cancelled and notices it is answered -32800. */
function withMethods(side) {
  const stopped = token => { if (token.isCancellationRequested) throw new ResponseError(-32800, 'stopped') }
  const nap = async (milliseconds, token) => { await sleep(milliseconds); stopped(token) }
  side.onRequest('plain', n => [n])
  side.onRequest('async', async (n, token) => { await nap(n, token); return [n] })
  side.onRequest('thread', (n, token) => (n % 2 ? side.sendRequest('plain', n, token) : [n]))
  side.onRequest('later', n => new Promise(resolve => { setTimeout(resolve, n, [n]) }))
  side.onRequest('raises', n => { throw new ResponseError(n, 'raised') })
  side.onRequest('back', (n, token) => side.sendRequest('async', n, token))
  side.onRequest('deep', (n, token) => side.sendRequest(n > 3 ? 'deep' : 'plain', n - 3, token))
  side.onRequest('batch', async n => {
    const [plain, raised, later] = await side.sendBatch([['plain', n], ['raises', n], ['async', n]], { settled: true })
    return [plain.value, raised.reason.code, later.value]
  })
  side.onRequest('stubborn', async (n, token) => {
    await Promise.race([sleep(10 * n), new Promise(resolve => token.onCancellationRequested(resolve))])
    return [n]
  })
}

function expected(kind, n) {
  if (kind === 'batch') return [[n], n, [n]]
  if (kind !== 'deep') return [n]
  let at = n
  while (at > 3) at -= 3
  return [at - 3]
}

const CODES = { raises: n => [n, -32800], nope: () => [-32601, -32800] }

/** Makes a call, and now and then cancels it in one way or the other; says how it ended. */
async function one(chance, side, isMcp) {
  const kind = KINDS[Math.floor(chance() * KINDS.length)]
  const n = 1 + Math.floor(chance() * 11)
  const [start, patience, wait] = [chance(), chance(), chance()]
  const source = new CancellationTokenSource()
  await sleep(start * 20)
  const call = side.sendRequest(kind, n, source.token)
  if (patience < 0.4) sleep(wait * 5).then(() => source.cancel())
  try {
    assert.deepEqual(await call, expected(kind, n), kind)
    return 'answered'
  } catch (error) {
    if (!(error instanceof ResponseError)) throw error
    const codes = CODES[kind]?.(n) ?? [-32800]
    assert.ok(codes.includes(error.code) || isMcp, `${kind} ${n}: ${error.code} ${error.message}`)
    return 'error'
  }
}

async function session(seed, options) {
  const chance = chances(seed)
  const log = new Log()
  const { server, client, dispose } = joined({ server: options, client: options, logger: log })
  const sides = [server, client]
  for (const it of sides) withMethods(it)
  for (const it of sides) it.listen()
  const ends = await Promise.all(Array.from({ length: CALLS }, () => one(chance, sides[Math.floor(chance() * 2)], options.protocol === 'mcp')))
  for (const it of sides) {
    assert.deepEqual(await it.sendRequest('plain', 1), [1])
    await it.settled()
  }
  await until(() => sides.every(it => it.counts().open === 0 && it.counts().waiting === 0 || options.protocol === 'mcp'))
  for (const it of sides) {
    const { open, unreadable, invalid } = it.counts()
    assert.deepEqual([it.open, it.hasPendingResponse(), it.pending, open, unreadable, invalid], [0, false, 0, 0, 0, 0])
  }
  assert.ok(ends.includes('answered') && ends.includes('error'))
  assert.deepEqual(log.errors, [])
  dispose()
}

for (const protocol of ['lsp', 'mcp']) {
  test(`random sessions, ${protocol}`, async () => {
    for (let seed = 0; seed < SESSIONS; seed++) {
      await session(seed, { protocol }).catch(error => { throw new Error(`seed ${seed}: ${error.stack}`, { cause: error }) })
    }
  })
}

test('10,000 requests open at once, answered in another order', async () => {
  const { server, client, dispose } = joined()
  const open = []
  server.onRequest('wait', it => new Promise(resolve => { open.push([it.n, resolve]) }))
  server.listen()
  client.listen()
  const calls = Array.from({ length: 10_000 }, (_, n) => client.sendRequest('wait', { n }))
  await until(() => open.length === 10_000)
  assert.equal(server.counts().open, 10_000)
  for (const [n, resolve] of open.sort((one, other) => (one[0] * 7919) % 10_007 - (other[0] * 7919) % 10_007)) resolve(n)
  assert.deepEqual(await Promise.all(calls), Array.from({ length: 10_000 }, (_, n) => n))
  assert.equal(server.counts().open, 0)
  dispose()
})
