// Tries the package for browsers in a page, and tells the server how it went.
// @ts-ignore (which the server has beside this file)
import { load } from './browser.mjs'
// @ts-ignore
import { run } from './program.mjs'

const told = []

async function check(name, act) {
  let why = ''
  try {
    await act()
  } catch (error) {
    why = String(error?.stack ?? error)
  }
  told.push([name, why])
}

function same(got, wanted) {
  const [one, other] = [got, wanted].map(it => JSON.stringify(it))
  if (one !== other) throw new Error(`${one.slice(0, 300)} in place of ${other.slice(0, 300)}`)
}

async function rejection(promise) {
  return promise.then(it => { throw new Error(`it gave ${it}`) }, error => error)
}

const once = (connection, name) => new Promise(resolve => connection.onNotification(name, resolve))

await check('a file that is not there is named', async () => {
  const { message } = await rejection(load('/none.wasm'))
  same(/none\.wasm gave 404/.test(message), true)
})
await check('a file that is no module', async () => {
  same((await rejection(load('/page.mjs'))) instanceof WebAssembly.CompileError, true)
})
const api = await load()
await check('it is loaded once', async () => same((await load()) === api, true))
const { createMessageConnection, BrowserMessageReader, BrowserMessageWriter, CancellationTokenSource, Connection } = api
const over = port => createMessageConnection(new BrowserMessageReader(port), new BrowserMessageWriter(port))

async function withWorker(act) {
  const worker = new Worker('./worker.mjs', { type: 'module' })
  const connection = over(worker)
  connection.onRequest('double', it => 2 * it)
  const ready = once(connection, 'ready')
  connection.listen()
  await ready
  await act(connection)
  connection.dispose()
  worker.terminate()
}

await withWorker(async connection => {
  await check('a worker answers', async () => same(await connection.sendRequest('add', 1, 2), 3))
  await check('a worker answers many requests, of all sizes', async () => {
    const texts = Array.from({ length: 300 }, (_, it) => ['é😀'.repeat(it * it), 'b'.repeat(7 * it)])
    same(await Promise.all(texts.map(it => connection.sendRequest('echo', { it }))), texts.map(it => ({ it })))
  })
  await check('a text that begins with a byte order mark', async () => {
    same(await connection.sendRequest('echo', { it: '\ufeffa', '\ufeff': 1 }), { it: '\ufeffa', '\ufeff': 1 })
  })
  await check('a large message', async () => {
    const text = 'ü'.repeat(3_000_000)
    same((await connection.sendRequest('echo', { text })).text === text, true)
  })
  await check('an error has its code and its data', async () => {
    const { code, message, data } = await rejection(connection.sendRequest('fail'))
    same([code, message, data], [7, 'as asked', { why: ['é'] }])
  })
  await check('a method that nobody has', async () => same((await rejection(connection.sendRequest('none'))).code, -32601))
  await check('a cancel reaches the handler', async () => {
    const source = new CancellationTokenSource()
    const answer = connection.sendRequest('slow', source.token)
    setTimeout(() => source.cancel(), 10)
    same(await answer, 'cancelled')
  })
  await check('a worker calls back', async () => same(await connection.sendRequest('back', 21), [42]))
  await check('notifications, both ways', async () => {
    const noted = once(connection, 'noted')
    connection.sendNotification('note', { a: 1 })
    same(await noted, { a: 1 })
  })
  await check('a batch', async () => {
    const answers = await connection.sendBatch([['add', 1, 2], ['echo', { a: null }]])
    same(answers, [3, { a: null }])
  })
})

await check('two ports of a channel', async () => {
  const { port1, port2 } = new MessageChannel()
  const [one, other] = [over(port1), over(port2)]
  one.onRequest('add', (a, b) => a + b)
  other.onRequest('add', (a, b) => a + b + 1)
  one.listen()
  other.listen()
  same(await Promise.all([one.sendRequest('add', 1, 2), other.sendRequest('add', 1, 2)]), [4, 3])
  one.dispose()
  other.dispose()
})
await check('a WebSocket', async () => {
  const socket = new WebSocket(`ws://${location.host}/socket`)
  socket.binaryType = 'arraybuffer'
  await new Promise((resolve, reject) => Object.assign(socket, { onopen: resolve, onerror: reject }))
  const connection = createMessageConnection(new api.WebSocketMessageReader(socket), new api.WebSocketMessageWriter(socket))
  const closed = new Promise(resolve => connection.onClose(resolve))
  connection.listen()
  const texts = ['a', 'é'.repeat(40_000)]
  same(await Promise.all(texts.map(it => connection.sendRequest('echo', it))), texts.map(it => [it]))
  connection.end()
  await closed
})
await check('a message that is no JSON-RPC is answered', async () => {
  const { port1, port2 } = new MessageChannel()
  const connection = over(port1)
  connection.listen()
  const answer = new Promise(resolve => { port2.onmessage = it => resolve(it.data) })
  port2.postMessage({ a: 1 })
  same((await answer).error.code, -32600)
  connection.dispose()
})
await check('the lower floor', async () => {
  const connection = new Connection({ framing: 'lines' })
  const [call] = connection.fed(new TextEncoder().encode('{"jsonrpc":"2.0","method":"m","params":["é"],"id":"1"}\n'))
  same([call.method, call.params, call.id], ['m', '["é"]', '"1"'])
  connection.answer(call.number, '[1.50]')
  same(new TextDecoder().decode(connection.take()), '{"id":"1","jsonrpc":"2.0","result":[1.50]}\n')
  connection.close()
  same((await rejection((async () => connection.pending)())).code, 'ERR_BULLMYRTLE_CLOSED')
})
await check('trace to a file is refused', async () => {
  const { port1 } = new MessageChannel()
  same((await rejection((async () => over(port1).listen() ?? createMessageConnection(
    new BrowserMessageReader(port1), new BrowserMessageWriter(port1), undefined, { trace: 'file' }
  ))())).message.startsWith('a page has no files'), true)
})

/** Plays a script by a program of C, and gives what it wrote to its output and to its errors. */
async function played({ program, words, env, name }) {
  const [module, given] = await Promise.all([`/${program}`, `/scripts/${name}`].map(it => fetch(it).then(got => got.arrayBuffer())))
  const written = [undefined, [], []]
  let at = 0
  const status = run(await WebAssembly.compile(module), words, {
    read(bytes) {
      const piece = new Uint8Array(given, at, Math.min(bytes.length, given.byteLength - at))
      bytes.set(piece)
      at += piece.length
      return piece.length
    },
    write: (descriptor, bytes) => written[descriptor].push(bytes.slice()),
    variable: it => env[it]
  })
  const [output, errors] = await Promise.all(written.slice(1).map(it => new Blob(it).text()))
  return { status, output, errors }
}

for (const it of await fetch('/scripts').then(got => got.json())) {
  const body = JSON.stringify(await played(it))
  await fetch(`/played/${it.name}`, { method: 'POST', body })
}
await fetch('/told', { method: 'POST', body: JSON.stringify(told) })
