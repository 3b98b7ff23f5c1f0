'use strict'
// What a language server talks over, as its command line or its arguments tell it: each time a whole session.

const assert = require('node:assert/strict')
const { test } = require('node:test')
const fs = require('node:fs')
const os = require('node:os')
const path = require('node:path')
const { fork, spawn } = require('node:child_process')
const { once } = require('node:events')
const { Worker } = require('node:worker_threads')
const { bullmyrtle } = require('./helping')

const LIBRARY = JSON.stringify(path.join(__dirname, '..', 'lib', 'lsp', 'index.js'))
const BODY = `
connection.onInitialize(() => ({ capabilities: { hoverProvider: true } }))
connection.onHover(() => ({ contents: 'é'.repeat(5) }))
connection.listen()
`
const server = made => `const lsp = require(${LIBRARY})\nconst connection = ${made}\n${BODY}`
const PLAIN = server('lsp.createConnection(lsp.ProposedFeatures.all)')

const folder = fs.mkdtempSync(path.join(os.tmpdir(), 'transports-'))
process.on('exit', () => fs.rmSync(folder, { recursive: true }))
let files = 0
function program(text) {
  const file = path.join(folder, `server${++files}.js`)
  fs.writeFileSync(file, text)
  return file
}

/** A whole session: the server has to end with this status. */
async function session(reader, writer, ended, status = 0) {
  const connection = bullmyrtle.createMessageConnection(reader, writer)
  connection.listen()
  assert.deepEqual(await connection.sendRequest('initialize', { processId: null, rootUri: null, capabilities: {} }), { capabilities: { hoverProvider: true, textDocumentSync: 0 } })
  connection.sendNotification('initialized', {})
  const at = { textDocument: { uri: 'x' }, position: { line: 0, character: 0 } }
  assert.deepEqual(await connection.sendRequest('textDocument/hover', at), { contents: 'ééééé' })
  if (status === 0) assert.equal(await connection.sendRequest('shutdown'), null)
  connection.sendNotification('exit')
  assert.equal((await ended)[0], status)
  connection.dispose()
}

const stdio = { stdio: ['pipe', 'pipe', 'inherit'] }

for (const [name, text, words] of [
  ['--stdio', PLAIN, ['--stdio']], ['nothing', PLAIN, []], ['other words', PLAIN, ['--verbose', '--clientProcessId=1']],
  ['the streams', server('lsp.createConnection(process.stdin, process.stdout)'), []],
  ['a reader and a writer', server('lsp.createConnection(lsp.ProposedFeatures.all, new lsp.StreamMessageReader(process.stdin), new lsp.StreamMessageWriter(process.stdout), {})'), []],
  ['options alone', server('lsp.createConnection({ checks: false })'), []]
]) {
  test(`standard streams, told by ${name}`, async () => {
    const child = spawn(process.execPath, [program(text), ...words], stdio)
    await session(child.stdout, child.stdin, once(child, 'close'))
  })
}

for (const [name, text, words] of [
  ['--node-ipc', PLAIN, ['--node-ipc']],
  ['a reader and a writer', server('lsp.createConnection(new lsp.IPCMessageReader(process), new lsp.IPCMessageWriter(process))'), []]
]) {
  test(`the channel of Node.js, told by ${name}`, async () => {
    for (const status of [0, 1]) {
      const child = fork(program(text), words)
      await session(new bullmyrtle.IPCMessageReader(child), new bullmyrtle.IPCMessageWriter(child), once(child, 'close'), status)
    }
  })
}

for (const words of [port => [`--socket=${port}`], port => ['--verbose', '--socket', `${port}`]]) {
  test(`a socket, told by ${words('PORT').join(' ')}`, async () => {
    const transport = await bullmyrtle.createClientSocketTransport(0)
    const child = spawn(process.execPath, [program(PLAIN), ...words(transport.address.port)], stdio)
    await session(...await transport.onConnected(), once(child, 'close'))
  })
}

test('a pipe, told by --pipe', async () => {
  const name = bullmyrtle.generateRandomPipeName()
  const transport = await bullmyrtle.createClientPipeTransport(name)
  const child = spawn(process.execPath, [program(PLAIN), `--pipe=${name}`], stdio)
  await session(...await transport.onConnected(), once(child, 'close'), 1)
})

test('a port of a worker', async () => {
  const text = server("(port => lsp.createConnection(new lsp.PortMessageReader(port), new lsp.PortMessageWriter(port)))(require('node:worker_threads').parentPort)")
  const worker = new Worker(program(text))
  await session(new bullmyrtle.PortMessageReader(worker), new bullmyrtle.PortMessageWriter(worker), once(worker, 'exit'))
})

test('a command line that is wrong ends the server, and says why', async () => {
  for (const [words, why] of [
    [['--socket=here'], /--socket needs the number of a port: here/], [['--pipe'], /--pipe needs a value/], [['--socket='], /--socket needs a value/],
    [['--node-ipc'], /--node-ipc needs a process that was started by fork/]
  ]) {
    const child = spawn(process.execPath, [program(PLAIN), ...words], { stdio: ['pipe', 'pipe', 'pipe'] })
    let error = ''
    child.stderr.on('data', it => { error += it })
    assert.equal((await once(child, 'close'))[0], 1, words.join(' '))
    assert.match(error, why)
  }
})
