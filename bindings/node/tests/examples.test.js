'use strict'
// The examples, run as a user runs them, what they do with bad params, and whole sessions of editors with them.

const assert = require('node:assert/strict')
const { test } = require('node:test')
const fs = require('node:fs')
const os = require('node:os')
const path = require('node:path')
const { once } = require('node:events')
const { spawn, spawnSync } = require('node:child_process')
const { bullmyrtle, patience, rejectsWith } = require('./helping')

const TOP = path.join(__dirname, '..', '..', '..')
const EXAMPLES = path.join(TOP, 'examples', 'node')
const EDITORS = path.join(TOP, 'bindings', 'python', 'tests', 'editors')
const env = { ...process.env, PYTHONPATH: path.join(TOP, 'bindings', 'python'), PYTHONDONTWRITEBYTECODE: '1' }
/** So many milliseconds a session may take: some start a server often, and it may start slowly. */
const LIMIT = patience(240_000)
const has = (...words) => spawnSync(words[0], words.slice(1)).status === 0

const wanted = fs.readFileSync(path.join(EXAMPLES, 'client.out'), 'utf8')
for (const [name, words, why] of [['its own servers', []], ['those in Python', ['python'], has('python3', '--version') ? false : 'python3, which is not here']]) {
  test(`the client drives ${name}`, { skip: why ?? false }, () => {
    const { status, stdout, stderr } = spawnSync(process.execPath, [path.join(EXAMPLES, 'client.mjs'), ...words], { env, encoding: 'utf8', timeout: LIMIT })
    assert.deepEqual([stdout, stderr, status], [wanted, '', 0])
  })
}

function start(name, options) {
  const server = spawn(process.execPath, [path.join(EXAMPLES, name)], { stdio: ['pipe', 'pipe', 'inherit'] })
  const connection = bullmyrtle.createMessageConnection(server.stdout, server.stdin, undefined, options)
  connection.listen()
  return { connection, ended: once(server, 'close') }
}

/** The tool server that is written by hand. */
const BY_HAND = ['python3', path.join(TOP, 'examples', 'python', 'tool_server_by_hand.py')]

test('the tool server by hand agrees to a version of MCP that there is', { skip: has('python3', '--version') ? false : 'python3, which is not here' }, async () => {
  const agreed = async protocolVersion => {
    const server = spawn(BY_HAND[0], BY_HAND.slice(1), { env, stdio: ['pipe', 'pipe', 'inherit'] })
    const closed = once(server, 'close')
    const connection = bullmyrtle.createMessageConnection(server.stdout, server.stdin, undefined, { protocol: 'mcp' })
    connection.listen()
    const initialize = connection.sendRequest('initialize', { protocolVersion, capabilities: {}, clientInfo: {} })
    const found = await initialize.then(it => it.protocolVersion, error => error.code)
    connection.end()
    assert.deepEqual((await closed)[0], 0)
    return found
  }
  for (const it of ['2024-11-05', '2025-03-26', '2025-06-18']) assert.equal(await agreed(it), it)
  for (const it of ['1999-01-01', '2099-01-01', '']) assert.equal(await agreed(it), '2025-06-18')
  for (const it of [5, null, {}, ['2025-06-18'], undefined]) assert.equal(await agreed(it), -32602)
})

test('what they do with bad params', async () => {
  const { connection, ended } = start('language_server.mjs')
  await connection.sendRequest('initialize', { processId: null, rootUri: null, capabilities: {} })
  const place = { textDocument: { uri: 'x' }, position: { line: 0, character: 0 } }
  await rejectsWith(connection.sendRequest('textDocument/hover', place), -32602)
  await rejectsWith(connection.sendRequest('workspace/executeCommand', { command: 'x' }), -32602)
  connection.sendNotification('exit') // (without a shutdown)
  assert.deepEqual((await ended)[0], 1)

  const tools = start('tool_server.mjs', { protocol: 'mcp' })
  assert.deepEqual(await tools.connection.sendRequest('ping'), {})
  await tools.connection.sendRequest('initialize', { protocolVersion: '2025-06-18', capabilities: {}, clientInfo: { name: 'h', version: '1' } })
  for (const it of [{}, { name: 'count' }, { name: 'toString' }, { name: 'count', arguments: { text: 1 } }]) {
    await rejectsWith(tools.connection.sendRequest('tools/call', it), -32602)
  }
  tools.connection.end()
  assert.deepEqual((await tools.ended)[0], 0)
})

const hasJudge = spawnSync('python3', ['-m', 'bullmyrtle.judge', '--help'], { env }).status === 0

/** What the judge says of a recording against the server. */
function findingsIn(record) {
  const { stderr } = spawnSync('python3', ['-m', 'bullmyrtle.judge', '--replay', record], { env, encoding: 'utf8' })
  assert.match(stderr, /judge: /)
  return stderr.split('\n').filter(it => /^judge: (must|should|note): server/.test(it))
}

/** A whole session of an editor with a server, by a script that the Python package's tests have. */
function session(server, command) {
  const room = fs.mkdtempSync(path.join(os.tmpdir(), 'editor-'))
  fs.writeFileSync(path.join(room, 'notes.txt'), 'Roses are red.\nVoilets are are blue.\nThey are.\n')
  fs.writeFileSync(path.join(room, 'words.txt'), 'and are blue not red roses they violets')
  const record = path.join(room, 'talk.record')
  const judge = hasJudge ? ['python3', '-m', 'bullmyrtle.judge', '--record', record, '--'] : []
  const words = JSON.stringify([...judge, process.execPath, path.join(EXAMPLES, server)])
  const { status, stdout, stderr } = spawnSync(command[0], command.slice(1), {
    cwd: room, env: { ...env, SERVER: words, ROOM: room, HOME: room }, encoding: 'utf8', timeout: LIMIT
  })
  const findings = hasJudge ? findingsIn(record) : []
  fs.rmSync(room, { recursive: true })
  const said = stdout + stderr
  assert.equal(status, 0, said)
  assert.deepEqual(findings, [])
  assert.match(said, /a whole session/)
  assert.doesNotMatch(said, /FAILED/)
}

const NEOVIM = has('nvim', '--version') ? false : 'nvim, which is not here'
const EGLOT = has('emacs', '--batch', '--eval', "(require 'eglot)") ? false : 'emacs with Eglot, which is not here'
for (const [server, scripts] of [
  ['language_server.mjs', { Neovim: 'neovim.lua', Eglot: 'eglot.el' }],
  ['spelling_server.mjs', { Neovim: 'neovim_spelling.lua', Eglot: 'eglot_spelling.el' }]
]) {
  test(`a whole session of Neovim with ${server}`, { skip: NEOVIM }, () => {
    session(server, ['nvim', '--headless', '--clean', '-S', path.join(EDITORS, scripts.Neovim)])
  })
  test(`a whole session of Eglot with ${server}`, { skip: EGLOT }, () => {
    session(server, ['emacs', '--batch', '-l', path.join(EDITORS, scripts.Eglot)])
  })
}

const EXAMINED = { 'hover_server.mjs': ['--only', 'before initialize'], 'language_server.mjs': ['--only', 'after shutdown'], 'spelling_server.mjs': [] }
for (const [server, words] of Object.entries(EXAMINED)) {
  test(`the examiner finds nothing in ${server}`, { skip: hasJudge ? false : 'python3 with the library, which are not here' }, () => {
    const command = ['-m', 'bullmyrtle.examine', '--level', 'should', '--seconds', `${patience(10)}`, ...words, '--', process.execPath, path.join(EXAMPLES, server)]
    const { status, stdout, stderr } = spawnSync('python3', command, { env, encoding: 'utf8', timeout: LIMIT })
    assert.equal(status, 0, stdout + stderr)
    const [, well] = /^0 must, 0 should, .* (\d+) ok of \d+ cases/m.exec(stdout) // (others need what the server hasn't)
    assert.ok(Number(well) > 2, stdout)
  })
}

test('the hover is ten lines', () => {
  const lines = fs.readFileSync(path.join(EXAMPLES, 'hover_server.mjs'), 'utf8').split('\n')
  assert.ok(lines.filter(it => it.trim() && !it.startsWith('//')).length <= 11)
})
