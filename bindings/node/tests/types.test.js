'use strict'
// The types, by TypeScript's own compiler: what it has to take, and, where @ts-expect-error stands, to refuse.

const assert = require('node:assert/strict')
const { test } = require('node:test')
const fs = require('node:fs')
const os = require('node:os')
const path = require('node:path')
const { spawnSync } = require('node:child_process')

/** What is compiled: what it has to take, and to refuse. Tools need URL and AbortSignal, as Node.js's types or the DOM's have them. */
const FILES = { words: {}, server: {}, tools: { lib: ['es2022', 'dom'] } }
const hasCompiler = spawnSync('tsc', ['--version']).status === 0
/** Where Node.js's own types may lie: where a variable names them, where Debian has them, or where bin/test unpacked them. */
const UNPACKED = path.join(__dirname, '..', '..', '..', 'out', 'node-types')
const NODE_TYPES = [process.env.NODE_TYPES, '/usr/share/nodejs/@types', UNPACKED].find(it => it && fs.existsSync(path.join(it, 'node')))

/** A folder with this file, in which the package is installed, and what the compiler says of it. */
function compiled(name, text, more = {}) {
  const folder = fs.mkdtempSync(path.join(os.tmpdir(), 'types-'))
  fs.mkdirSync(path.join(folder, 'node_modules'))
  fs.symlinkSync(path.dirname(__dirname), path.join(folder, 'node_modules', 'bullmyrtle'))
  fs.writeFileSync(path.join(folder, name), text)
  const options = { strict: true, noEmit: true, module: 'node16', moduleResolution: 'node16', target: 'es2022', lib: ['es2022'], types: [], ...more }
  fs.writeFileSync(path.join(folder, 'tsconfig.json'), JSON.stringify({ compilerOptions: options, files: [name] }))
  const { status, stdout } = spawnSync('tsc', ['-p', folder], { encoding: 'utf8' })
  fs.rmSync(folder, { recursive: true })
  return { status, stdout }
}

const textOf = name => fs.readFileSync(path.join(__dirname, 'types', `${name}.ts`), 'utf8')
const skip = hasCompiler ? false : 'tsc, which is not here'

for (const [name, options] of Object.entries(FILES)) {
  test(`the types, strictly, in ${name}.mts`, { skip }, () => {
    const found = compiled(`${name}.mts`, textOf(name), options)
    assert.equal(found.status, 0, found.stdout)
  })

  // (as a module of CommonJS, where it finds nothing else)
  test(`the compiler refuses what it has to in ${name}`, { skip }, () => {
    const count = textOf(name).split('@ts-expect-error').length - 1
    const found = compiled(`${name}.ts`, textOf(name).replaceAll('@ts-expect-error', 'here'), options)
    assert.equal(new Set(found.stdout.match(/^\S+\(\d+,\d+\): error TS/gm)).size, count, found.stdout)
  })
}

test('the types of LSP, by the names of methods', { skip }, () => {
  const text = `
    import type { MessageConnection } from 'bullmyrtle'
    import type { Hover, HoverParams, ServerRequests } from 'bullmyrtle/lsp'
    type Of = ServerRequests['textDocument/hover']
    export const listen = (connection: MessageConnection) =>
      connection.onRequest('textDocument/hover', (params: Of['params']): Of['result'] => hover(params))
    const hover = (params: HoverParams): Hover | null => params.position.line ? { contents: { kind: 'markdown', value: 'x' } } : null
    // WRONG
    export const wrong: Of['result'] = { content: 'x' }
  `
  for (const name of ['lsp.ts', 'lsp.mts']) {
    const right = compiled(name, text.replace('// WRONG', '// @ts-expect-error'))
    assert.equal(right.status, 0, right.stdout)
    assert.match(compiled(name, text).stdout, /'?content'? does not exist in type 'Hover'/)
  }
})

test('the types of bullmyrtle/browser', { skip }, () => {
  const text = `
    import type { MessageConnection } from 'bullmyrtle'
    import { load } from 'bullmyrtle/browser'
    const { createMessageConnection, BrowserMessageReader, BrowserMessageWriter, WebSocketMessageReader, WebSocketMessageWriter } = await load()
    const worker = new Worker('worker.mjs', { type: 'module' })
    const connection: MessageConnection = createMessageConnection(new BrowserMessageReader(worker), new BrowserMessageWriter(worker))
    const sum: number = await connection.sendRequest<number>('add', 1, 2)
    const port = new MessageChannel().port1
    createMessageConnection(new BrowserMessageReader(port), new BrowserMessageWriter(port))
    const socket = new WebSocket('ws://localhost')
    createMessageConnection(new WebSocketMessageReader(socket), new WebSocketMessageWriter(socket))
    for (const it of ['/b.wasm', fetch('/b.wasm'), new URL('b.wasm', import.meta.url)]) void await load(it)
    // @ts-expect-error
    void (await load()).StreamMessageReader
    // @ts-expect-error
    new BrowserMessageReader({ postMessage() {} })
    void sum
  `
  const found = compiled('page.mts', text, { lib: ['es2022', 'dom'], target: 'es2022' })
  assert.equal(found.status, 0, found.stdout)
})

test("Node.js's own streams fit", { skip: skip || (NODE_TYPES ? false : "Node.js's types, which are not here") }, () => {
  const text = `
    import { createMessageConnection, IPCMessageReader, PortMessageReader, run, SocketMessageWriter, StreamMessageReader } from 'bullmyrtle'
    import { PassThrough } from 'node:stream'
    import * as net from 'node:net'
    import { parentPort } from 'node:worker_threads'
    run(createMessageConnection(process.stdin, process.stdout, undefined, { trace: process.stderr }))
    createMessageConnection(new StreamMessageReader(new PassThrough()), new SocketMessageWriter(new net.Socket()))
    void [new PortMessageReader(parentPort), new IPCMessageReader(process)]
    const bytes: string = Buffer.from(new (require('bullmyrtle') as typeof import('bullmyrtle')).Connection().take()).toString()
    void bytes
  `
  const found = compiled('streams.ts', text, { types: ['node'], typeRoots: [NODE_TYPES], skipLibCheck: true })
  assert.equal(found.status, 0, found.stdout)
})
