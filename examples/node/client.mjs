// Starts a language server and a tool server, calls them, and answers what they call back: those of this folder, or
// with the word `python` those of examples/python that make each message themselves.
import { spawn } from 'node:child_process'
import { once } from 'node:events'
import path from 'node:path'
import { fileURLToPath } from 'node:url'
import { CancellationTokenSource, createMessageConnection } from '../../bindings/node/lib/index.mjs'
import { StdioClientTransport, ToolClient } from '../../bindings/node/lib/mcp/index.mjs'

const URI = 'file:///notes.txt'
const TEXT = 'Roses are red.\nViolets are are blue, and roses are not.'
const isPython = process.argv[2] === 'python'
const folder = fileURLToPath(new URL(isPython ? '../python' : '.', import.meta.url))

/** The command of a server: the program, and its argument. */
const commandOf = name => (
  isPython ? ['python3', path.join(folder, `${name}_by_hand.py`)] : [process.execPath, path.join(folder, `${name}.mjs`)]
)

/** What an editor does with the language server. */
async function edit() {
  const [program, file] = commandOf('language_server')
  const server = spawn(program, [file], { stdio: ['pipe', 'pipe', 'inherit'] })
  const connection = createMessageConnection(server.stdout, server.stdin)
  const reached = new Map() // who waits for a kind of progress
  const reaching = kind => new Promise(resolve => reached.set(kind, resolve))
  connection.onRequest('workspace/configuration', ({ items }) => items.map(() => 'times'))
  connection.onRequest('window/workDoneProgress/create', () => null)
  connection.onNotification('textDocument/publishDiagnostics', ({ diagnostics }) => {
    for (const { range: { start: at }, message } of diagnostics) {
      console.log(`line ${at.line + 1}, column ${at.character + 1}: ${message}`)
    }
  })
  connection.onUnhandledProgress(({ value: { kind } }) => {
    console.log('progress:', kind)
    reached.get(kind)?.()
  })
  connection.listen()

  const textDocument = { uri: URI }
  const capabilities = { window: { workDoneProgress: true }, workspace: { configuration: true } }
  await connection.sendRequest('initialize', { processId: process.pid, rootUri: null, capabilities })
  connection.sendNotification('initialized', {})
  const opened = { uri: URI, languageId: 'text', version: 1, text: TEXT }
  connection.sendNotification('textDocument/didOpen', { textDocument: opened })
  const position = { line: 0, character: 7 }
  const hover = await connection.sendRequest('textDocument/hover', { textDocument, position })
  console.log('hover:', hover.contents)
  const place = { line: 1, character: 0 }
  const where = { textDocument, range: { start: place, end: place }, context: { diagnostics: [] } }
  for (const { title } of await connection.sendRequest('textDocument/codeAction', where)) console.log('action:', title)
  console.log('words:', await connection.sendRequest('workspace/executeCommand', { command: 'count' }))

  const source = new CancellationTokenSource()
  const [reports, ends] = [reaching('report'), reaching('end')]
  const call = connection.sendRequest('workspace/executeCommand', { command: 'count', arguments: [60] }, source.token)
  await reports
  source.cancel()
  await call.catch(async error => {
    await ends
    console.log('cancelled:', error.message)
  })
  await connection.sendRequest('shutdown')
  connection.sendNotification('exit')
  const [status] = await once(server, 'close')
  console.log('status:', status)
}

/** What a tool host does with the tool server. */
async function use() {
  /** @param {any} params */
  const sampling = ({ messages: [{ content }] }) => {
    console.log('asked:', content.text)
    return 'Flowers'
  }
  const [command, file] = commandOf('tool_server')
  const client = new ToolClient({ name: 'client', version: '1' }, { sampling })
  await client.connect(new StdioClientTransport({ command, args: [file] }))
  console.log('server:', client.getServerVersion().name)
  const { tools } = await client.listTools()
  console.log('tools:', tools.map(({ name }) => name).join(', '))
  const onprogress = ({ progress, total }) => console.log(`progress: ${progress} of ${total}`)
  for (const [name, text] of [['count', 'word '.repeat(150)], ['title', TEXT], ['paint', '']]) {
    try {
      console.log(`${name}:`, (await client.callTool({ name, arguments: { text } }, { onprogress })).content[0].text)
    } catch (error) {
      console.log(`${name}: error ${error.code}`)
    }
  }
  await client.close()
}

await edit()
await use()
