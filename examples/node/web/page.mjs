// An editor in a page: it drives a language server in a worker, and the same one behind a WebSocket.
// @ts-ignore (which the server has beside this file; in a project of your own it is 'bullmyrtle/browser')
import { load } from './browser.mjs'

const {
  createMessageConnection, BrowserMessageReader, BrowserMessageWriter, WebSocketMessageReader, WebSocketMessageWriter
} = await load()

async function inWorker() {
  const worker = new Worker('worker.mjs', { type: 'module' })
  await new Promise(resolve => worker.addEventListener('message', resolve, { once: true }))
  return createMessageConnection(new BrowserMessageReader(worker), new BrowserMessageWriter(worker))
}

async function overSocket() {
  const socket = new WebSocket(`ws://${location.host}/server`)
  await new Promise((resolve, reject) => {
    socket.addEventListener('open', resolve)
    socket.addEventListener('error', () => reject(new Error('the WebSocket is refused')))
  })
  return createMessageConnection(new WebSocketMessageReader(socket), new WebSocketMessageWriter(socket))
}

/** Has a server look at the text, and shows what it finds under `name`. */
async function edit(connection, name) {
  const text = document.querySelector('textarea')
  const show = (kind, found) => {
    document.querySelector(`#${name} .${kind}`).textContent = found
    console.log(`${name} ${kind}: ${found}`)
  }
  connection.onNotification('textDocument/publishDiagnostics', ({ version, diagnostics }) => {
    const found = diagnostics.map(({ range: { start }, message }) => `line ${start.line + 1}: ${message}`)
    show('diagnostics', `version ${version}: ${found.join(', ') || 'well'}`)
  })
  connection.listen()
  await connection.sendRequest('initialize', { processId: null, rootUri: null, capabilities: {} })
  connection.sendNotification('initialized', {})

  const uri = 'file:///notes.txt'
  let version = 1
  const opened = { uri, languageId: 'plaintext', version, text: text.value }
  connection.sendNotification('textDocument/didOpen', { textDocument: opened })
  text.addEventListener('input', () => {
    const contentChanges = [{ text: text.value }]
    connection.sendNotification('textDocument/didChange', { textDocument: { uri, version: ++version }, contentChanges })
  })
  text.addEventListener('select', async () => {
    const lines = text.value.slice(0, text.selectionStart).split('\n')
    const position = { line: lines.length - 1, character: lines.at(-1).length }
    show('hover', (await connection.sendRequest('textDocument/hover', { textDocument: { uri }, position }))?.contents)
  })
}

const all = await Promise.allSettled([
  inWorker().then(it => edit(it, 'worker')), overSocket().then(it => edit(it, 'socket'))
])
for (const it of all) if (it.status === 'rejected') console.error(String(it.reason))

// page.html?Some%20text is as if somebody had typed this text and selected all of it
const typed = decodeURIComponent(location.search.slice(1))
if (typed) {
  const text = document.querySelector('textarea')
  text.value = typed
  text.dispatchEvent(new Event('input'))
  text.select()
}
