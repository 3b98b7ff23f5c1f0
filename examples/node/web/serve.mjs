// Serves the page, and the language server behind its WebSocket. It prints its address.
import fs from 'node:fs/promises'
import { createServer } from 'node:http'
import path from 'node:path'
import { fileURLToPath } from 'node:url'
// (in a project of your own: 'bullmyrtle/lsp')
import * as lsp from '../../../bindings/node/lib/lsp/index.mjs'
import { WebSocketOfServer } from './web_socket.mjs'
import { serveWords } from './words.mjs'

const HERE = path.dirname(fileURLToPath(import.meta.url))
// (in a project of your own it is the folder prebuilt of the package)
const BUILT = process.env.BUILT ?? path.join(HERE, '../../../out/browser')
const TYPES = { '.html': 'text/html', '.mjs': 'text/javascript', '.wasm': 'application/wasm' }
const FILES = { HERE: ['page.html', 'page.mjs', 'worker.mjs', 'words.mjs'], BUILT: ['browser.mjs', 'bullmyrtle.wasm'] }

const server = createServer(async ({ url }, response) => {
  const name = url.slice(1).replace(/\?.*/s, '') || 'page.html'
  const folder = FILES.HERE.includes(name) ? HERE : FILES.BUILT.includes(name) ? BUILT : undefined
  if (folder === undefined) return response.writeHead(404).end()
  try {
    const data = await fs.readFile(path.join(folder, name))
    response.writeHead(200, { 'Content-Type': TYPES[path.extname(name)] }).end(data)
  } catch (error) {
    response.writeHead(500).end(`${error.message}: bin/build-browser makes it`)
  }
})

// (a page of another site may open a WebSocket to this machine as well: its Origin tells)
server.on('upgrade', (request, socket) => {
  if (request.headers.origin !== `http://${request.headers.host}`) return socket.destroy()
  const web = new WebSocketOfServer(request, socket)
  const [reader, writer] = [new lsp.WebSocketMessageReader(web), new lsp.WebSocketMessageWriter(web)]
  serveWords(lsp.createConnection(reader, writer), lsp)
})

server.listen(Number(process.argv[2] ?? 8000), '127.0.0.1', () => {
  const { port } = /** @type {any} */ (server.address())
  console.log(`http://127.0.0.1:${port}/`)
})
