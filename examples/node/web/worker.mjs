// The language server in a worker of the page.
// @ts-ignore (which the server has beside this file; in a project of your own it is 'bullmyrtle/browser')
import { load } from './browser.mjs'
import { serveWords } from './words.mjs'

const { lsp, BrowserMessageReader, BrowserMessageWriter } = await load()
serveWords(lsp.createConnection(new BrowserMessageReader(self), new BrowserMessageWriter(self)), lsp)
self.postMessage('ready') // (what came before nobody heard)
