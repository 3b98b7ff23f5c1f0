// A language server for a folder of texts: it counts words, and finds those that stand twice or are misspelt.
//
// A word is written as the folder's file `words.txt` has it; or, where there is no such file, as the texts have it most
// often. The folder's texts are its files `*.txt`, as they are on the disk or in the editor.
import fs from 'node:fs/promises'
import path from 'node:path'
import { setImmediate as turn } from 'node:timers/promises'
import { pathToFileURL } from 'node:url'
import {
  CodeActionKind, createConnection, DiagnosticSeverity, ErrorCodes, Files, LSPErrorCodes, ResponseError, TextDocument,
  TextDocuments, TextDocumentSyncKind, TextEdit
} from '../../bindings/node/lib/lsp/index.mjs' // (in a project of your own: 'bullmyrtle/lsp')

const WORD = /\p{L}+/gu
const REPEATED = /(?<![\p{L}\p{N}_])([\p{L}\p{N}_]+)\s+(\1)(?![\p{L}\p{N}_])/giu
const STILL = 50 // so many milliseconds after the last change a document is looked at

const connection = createConnection()
const documents = new TextDocuments(TextDocument)
const counts = new Map() // of the words of each text, by its URI
const listed = new Set() // the words of words.txt
const checks = new Map() // the timers of open documents, by their URIs
let folder // that the editor works in
let hasSettings = false // whether the client gives them

function wordsIn(text) {
  const found = new Map()
  for (const [it] of text.toLowerCase().matchAll(WORD)) found.set(it, (found.get(it) ?? 0) + 1)
  return found
}

/** How often each word is in all texts. */
function total() {
  const sum = new Map()
  for (const words of counts.values()) for (const [it, times] of words) sum.set(it, (sum.get(it) ?? 0) + times)
  return sum
}

/** Whether one letter more, less or other, or two letters in another order, make one word of the other. */
function isLike(one, other) {
  const most = Math.min(one.length, other.length)
  let start = 0
  while (start < most && one[start] === other[start]) start++
  let end = 0
  while (end < most - start && one.at(-1 - end) === other.at(-1 - end)) end++
  const [first, second] = [one, other].map(it => it.slice(start, it.length - end))
  return Math.max(first.length, second.length) <= 1 || (first.length === 2 && first === [...second].reverse().join(''))
}

/** How a word is written, or undefined where it is right, or nothing is like it. */
function correction(word, known) {
  const times = known.get(word) ?? 0
  if (listed.has(word) || times > 1 || word.length < 4) return undefined
  const others = listed.size ? [...listed] : [...known.keys()].filter(it => known.get(it) > 2 * times)
  return others.find(it => isLike(word, it))
}

/** The words of a document that are wrong, with their ranges and what is to stand there. */
function faultsIn(document) {
  const [text, known] = [document.getText(), total()]
  const fault = ({ index, 0: { length } }, message, right) => ({
    range: { start: document.positionAt(index), end: document.positionAt(index + length) }, message, right
  })
  const repeated = Array.from(text.matchAll(REPEATED), it => fault(it, `'${it[2]}' stands twice`, it[1]))
  const misspelt = Array.from(text.matchAll(WORD), it => {
    const right = correction(it[0].toLowerCase(), known)
    return right && fault(it, `'${it[0]}' looks like '${right}'`, right)
  })
  return [...repeated, ...misspelt.filter(Boolean)]
}

/** An open document. */
function opened({ uri }) {
  const document = documents.get(uri)
  if (document === undefined) throw new ResponseError(ErrorCodes.InvalidParams, `this document isn't open: ${uri}`)
  return document
}

connection.onInitialize(({ capabilities, workspaceFolders, rootUri }) => {
  folder = Files.uriToFilePath(workspaceFolders?.[0]?.uri ?? rootUri ?? '')
  hasSettings = capabilities.workspace?.configuration === true
  return {
    capabilities: {
      textDocumentSync: { openClose: true, change: TextDocumentSyncKind.Incremental },
      hoverProvider: true,
      completionProvider: { triggerCharacters: ['-'] },
      codeActionProvider: { codeActionKinds: [CodeActionKind.QuickFix] },
      executeCommandProvider: { commands: ['count'] }
    },
    serverInfo: { name: 'spelling', version: '1.0' }
  }
})

// Reads the folder's texts.
connection.onInitialized(async () => {
  const files = folder === undefined ? [] : (await fs.readdir(folder)).filter(it => it.endsWith('.txt')).sort()
  const progress = await connection.window.createWorkDoneProgress()
  progress.begin('Reading texts', 0, undefined, true)
  for (const [at, name] of files.entries()) {
    if (progress.token.isCancellationRequested) break
    progress.report(Math.floor((100 * at) / files.length), name)
    const file = path.join(folder, name)
    const words = wordsIn(await fs.readFile(file, 'utf8'))
    const uri = pathToFileURL(file).href
    if (name === 'words.txt') for (const it of words.keys()) listed.add(it)
    else if (!counts.has(uri)) counts.set(uri, words)
    await turn() // (a cancel arrives here, and so do other requests)
  }
  progress.done()
  for (const it of documents.all()) lookAt(it)
})

/** Looks at a document, as soon as nobody has typed for a moment. */
function lookAt(document) {
  clearTimeout(checks.get(document.uri))
  checks.set(document.uri, setTimeout(() => check(document), STILL))
}

function check(document) {
  counts.set(document.uri, wordsIn(document.getText()))
  const diagnostics = faultsIn(document).map(({ range, message, right }) => ({
    range, severity: DiagnosticSeverity.Warning, message, data: right
  }))
  connection.sendDiagnostics({ uri: document.uri, version: document.version, diagnostics })
}

documents.onDidChangeContent(({ document }) => lookAt(document))
documents.onDidClose(({ document: { uri } }) => {
  clearTimeout(checks.get(uri))
  checks.delete(uri)
  connection.sendDiagnostics({ uri, diagnostics: [] })
})

connection.onHover(async ({ textDocument, position }) => {
  const document = opened(textDocument)
  const at = document.offsetAt(position)
  const found = [...document.getText().matchAll(WORD)].find(it => it.index <= at && at <= it.index + it[0].length)
  if (found === undefined) return null
  const label = hasSettings ? await connection.workspace.getConfiguration('words.label') : null
  return { contents: `${found[0]}: ${total().get(found[0].toLowerCase()) ?? 0} ${label || 'times'}` }
})

connection.onCompletion(({ textDocument, position }) => {
  const before = opened(textDocument).getText({ start: { line: position.line, character: 0 }, end: position })
  const typed = /\p{L}*$/u.exec(before)[0].toLowerCase()
  const words = [...total()].filter(([it]) => it.startsWith(typed))
  return words.map(([label, times]) => ({ label, detail: String(times) }))
})

connection.onCodeAction(({ textDocument, range: { start } }) => {
  const here = faultsIn(opened(textDocument)).filter(({ range }) => range.start.line === start.line)
  return here.map(({ range, right }) => ({
    title: `Write '${right}'`, kind: CodeActionKind.QuickFix,
    edit: { changes: { [textDocument.uri]: [TextEdit.replace(range, right)] } }
  }))
})

/** Waits, or until one of the tokens is cancelled. */
function pause(seconds, ...tokens) {
  return new Promise(resolve => {
    const timer = setTimeout(resolve, seconds * 1000)
    const end = () => {
      clearTimeout(timer)
      resolve()
    }
    for (const it of tokens) it.onCancellationRequested(end)
  })
}

// Counts the words of all texts; it may take its time for each, so that there is something to cancel.
connection.onExecuteCommand(async ({ command, arguments: [seconds] = [0] }, token) => {
  if (command !== 'count') throw new ResponseError(ErrorCodes.InvalidParams, `unknown command: ${command}`)
  const progress = await connection.window.createWorkDoneProgress()
  progress.begin('Counting', undefined, undefined, true)
  let words = 0
  for (const [uri, there] of [...counts]) {
    progress.report(uri)
    await pause(seconds, token, progress.token)
    if (token.isCancellationRequested || progress.token.isCancellationRequested) break
    for (const times of there.values()) words += times
  }
  progress.done()
  if (token.isCancellationRequested) return new ResponseError(LSPErrorCodes.RequestCancelled, 'Request cancelled')
  return progress.token.isCancellationRequested ? null : words
})

documents.listen(connection)
connection.listen()
