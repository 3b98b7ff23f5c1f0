// A language server for plain text: it finds words that stand twice in a row, and counts words.
import {
  CodeActionKind, createConnection, DiagnosticSeverity, ErrorCodes, LSPErrorCodes, Range, ResponseError, TextDocument,
  TextDocuments, TextDocumentSyncKind, TextEdit
} from '../../bindings/node/lib/lsp/index.mjs' // (in a project of your own: 'bullmyrtle/lsp')

const WORD = /[\p{L}\p{N}_]+/gu
const REPEATED = /(?<![\p{L}\p{N}_])([\p{L}\p{N}_]+)\s+\1(?![\p{L}\p{N}_])/giu

const connection = createConnection()
const documents = new TextDocuments(TextDocument)
let hasSettings = false // whether the client gives them

/** An open document. */
function opened({ uri }) {
  const document = documents.get(uri)
  if (document === undefined) throw new ResponseError(ErrorCodes.InvalidParams, `this document isn't open: ${uri}`)
  return document
}

/** What matches in a document, with its range. */
const find = (pattern, document) => Array.from(document.getText().matchAll(pattern), found => ({
  word: found[1] ?? found[0],
  range: Range.create(document.positionAt(found.index), document.positionAt(found.index + found[0].length))
}))

/** Waits, unless it is cancelled. */
function pause(seconds, token) {
  return new Promise((resolve, reject) => {
    const timer = setTimeout(resolve, seconds * 1000)
    token.onCancellationRequested(() => {
      clearTimeout(timer)
      reject(new ResponseError(LSPErrorCodes.RequestCancelled, 'Request cancelled'))
    })
  })
}

connection.onInitialize(({ capabilities }) => {
  hasSettings = capabilities.workspace?.configuration === true
  return {
    capabilities: {
      textDocumentSync: TextDocumentSyncKind.Incremental, hoverProvider: true, codeActionProvider: true,
      executeCommandProvider: { commands: ['count'] }
    },
    serverInfo: { name: 'words', version: '1.0' }
  }
})

documents.onDidChangeContent(({ document }) => {
  const diagnostics = find(REPEATED, document).map(({ word, range }) => ({
    range, severity: DiagnosticSeverity.Warning, message: `'${word}' stands twice`
  }))
  connection.sendDiagnostics({ uri: document.uri, diagnostics })
})

connection.onHover(async ({ textDocument, position: { line, character } }) => {
  const words = find(WORD, opened(textDocument))
  const here = words.find(({ range: { start, end } }) => (
    start.line === line && start.character <= character && character <= end.character
  ))
  if (here === undefined) return null
  const label = hasSettings ? await connection.workspace.getConfiguration('words.label') : null
  return { contents: `${label ?? 'count'}: ${words.filter(it => it.word === here.word).length}` }
})

connection.onCodeAction(({ textDocument, range: { start } }) => {
  const here = find(REPEATED, opened(textDocument)).filter(({ range }) => range.start.line === start.line)
  return here.map(({ word, range }) => ({
    title: `Remove the second '${word}'`, kind: CodeActionKind.QuickFix,
    edit: { changes: { [textDocument.uri]: [TextEdit.replace(range, word)] } }
  }))
})

connection.onExecuteCommand(async ({ command, arguments: [seconds] = [0] }, token) => {
  if (command !== 'count') throw new ResponseError(ErrorCodes.InvalidParams, `unknown command: ${command}`)
  const progress = await connection.window.createWorkDoneProgress()
  progress.begin('Counting', undefined, undefined, true)
  try {
    for (const uri of documents.keys()) {
      progress.report(uri)
      await pause(seconds, token)
    }
    return documents.all().reduce((sum, it) => sum + find(WORD, it).length, 0)
  } finally {
    progress.done()
  }
})

documents.listen(connection)
connection.listen()
