// The language server of the sessions in language_rows/, in JavaScript; language_server.py is the same in Python.
import {
  createConnection, DidChangeWatchedFilesNotification, LSPErrorCodes, MessageType, ResponseError, TextDocument,
  TextDocuments
} from '../../../bindings/node/lib/lsp/index.mjs'

const connection = createConnection()
const documents = new TextDocuments(TextDocument)
const COMMANDS = {
  raise() { throw new ResponseError(-32050, 'no', { why: 1 }) },
  setting: name => connection.workspace.getConfiguration(name),
  edit: async () => (await connection.workspace.applyEdit({ label: 'an edit', edit: { changes: {} } })).applied,
  choose: () => connection.window.showInformationMessage('Which?', { title: 'a' }, { title: 'b' }),
  show: async () => (await connection.window.showDocument({ uri: 'file:///b.txt' })).success,
  folders: () => connection.workspace.getWorkspaceFolders(),
  say() {
    connection.sendNotification('window/showMessage', { type: MessageType.Warning, message: 'shown' })
    connection.sendNotification('window/logMessage', { type: MessageType.Info, message: 'logged' })
    connection.telemetry.logEvent({ n: 1 })
  },
  trace() { connection.tracer.log('traced', 'more') },
  async refresh() { await connection.languages.semanticTokens.refresh() },
  async work() {
    const progress = await connection.window.createWorkDoneProgress()
    progress.begin('Working', 0, undefined, true)
    progress.report(50, 'half')
    progress.done()
    return 'worked'
  },
  async wait() {
    const progress = await connection.window.createWorkDoneProgress()
    progress.begin('Waiting', undefined, undefined, true)
    await new Promise(resolve => { progress.token.onCancellationRequested(resolve) })
    progress.done()
    return 'cancelled'
  }
}

connection.onInitialize(({ initializationOptions, capabilities: { general } }) => {
  if (initializationOptions?.fails) throw new ResponseError(-32001, 'not yet')
  return {
    serverInfo: { name: 'rows', version: '1' },
    capabilities: {
      positionEncoding: general?.positionEncodings?.[0],
      textDocumentSync: { openClose: true, change: 2 },
      hoverProvider: true,
      definitionProvider: true,
      referencesProvider: true,
      completionProvider: { triggerCharacters: ['.'], resolveProvider: true },
      semanticTokensProvider: { legend: { tokenTypes: ['word'], tokenModifiers: [] }, full: true },
      diagnosticProvider: { interFileDependencies: false, workspaceDiagnostics: false },
      executeCommandProvider: { commands: Object.keys(COMMANDS).sort() },
      workspace: { workspaceFolders: { supported: true, changeNotifications: true } }
    }
  }
})

/** An open document. */
function opened({ uri }) {
  const document = documents.get(uri)
  if (document === undefined) throw new ResponseError(-32602, `this document isn't open: ${uri}`)
  return document
}

connection.onHover(({ textDocument, position }) => {
  const document = opened(textDocument)
  const text = document.getText()
  const start = document.positionAt(document.offsetAt(position))
  return { contents: text, range: { start, end: document.positionAt(text.length) } }
})

connection.onDefinition((params, token) => new Promise((resolve, reject) => {
  token.onCancellationRequested(() => reject(new ResponseError(LSPErrorCodes.RequestCancelled, 'Request cancelled')))
}))

connection.onReferences(({ textDocument: { uri } }, token, progress, parts) => {
  const all = [0, 1].map(line => ({ uri, range: { start: { line, character: 0 }, end: { line, character: 0 } } }))
  if (parts === undefined) return all
  for (const it of all) parts.report([it])
  return []
})

connection.onCompletion(() => [{ label: 'one', data: 1 }])
connection.onCompletionResolve(item => ({ ...item, detail: `item ${item.data}` }))
connection.languages.semanticTokens.on(({ textDocument }) => (
  { data: [0, 0, opened(textDocument).getText().length, 0, 0] }
))
connection.languages.diagnostics.on(() => ({ kind: 'full', items: [] }))
connection.onExecuteCommand(({ command, arguments: given = [] }) => {
  if (!Object.hasOwn(COMMANDS, command)) throw new ResponseError(-32602, `unknown command: ${command}`)
  return COMMANDS[command](...given)
})

connection.onDidChangeConfiguration(async () => {
  const watchers = [{ globPattern: '*.txt' }]
  const made = await connection.client.register(DidChangeWatchedFilesNotification.type, { watchers })
  made.dispose()
})

documents.onDidChangeContent(({ document }) => {
  const at = document.getText().indexOf('bad')
  const range = { start: document.positionAt(at), end: document.positionAt(at + 3) }
  const diagnostics = at < 0 ? [] : [{ range, message: 'bad' }]
  connection.sendDiagnostics({ uri: document.uri, version: document.version, diagnostics })
})
documents.onDidClose(({ document: { uri } }) => { connection.sendDiagnostics({ uri, diagnostics: [] }) })
documents.listen(connection)
connection.listen()
