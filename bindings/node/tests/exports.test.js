'use strict'
// What the package exports, by each way in; and that each name known of vscode-jsonrpc 8.2 is here or on the page.

const assert = require('node:assert/strict')
const { test } = require('node:test')
const fs = require('node:fs')
const path = require('node:path')

const { METHODS } = require('../lib/lsp/specification.js')

const PACKAGE = path.dirname(__dirname)
const PAGE = path.join(PACKAGE, '..', '..', 'docs', 'node.md')

const numbered = kind => ['', 0, 1, 2, 3, 4, 5, 6, 7, 8, 9].map(it => `${kind}${it}`)
/** The names, of values and of types, that vscode-jsonrpc 8.2 is known to export on `.` and `./node`. */
const KNOWN = [
  ...numbered('RequestType'), ...numbered('NotificationType'), ...numbered('RequestHandler'), ...numbered('NotificationHandler'),
  'Message', 'MessageSignature', 'RequestMessage', 'ResponseMessage', 'NotificationMessage', 'ResponseError', 'ResponseErrorLiteral',
  'ErrorCodes', 'ParameterStructures', '_EM', 'LinkedMap', 'LRUCache', 'Touch', 'Disposable', 'Event', 'Emitter',
  'AbstractCancellationTokenSource', 'CancellationTokenSource', 'CancellationToken', 'SharedArraySenderStrategy',
  'SharedArrayReceiverStrategy', 'MessageReader', 'AbstractMessageReader', 'ReadableStreamMessageReader', 'DataCallback',
  'MessageReaderOptions', 'PartialMessageInfo', 'MessageWriter', 'AbstractMessageWriter', 'WriteableStreamMessageWriter',
  'MessageWriterOptions', 'AbstractMessageBuffer', 'Logger', 'ConnectionStrategy', 'ConnectionOptions', 'MessageConnection',
  'NullLogger', 'createMessageConnection', 'ProgressToken', 'ProgressType', 'HandlerResult', 'StarRequestHandler',
  'GenericRequestHandler', 'StarNotificationHandler', 'GenericNotificationHandler', 'Trace', 'TraceValues', 'TraceFormat',
  'TraceOptions', 'SetTraceParams', 'SetTraceNotification', 'LogTraceParams', 'LogTraceNotification', 'Tracer',
  'ConnectionErrors', 'ConnectionError', 'CancellationId', 'CancellationReceiverStrategy', 'CancellationSenderStrategy',
  'CancellationStrategy', 'MessageStrategy', 'IdCancellationReceiverStrategy', 'RequestCancellationReceiverStrategy', 'RAL',
  'IPCMessageReader', 'IPCMessageWriter', 'PortMessageReader', 'PortMessageWriter', 'SocketMessageReader', 'SocketMessageWriter',
  'StreamMessageReader', 'StreamMessageWriter', 'generateRandomPipeName', 'PipeTransport', 'createClientPipeTransport',
  'createServerPipeTransport', 'SocketTransport', 'createClientSocketTransport', 'createServerSocketTransport'
]

/** The names that vscode-languageserver 9 is known to export, and those of the three packages beside it. */
const KNOWN_OF_SERVERS = [
  ...KNOWN,
  // vscode-languageserver
  ...`createConnection ProposedFeatures TextDocuments TextDocumentsConfiguration TextDocumentChangeEvent TextDocumentWillSaveEvent
    NotebookDocuments NotebookDocumentChangeEvent SemanticTokensBuilder SemanticTokensDiff SemanticTokensFeature Files Connection
    _Connection Features Feature combineFeatures combineConsoleFeatures combineTelemetryFeatures combineTracerFeatures
    combineClientFeatures combineWindowFeatures combineWorkspaceFeatures combineLanguagesFeatures combineNotebooksFeatures
    RemoteConsole RemoteWindow RemoteClient RemoteWorkspace RemoteTracer Telemetry BulkRegistration BulkUnregistration
    ErrorMessageTracker ResultProgressReporter WorkDoneProgressReporter WorkDoneProgressServerReporter ServerRequestHandler
    WatchDog`.split(/\s+/),
  // vscode-languageserver-protocol
  ...`ProtocolRequestType ProtocolRequestType0 ProtocolNotificationType ProtocolNotificationType0 RegistrationType MessageDirection
    LSPErrorCodes InitializeErrorCodes WorkDoneProgress createProtocolConnection ProtocolConnection StaticRegistrationOptions
    TextDocumentRegistrationOptions WorkDoneProgressOptions DocumentSelector TextDocumentFilter NotebookDocumentFilter
    NotebookCellTextDocumentFilter RelativePattern NotebookDocument NotebookCell NotebookCellArrayChange ExecutionSummary
    DiagnosticServerCancellationData SemanticTokensRegistrationType NotebookDocumentSyncRegistrationType
    FoldingRangeRefreshRequest DocumentRangesFormattingRequest InlineCompletionRequest TextDocumentContentRequest
    TextDocumentContentRefreshRequest`.split(/\s+/),
  ...[...METHODS.values()].map(it => it.constant).filter(Boolean),
  // vscode-languageserver-types and vscode-languageserver-textdocument
  ...`TextDocument DocumentUri URI integer uinteger decimal LSPAny LSPObject LSPArray Position Range Location LocationLink Color
    ColorInformation ColorPresentation FoldingRangeKind FoldingRange DiagnosticRelatedInformation DiagnosticSeverity DiagnosticTag
    CodeDescription Diagnostic Command TextEdit ChangeAnnotation ChangeAnnotationIdentifier AnnotatedTextEdit TextDocumentEdit
    CreateFile RenameFile DeleteFile WorkspaceEdit WorkspaceChange TextEditChange TextDocumentIdentifier
    VersionedTextDocumentIdentifier OptionalVersionedTextDocumentIdentifier TextDocumentItem MarkupKind MarkupContent
    CompletionItemKind InsertTextFormat CompletionItemTag InsertReplaceEdit InsertTextMode CompletionItemLabelDetails CompletionItem
    CompletionList MarkedString Hover ParameterInformation SignatureInformation SignatureHelp Definition DefinitionLink Declaration
    DeclarationLink DocumentHighlightKind DocumentHighlight SymbolKind SymbolTag SymbolInformation WorkspaceSymbol DocumentSymbol
    CodeActionKind CodeActionTriggerKind CodeActionContext CodeAction CodeLens FormattingOptions DocumentLink SelectionRange
    CallHierarchyItem CallHierarchyIncomingCall CallHierarchyOutgoingCall TypeHierarchyItem SemanticTokenTypes SemanticTokenModifiers
    SemanticTokens SemanticTokensLegend SemanticTokensEdit SemanticTokensDelta InlineValueText InlineValueVariableLookup
    InlineValueEvaluatableExpression InlineValue InlineValueContext InlayHintKind InlayHintLabelPart InlayHint WorkspaceFolder
    LinkedEditingRanges EOL StringValue InlineCompletionItem InlineCompletionList InlineCompletionContext
    InlineCompletionTriggerKind SelectedCompletionInfo TextDocumentContentChangeEvent`.split(/\s+/),
  // enumerations of the protocol
  ...`CompletionTriggerKind SignatureHelpTriggerKind TextDocumentSaveReason TextDocumentSyncKind FileChangeType WatchKind MessageType
    ResourceOperationKind FailureHandlingKind FileOperationPatternKind DocumentDiagnosticReportKind NotebookCellKind
    PositionEncodingKind PrepareSupportDefaultBehavior TokenFormat UniquenessLevel MonikerKind`.split(/\s+/)
]

test('require and import give the same', async () => {
  const required = require('..')
  const imported = await import('../lib/index.mjs')
  assert.deepEqual(Object.keys(imported).filter(it => it !== 'default').sort(), Object.keys(required).sort())
  for (const [name, it] of Object.entries(required)) assert.equal(imported[name], it)
  assert.equal(imported.default, required)
  const tools = await import('../lib/mcp/index.mjs')
  for (const [name, it] of Object.entries(require('../lib/mcp'))) assert.equal(tools[name], it)
  assert.deepEqual(Object.keys(tools).filter(it => it !== 'default').sort(), Object.keys(require('../lib/mcp')).sort())
  const languages = require('../lib/lsp/index.js')
  const importedLanguages = await import('../lib/lsp/index.mjs')
  assert.deepEqual(Object.keys(importedLanguages).filter(it => it !== 'default').sort(), Object.keys(languages).sort())
  assert.equal('Connection' in languages, false)
  const testing = await import('../lib/testing.mjs')
  assert.deepEqual(Object.keys(testing).sort(), ['carry', 'default', 'joined'])
})

/** The values that a file of declarations has. */
function declaredIn(name) {
  const text = fs.readFileSync(path.join(PACKAGE, 'types', `${name}.d.ts`), 'utf8')
  return [...text.matchAll(/^export declare (?:abstract )?(?:class|const|enum|function|namespace) (\w+)/gm)].map(it => it[1])
}

test('each value has its type, and each type of a value its value', () => {
  assert.deepEqual([...new Set(declaredIn('index'))].sort(), Object.keys(require('..')).sort())
  const all = new Set(['index', 'lsp', 'lsp_methods', 'language_server'].flatMap(declaredIn))
  all.delete('Connection') // (it is the type of a server's connection there)
  assert.deepEqual([...all].sort(), Object.keys(require('../lib/lsp/index.js')).sort())
})

test('each value of the tool servers has its type, and each type of a value its value', () => {
  const types = fs.readFileSync(path.join(PACKAGE, 'types', 'mcp.d.ts'), 'utf8')
  const declared = [...types.matchAll(/^export declare (?:class|const|function|namespace) (\w+)/gm)].map(it => it[1])
  const there = Object.keys(require('../lib/mcp'))
  // (nobody makes these: they are types of what there is)
  assert.deepEqual([...new Set([...declared, 'McpError'])].filter(it => it !== 'Extra' && it !== 'Part').sort(), there.sort())
})

/** The names that @modelcontextprotocol/sdk 1 is known to export for servers, clients and transports, without those of its schemas. */
const KNOWN_OF_MCP = [
  'McpServer', 'ResourceTemplate', 'completable', 'Server', 'StdioServerTransport', 'Client', 'StdioClientTransport',
  'InMemoryTransport', 'McpError', 'ErrorCode', 'UrlElicitationRequiredError', 'StreamableHTTPServerTransport',
  'StreamableHTTPClientTransport', 'SSEServerTransport', 'SSEClientTransport', 'WebSocketClientTransport', 'Protocol',
  'UriTemplate', 'ReadBuffer', 'LATEST_PROTOCOL_VERSION', 'SUPPORTED_PROTOCOL_VERSIONS', 'getDefaultEnvironment',
  'getDisplayName', 'Transport', 'RegisteredTool', 'RegisteredResource', 'RegisteredPrompt', 'RequestHandlerExtra', 'ToolCallback',
  'CallToolRequestSchema', 'OAuthClientProvider', 'mcpAuthRouter', 'isInitializeRequest', 'JSONRPCMessage'
]

test('each known name of MCP is on the page, there or not', () => {
  const page = fs.readFileSync(PAGE, 'utf8')
  assert.deepEqual(KNOWN_OF_MCP.filter(it => !page.includes(`\`${it}\``)), [])
})

test('each known name is here, or the page tells why not', () => {
  const types = fs.readFileSync(path.join(PACKAGE, 'types', 'index.d.ts'), 'utf8')
  const here = new Set([...types.matchAll(/^export (?:declare )?(?:abstract )?\w+ (\w+)/gm)].map(it => it[1]))
  const page = fs.readFileSync(PAGE, 'utf8')
  const missing = KNOWN.filter(it => !here.has(it))
  assert.deepEqual(missing.filter(it => !page.includes(`\`${it}\``)), [])
  assert.ok(missing.length < 10, `${missing}`)
})

test('each known name of servers is here, or the page tells why not', () => {
  const text = ['index', 'lsp', 'lsp_methods', 'language_server'].map(it => fs.readFileSync(path.join(PACKAGE, 'types', `${it}.d.ts`), 'utf8')).join()
  const here = new Set([...text.matchAll(/^export (?:declare )?(?:abstract )?\w+ (\w+)/gm)].map(it => it[1]))
  const page = fs.readFileSync(PAGE, 'utf8')
  const table = page.slice(page.indexOf('\n## Language servers\n'), page.indexOf('\n## Handlers\n'))
  const missing = KNOWN_OF_SERVERS.filter(it => !here.has(it))
  assert.deepEqual(missing.filter(it => !table.includes(`\`${it}\``) && !KNOWN.includes(it)), [])
  assert.ok(missing.length < 50, `${missing}`)
  const firsts = [...table.slice(table.indexOf("What isn't there")).matchAll(/^\| (.*?) \|/gm)].map(it => it[1]).join()
  const told = [...firsts.matchAll(/`(\w+)`/g)].map(it => it[1])
  assert.ok(told.length > 25)
  assert.deepEqual(told.filter(it => here.has(it)), [], 'the page says of these that they are missing')
})

test('the ways into the package', () => {
  const manifest = require('../package.json')
  const { exports, scripts, engines } = manifest
  assert.deepEqual(Object.keys(exports), ['.', './node', './node.js', './testing', './lsp', './browser', './bullmyrtle.wasm', './mcp', './package.json'])
  const files = it => typeof it === 'string' ? [it] : Object.values(it).flatMap(files)
  const all = Object.values(exports).flatMap(files)
  const isMade = it => it.startsWith('./prebuilt/')
  for (const it of all.filter(it => !isMade(it))) assert.ok(fs.existsSync(path.join(PACKAGE, it)), it)
  // (what is made as the package is: checks/packages.py loads it)
  assert.deepEqual(all.filter(isMade), ['./prebuilt/browser.mjs', './prebuilt/bullmyrtle.wasm'])
  assert.equal('dependencies' in manifest, false)
  assert.deepEqual([Object.keys(scripts), engines.node], [['prepack', 'postpack', 'test'], '>=18'])
})

test('errors and codes have the numbers of vscode-jsonrpc', () => {
  const { ErrorCodes, ConnectionErrors, ResponseError, Trace } = require('..')
  assert.deepEqual([ErrorCodes.ParseError, ErrorCodes.PendingResponseRejected, ErrorCodes.MessageWriteError, ErrorCodes.UnknownErrorCode], [-32700, -32097, -32099, -32001])
  assert.deepEqual([ConnectionErrors.Closed, ConnectionErrors[2], Trace.Verbose], [1, 'Disposed', 3])
  const error = new ResponseError(5, 'five', { a: 1 })
  assert.deepEqual([error.toJson(), error instanceof Error, new ResponseError(5, 'x').toJson()], [{ code: 5, message: 'five', data: { a: 1 } }, true, { code: 5, message: 'x' }])
})
