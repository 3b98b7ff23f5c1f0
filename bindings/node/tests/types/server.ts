// What has to be taken of `bullmyrtle/lsp`, strictly, and what has to be refused.
import {
  BulkRegistration, CodeAction, CodeActionKind, CompletionItemKind, createConnection, Diagnostic, DiagnosticSeverity,
  DidChangeConfigurationNotification, DocumentDiagnosticReportKind, ErrorCodes, HoverRequest, LSPErrorCodes, MarkupKind,
  Position, ProposedFeatures, Range, ResponseError, SemanticTokensBuilder, SemanticTokenTypes, SymbolKind, TextDocument,
  TextDocuments, TextDocumentSyncKind, TextEdit
} from 'bullmyrtle/lsp'
import type {
  CompletionItem, Connection, DocumentDiagnosticReport, Hover, InitializeParams, InitializeResult, ServerRequestHandler,
  TextDocumentChangeEvent, TextDocumentPositionParams
} from 'bullmyrtle/lsp'

const connection: Connection = createConnection(ProposedFeatures.all, { checks: false })
const documents: TextDocuments<TextDocument> = new TextDocuments(TextDocument)
const range = Range.create(0, 0, 1, 1)

connection.onInitialize((params: InitializeParams): InitializeResult => ({
  capabilities: {
    textDocumentSync: TextDocumentSyncKind.Incremental, completionProvider: { resolveProvider: true },
    hoverProvider: params.capabilities.textDocument?.hover !== undefined
  }
}))
connection.onInitialized(async () => {
  await connection.client.register(DidChangeConfigurationNotification.type, undefined)
  const all = BulkRegistration.create()
  all.add(HoverRequest.type, { documentSelector: null })
  const taken = await connection.client.register(all)
  taken.disposeSingle('textDocument/hover')
  const { title } = (await connection.window.showErrorMessage('x', { title: 'one' })) ?? { title: '' }
  const settings: any = await connection.workspace.getConfiguration({ scopeUri: 'x', section: title })
  const progress = await connection.window.createWorkDoneProgress()
  progress.begin('x', 5)
  progress.report(settings.much)
  if (progress.token.isCancellationRequested) progress.done()
})
connection.onCompletion((_: TextDocumentPositionParams): CompletionItem[] => [{ label: 'x', kind: CompletionItemKind.Text }])
const hover: ServerRequestHandler<TextDocumentPositionParams, Hover, never, void> = ({ position }, token, progress) => {
  progress.report('x')
  return token.isCancellationRequested
    ? new ResponseError(LSPErrorCodes.RequestCancelled, 'x')
    : { contents: { kind: MarkupKind.Markdown, value: `${position.line}` }, range }
}
connection.onHover(hover)
connection.onReferences((params, _, __, parts) => {
  parts?.report([{ uri: params.textDocument.uri, range }])
  return params.context.includeDeclaration ? [] : null
})
connection.languages.diagnostics.on(async (): Promise<DocumentDiagnosticReport> => ({
  kind: DocumentDiagnosticReportKind.Full, items: [Diagnostic.create(range, 'x', DiagnosticSeverity.Hint)]
}))
connection.languages.semanticTokens.on(() => new SemanticTokensBuilder().build())
connection.onCodeAction(({ textDocument }) => [
  CodeAction.create('x', { changes: { [textDocument.uri]: [TextEdit.insert(Position.create(0, 0), 'x')] } }, CodeActionKind.QuickFix)
])
connection.onDocumentSymbol(() => [{ name: 'x', kind: SymbolKind.Class, range, selectionRange: range }])
connection.onExecuteCommand(({ command }) => new ResponseError(ErrorCodes.InvalidParams, command))
connection.onRequest(HoverRequest.type, ({ position }) => ({ contents: `${position.line}` }))
documents.onDidChangeContent(({ document }: TextDocumentChangeEvent<TextDocument>) => {
  const at: number = document.offsetAt(document.positionAt(1)) + document.getText(range).length
  void connection.sendDiagnostics({ uri: document.uri, version: at, diagnostics: [] })
})
documents.listen(connection)
export const kinds: ['class', 1] = [SemanticTokenTypes.class, DiagnosticSeverity.Error]
export const isRange = (value: unknown): number => (Range.is(value) ? value.start.line : 0)

// @ts-expect-error (a hover has contents)
connection.onHover(() => ({ content: 'x' }))
// @ts-expect-error
connection.onInitialize(() => ({ capabilities: { hoverProvidr: true } }))
// @ts-expect-error
connection.onDidChangeConfiguration(({ setting }) => setting)
// @ts-expect-error (there is no such handler)
connection.onHovering(() => null)
// @ts-expect-error
connection.client.register(HoverRequest.type, { selector: null })
// @ts-expect-error
documents.onDidClose(({ document }) => document.text)
// @ts-expect-error
Range.create(1, 2, 3)
// @ts-expect-error
export const severity: 5 = DiagnosticSeverity.Error
// @ts-expect-error
TextDocument.create('x', 'y', 1, 'z', 5)
connection.listen()
