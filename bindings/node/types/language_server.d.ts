// What `bullmyrtle/lsp` has: language servers, with the names of vscode-languageserver, vscode-languageserver-protocol,
// vscode-languageserver-types and vscode-languageserver-textdocument.

import {
  CancellationToken, ConnectionOptions, ConnectionStrategy, Disposable, Event, HandlerResult, InputStream, MessageReader,
  MessageWriter, MessageConnection, NotificationHandler, NotificationHandler0, NotificationType, NotificationType0,
  OutputStream, ProgressToken, ProgressType, RequestHandler0, RequestType, RequestType0
} from './index'
import * as T from './lsp'
import { Handlers, LanguagesHandlers, NotebooksHandlers, WorkspaceHandlers } from './lsp_methods'

export * from './index'
export * from './lsp'
export * from './lsp_methods'
// (those that are in two of these files)
export {
  ErrorCodes, LogTraceParams, ProgressParams, ProgressToken, ResponseError, SetTraceParams, TraceValues
} from './index'

declare global {
  /** (which vscode-languageserver declares for all) */
  interface Thenable<T> extends PromiseLike<T> {}
}

// Types of methods

export declare class ProtocolRequestType0<R, PR, E, RO> extends RequestType0<R, E> {
  constructor(method: string)
  readonly __: [PR, RO] | undefined
}
export declare class ProtocolRequestType<P, R, PR, E, RO> extends RequestType<P, R, E> {
  constructor(method: string)
  readonly __: [PR, RO] | undefined
}
export declare class ProtocolNotificationType0<RO> extends NotificationType0 {
  constructor(method: string)
  readonly __: RO | undefined
}
export declare class ProtocolNotificationType<P, RO> extends NotificationType<P> {
  constructor(method: string)
  readonly __: RO | undefined
}
export declare class RegistrationType<RO> {
  constructor(method: string)
  readonly method: string
  readonly __: RO | undefined
}
export declare const MessageDirection: {
  readonly clientToServer: 'clientToServer', readonly serverToClient: 'serverToClient', readonly both: 'both'
}
export declare namespace SemanticTokensRegistrationType {
  const method: 'textDocument/semanticTokens'
  const type: RegistrationType<T.SemanticTokensRegistrationOptions>
}
export declare namespace NotebookDocumentSyncRegistrationType {
  const method: 'notebookDocument/sync'
  const type: RegistrationType<T.NotebookDocumentSyncRegistrationOptions>
}
export declare namespace WorkDoneProgress {
  const type: ProgressType<T.WorkDoneProgressBegin | T.WorkDoneProgressReport | T.WorkDoneProgressEnd>
}

// Handlers

export interface WorkDoneProgressReporter {
  begin(title: string, percentage?: number, message?: string, cancellable?: boolean): void
  report(percentage: number, message?: string): void
  report(message: string): void
  done(): void
}
export interface WorkDoneProgressServerReporter extends WorkDoneProgressReporter {
  readonly token: CancellationToken
}
export interface ResultProgressReporter<R> {
  report(data: R): void
}
export interface ServerRequestHandler<P, R, PR, E> {
  (
    params: P, token: CancellationToken, workDoneProgress: WorkDoneProgressReporter,
    resultProgress: ResultProgressReporter<PR> | undefined
  ): HandlerResult<R, E>
}

// A connection

export interface RemoteConsole {
  error(message: string): void
  warn(message: string): void
  info(message: string): void
  log(message: string): void
  debug(message: string): void
}
export interface RemoteTracer {
  log(message: string, verbose?: string): void
}
export interface Telemetry {
  logEvent(data: any): void
}
export interface RemoteWindow {
  showErrorMessage<A extends T.MessageActionItem>(message: string, ...actions: A[]): Promise<A | undefined>
  showWarningMessage<A extends T.MessageActionItem>(message: string, ...actions: A[]): Promise<A | undefined>
  showInformationMessage<A extends T.MessageActionItem>(message: string, ...actions: A[]): Promise<A | undefined>
  showDocument(params: T.ShowDocumentParams): Promise<T.ShowDocumentResult>
  createWorkDoneProgress(): Promise<WorkDoneProgressServerReporter>
  attachWorkDoneProgress(token: ProgressToken | undefined): WorkDoneProgressReporter
}
/** What can be registered while a server runs. */
export type Registrable<RO> =
  | ProtocolNotificationType<any, RO> | ProtocolNotificationType0<RO> | ProtocolRequestType<any, any, any, any, RO>
  | ProtocolRequestType0<any, any, any, RO> | RegistrationType<RO>
export interface BulkRegistration {
  add<RO>(type: Registrable<RO>, registerOptions?: RO): void
  add(type: string, registerOptions?: any): void
  asRegistrationParams(): T.RegistrationParams
}
export declare namespace BulkRegistration {
  function create(): BulkRegistration
}
export interface BulkUnregistration extends Disposable {
  readonly isAttached: boolean
  disposeSingle(type: string | { method: string }): boolean
}
export declare namespace BulkUnregistration {
  function create(): BulkUnregistration
}
export interface RemoteClient {
  register<RO>(type: Registrable<RO>, registerOptions?: RO): Promise<Disposable>
  register(type: string, registerOptions?: any): Promise<Disposable>
  register<RO>(unregisteration: BulkUnregistration, type: Registrable<RO>, registerOptions?: RO): Promise<Disposable>
  register(registrations: BulkRegistration): Promise<BulkUnregistration>
}
export interface RemoteWorkspace extends WorkspaceHandlers {
  getConfiguration(): Promise<any>
  getConfiguration(section: string): Promise<any>
  getConfiguration(item: T.ConfigurationItem): Promise<any>
  getConfiguration(items: T.ConfigurationItem[]): Promise<any[]>
  applyEdit(paramOrEdit: T.ApplyWorkspaceEditParams | T.WorkspaceEdit): Promise<T.ApplyWorkspaceEditResult>
  getWorkspaceFolders(): Promise<T.WorkspaceFolder[] | null>
  readonly onDidChangeWorkspaceFolders: Event<T.WorkspaceFoldersChangeEvent>
}
export interface Connection extends Handlers {
  listen(): void
  dispose(): void
  onRequest: MessageConnection['onRequest']
  sendRequest: MessageConnection['sendRequest']
  onNotification: MessageConnection['onNotification']
  sendNotification: MessageConnection['sendNotification']
  onProgress: MessageConnection['onProgress']
  sendProgress: MessageConnection['sendProgress']
  onInitialize(handler: ServerRequestHandler<T.InitializeParams, T.InitializeResult, never, T.InitializeError>): Disposable
  onInitialized(handler: NotificationHandler<T.InitializedParams>): Disposable
  onShutdown(handler: RequestHandler0<void, void>): Disposable
  /** A promise is waited for before the connection ends. */
  onExit(handler: () => void | Promise<void>): Disposable
  readonly console: RemoteConsole
  readonly tracer: RemoteTracer
  readonly telemetry: Telemetry
  readonly client: RemoteClient
  readonly window: RemoteWindow
  readonly workspace: RemoteWorkspace
  readonly languages: LanguagesHandlers
  readonly notebooks: NotebooksHandlers
  sendDiagnostics(params: T.PublishDiagnosticsParams): Promise<void>
  /** Beyond vscode-languageserver: what positions count, as `onInitialize` told. */
  readonly positionEncoding: T.PositionEncodingKind
}
/** @deprecated what a connection is called in some versions */
export type _Connection = Connection

export interface ServerOptions extends ConnectionOptions {
  /** Beyond vscode-languageserver: whether params are held to LSP's types; true where it is absent. */
  checks?: boolean
}
type Given = ConnectionStrategy | ServerOptions
export interface Features {
  __brand: 'features'
}
export declare namespace ProposedFeatures {
  const all: Features
  type Connection = import('./language_server').Connection
}
export declare function createConnection(options?: Given): Connection
export declare function createConnection(input: InputStream, output: OutputStream, options?: Given): Connection
export declare function createConnection(reader: MessageReader, writer: MessageWriter, options?: Given): Connection
export declare function createConnection(features: Features, options?: Given): Connection
export declare function createConnection(
  features: Features, input: InputStream, output: OutputStream, options?: Given
): Connection
export declare function createConnection(
  features: Features, reader: MessageReader, writer: MessageWriter, options?: Given
): Connection

// Documents

export interface TextDocument {
  readonly uri: T.DocumentUri
  readonly languageId: string
  readonly version: number
  readonly lineCount: number
  getText(range?: T.Range): string
  positionAt(offset: number): T.Position
  offsetAt(position: T.Position): number
}
export declare namespace TextDocument {
  function create(
    uri: T.DocumentUri, languageId: string, version: number, content: string, encoding?: T.PositionEncodingKind
  ): TextDocument
  function update(document: TextDocument, changes: T.TextDocumentContentChangeEvent[], version: number): TextDocument
  function applyEdits(document: TextDocument, edits: T.TextEdit[]): string
}
export interface TextDocumentsConfiguration<D extends { uri: T.DocumentUri }> {
  create(uri: T.DocumentUri, languageId: string, version: number, content: string, encoding?: T.PositionEncodingKind): D
  update(document: D, changes: T.TextDocumentContentChangeEvent[], version: number): D
}
export interface TextDocumentChangeEvent<D> {
  document: D
}
export interface TextDocumentWillSaveEvent<D> {
  document: D
  reason: T.TextDocumentSaveReason
}
/** What is used of a connection. */
export type TextDocumentConnection = Pick<
  Handlers,
  | 'onDidOpenTextDocument' | 'onDidChangeTextDocument' | 'onDidCloseTextDocument' | 'onWillSaveTextDocument'
  | 'onWillSaveTextDocumentWaitUntil' | 'onDidSaveTextDocument'
>
export declare class TextDocuments<D extends { uri: T.DocumentUri }> {
  constructor(configuration: TextDocumentsConfiguration<D>)
  get onDidOpen(): Event<TextDocumentChangeEvent<D>>
  get onDidChangeContent(): Event<TextDocumentChangeEvent<D>>
  get onDidClose(): Event<TextDocumentChangeEvent<D>>
  get onDidSave(): Event<TextDocumentChangeEvent<D>>
  get onWillSave(): Event<TextDocumentWillSaveEvent<D>>
  onWillSaveWaitUntil(
    handler: (event: TextDocumentWillSaveEvent<D>, token: CancellationToken) => HandlerResult<T.TextEdit[], void>
  ): void
  get(uri: T.DocumentUri): D | undefined
  all(): D[]
  keys(): T.DocumentUri[]
  listen(connection: TextDocumentConnection): Disposable
}

// Notebooks

export interface NotebookDocumentChangeEvent {
  notebookDocument: T.NotebookDocument
  metadata?: { old: T.LSPObject | undefined; new: T.LSPObject | undefined }
  cells?: {
    added: T.NotebookCell[]
    removed: T.NotebookCell[]
    changed: { data: Array<{ old: T.NotebookCell; new: T.NotebookCell }>; textContent: T.NotebookCell[] }
  }
}
/** Keeps the open notebooks of a client, and the texts of their cells. */
export declare class NotebookDocuments<D extends { uri: T.DocumentUri }> {
  constructor(configurationOrTextDocuments: TextDocumentsConfiguration<D> | TextDocuments<D>)
  get onDidOpen(): Event<T.NotebookDocument>
  get onDidSave(): Event<T.NotebookDocument>
  get onDidChange(): Event<NotebookDocumentChangeEvent>
  get onDidClose(): Event<T.NotebookDocument>
  get cellTextDocuments(): TextDocuments<D>
  getCellTextDocument(cell: T.NotebookCell): D | undefined
  getNotebookDocument(uri: T.URI): T.NotebookDocument | undefined
  getNotebookCell(uri: T.DocumentUri): T.NotebookCell | undefined
  findNotebookDocumentForCell(cell: T.DocumentUri | T.NotebookCell): T.NotebookDocument | undefined
  listen(connection: Connection): Disposable
}

// Semantic tokens

export declare class SemanticTokensDiff {
  constructor(before: number[], after: number[])
  computeDiff(): T.SemanticTokensEdit[]
}
export declare class SemanticTokensBuilder {
  get id(): string
  push(line: number, char: number, length: number, tokenType: number, tokenModifiers: number): void
  previousResult(id: string): void
  build(): T.SemanticTokens
  canBuildEdits(): boolean
  buildEdits(): T.SemanticTokens | T.SemanticTokensDelta
}

// Values, by namespaces

interface Is<V> {
  is(value: any): value is V
}
interface Made<V, A extends any[]> extends Is<V> {
  create(...given: A): V
}
interface Edits<E, A extends any[]> extends Is<E> {
  replace(range: T.Range, newText: string, ...annotation: A): E
  insert(position: T.Position, newText: string, ...annotation: A): E
  del(range: T.Range, ...annotation: A): E
}
interface Bounded {
  readonly MIN_VALUE: number
  readonly MAX_VALUE: number
  is(value: any): value is number
}

export declare const Files: { uriToFilePath(uri: string): string | undefined }
export declare const EOL: string[]

export type Location = T.Location
export declare const Location: Made<T.Location, [uri: T.DocumentUri, range: T.Range]>
export type LocationLink = T.LocationLink
export declare const LocationLink: Made<T.LocationLink, [
  targetUri: T.DocumentUri, targetRange: T.Range, targetSelectionRange: T.Range, originSelectionRange?: T.Range
]>
export type Color = T.Color
export declare const Color: Made<T.Color, [red: number, green: number, blue: number, alpha: number]>
export type ColorInformation = T.ColorInformation
export declare const ColorInformation: Made<T.ColorInformation, [range: T.Range, color: T.Color]>
export type ColorPresentation = T.ColorPresentation
export declare const ColorPresentation: Made<T.ColorPresentation, [
  label: string, textEdit?: T.TextEdit, additionalTextEdits?: T.TextEdit[]
]>
export type FoldingRange = T.FoldingRange
export declare const FoldingRange: Made<T.FoldingRange, [
  startLine: number, endLine: number, startCharacter?: number, endCharacter?: number, kind?: T.FoldingRangeKind,
  collapsedText?: string
]>
export type DiagnosticRelatedInformation = T.DiagnosticRelatedInformation
export declare const DiagnosticRelatedInformation: Made<T.DiagnosticRelatedInformation, [
  location: T.Location, message: string
]>
export type Diagnostic = T.Diagnostic
export declare const Diagnostic: Made<T.Diagnostic, [
  range: T.Range, message: string, severity?: T.DiagnosticSeverity, code?: number | string, source?: string,
  relatedInformation?: T.DiagnosticRelatedInformation[]
]>
export type ChangeAnnotation = T.ChangeAnnotation
export declare const ChangeAnnotation: Made<T.ChangeAnnotation, [
  label: string, needsConfirmation?: boolean, description?: string
]>
export type TextDocumentEdit = T.TextDocumentEdit
export declare const TextDocumentEdit: Made<T.TextDocumentEdit, [
  textDocument: T.OptionalVersionedTextDocumentIdentifier, edits: (T.TextEdit | T.AnnotatedTextEdit)[]
]>
export type TextDocumentIdentifier = T.TextDocumentIdentifier
export declare const TextDocumentIdentifier: Made<T.TextDocumentIdentifier, [uri: T.DocumentUri]>
export type VersionedTextDocumentIdentifier = T.VersionedTextDocumentIdentifier
export declare const VersionedTextDocumentIdentifier: Made<T.VersionedTextDocumentIdentifier, [
  uri: T.DocumentUri, version: number
]>
export type OptionalVersionedTextDocumentIdentifier = T.OptionalVersionedTextDocumentIdentifier
export declare const OptionalVersionedTextDocumentIdentifier: Made<T.OptionalVersionedTextDocumentIdentifier, [
  uri: T.DocumentUri, version: number | null
]>
export type TextDocumentItem = T.TextDocumentItem
export declare const TextDocumentItem: Made<T.TextDocumentItem, [
  uri: T.DocumentUri, languageId: string, version: number, text: string
]>
export type InsertReplaceEdit = T.InsertReplaceEdit
export declare const InsertReplaceEdit: Made<T.InsertReplaceEdit, [newText: string, insert: T.Range, replace: T.Range]>
export type CompletionItem = T.CompletionItem
export declare const CompletionItem: Made<T.CompletionItem, [label: string]>
export type CompletionList = T.CompletionList
export declare const CompletionList: Made<T.CompletionList, [items?: T.CompletionItem[], isIncomplete?: boolean]>
export type ParameterInformation = T.ParameterInformation
export declare const ParameterInformation: Made<T.ParameterInformation, [
  label: string | [number, number], documentation?: string
]>
export type SignatureInformation = T.SignatureInformation
export declare const SignatureInformation: Made<T.SignatureInformation, [
  label: string, documentation?: string, ...parameters: T.ParameterInformation[]
]>
export type DocumentHighlight = T.DocumentHighlight
export declare const DocumentHighlight: Made<T.DocumentHighlight, [range: T.Range, kind?: T.DocumentHighlightKind]>
export type SymbolInformation = T.SymbolInformation
export declare const SymbolInformation: Made<T.SymbolInformation, [
  name: string, kind: T.SymbolKind, range: T.Range, uri: T.DocumentUri, containerName?: string
]>
export type WorkspaceSymbol = T.WorkspaceSymbol
export declare const WorkspaceSymbol: Made<T.WorkspaceSymbol, [
  name: string, kind: T.SymbolKind, uri: T.DocumentUri, range?: T.Range
]>
export type DocumentSymbol = T.DocumentSymbol
export declare const DocumentSymbol: Made<T.DocumentSymbol, [
  name: string, detail: string | undefined, kind: T.SymbolKind, range: T.Range, selectionRange: T.Range,
  children?: T.DocumentSymbol[]
]>
export type CodeActionContext = T.CodeActionContext
export declare const CodeActionContext: Made<T.CodeActionContext, [
  diagnostics: T.Diagnostic[], only?: T.CodeActionKind[], triggerKind?: T.CodeActionTriggerKind
]>
export type CodeAction = T.CodeAction
export declare const CodeAction: Made<T.CodeAction, [
  title: string, kindOrCommandOrEdit?: T.CodeActionKind | T.Command | T.WorkspaceEdit, kind?: T.CodeActionKind
]>
export type CodeLens = T.CodeLens
export declare const CodeLens: Made<T.CodeLens, [range: T.Range, data?: T.LSPAny]>
export type Command = T.Command
export declare const Command: Made<T.Command, [title: string, command: string, ...given: any[]]>
export type FormattingOptions = T.FormattingOptions
export declare const FormattingOptions: Made<T.FormattingOptions, [tabSize: number, insertSpaces: boolean]>
export type DocumentLink = T.DocumentLink
export declare const DocumentLink: Made<T.DocumentLink, [range: T.Range, target?: string, data?: T.LSPAny]>
export type SelectionRange = T.SelectionRange
export declare const SelectionRange: Made<T.SelectionRange, [range: T.Range, parent?: T.SelectionRange]>
export type InlineValueText = T.InlineValueText
export declare const InlineValueText: Made<T.InlineValueText, [range: T.Range, text: string]>
export type InlineValueVariableLookup = T.InlineValueVariableLookup
export declare const InlineValueVariableLookup: Made<T.InlineValueVariableLookup, [
  range: T.Range, variableName: string | undefined, caseSensitiveLookup: boolean
]>
export type InlineValueEvaluatableExpression = T.InlineValueEvaluatableExpression
export declare const InlineValueEvaluatableExpression: Made<T.InlineValueEvaluatableExpression, [
  range: T.Range, expression: string | undefined
]>
export type InlineValueContext = T.InlineValueContext
export declare const InlineValueContext: Made<T.InlineValueContext, [frameId: number, stoppedLocation: T.Range]>
export type InlayHintLabelPart = T.InlayHintLabelPart
export declare const InlayHintLabelPart: Made<T.InlayHintLabelPart, [value: string]>
export type InlayHint = T.InlayHint
export declare const InlayHint: Made<T.InlayHint, [
  position: T.Position, label: string | T.InlayHintLabelPart[], kind?: T.InlayHintKind
]>
export type WorkspaceFolder = T.WorkspaceFolder
export declare const WorkspaceFolder: Made<T.WorkspaceFolder, [uri: T.URI, name: string]>
export type CodeDescription = T.CodeDescription
export declare const CodeDescription: Made<T.CodeDescription, [href: T.URI]>
export type MarkupContent = T.MarkupContent
export declare const MarkupContent: Made<T.MarkupContent, [kind: T.MarkupKind, value: string]>
export type Hover = T.Hover
export declare const Hover: Made<T.Hover, [contents: T.Hover['contents'], range?: T.Range]>
export type SemanticTokens = T.SemanticTokens
export declare const SemanticTokens: Made<T.SemanticTokens, [resultId: string | undefined, data: number[]]>
export type Position = T.Position
export declare const Position: Made<T.Position, [line: number, character: number]>
export type CreateFile = T.CreateFile
export declare const CreateFile: Made<T.CreateFile, [
  uri: T.DocumentUri, options?: T.CreateFileOptions, annotation?: T.ChangeAnnotationIdentifier
]>
export type RenameFile = T.RenameFile
export declare const RenameFile: Made<T.RenameFile, [
  oldUri: T.DocumentUri, newUri: T.DocumentUri, options?: T.RenameFileOptions, annotation?:
  T.ChangeAnnotationIdentifier
]>
export type DeleteFile = T.DeleteFile
export declare const DeleteFile: Made<T.DeleteFile, [
  uri: T.DocumentUri, options?: T.DeleteFileOptions, annotation?: T.ChangeAnnotationIdentifier
]>
export type Range = T.Range
export declare const Range: Made<T.Range, [start: T.Position, end: T.Position]> & {
  create(startLine: number, startCharacter: number, endLine: number, endCharacter: number): T.Range
}
export type TextEdit = T.TextEdit
export declare const TextEdit: Edits<T.TextEdit, []>
export type AnnotatedTextEdit = T.AnnotatedTextEdit
export declare const AnnotatedTextEdit: Edits<T.AnnotatedTextEdit, [annotation: T.ChangeAnnotationIdentifier]>
export type WorkspaceEdit = T.WorkspaceEdit
export declare const WorkspaceEdit: Is<T.WorkspaceEdit>
export type ChangeAnnotationIdentifier = T.ChangeAnnotationIdentifier
export declare const ChangeAnnotationIdentifier: Is<T.ChangeAnnotationIdentifier>
export type DocumentUri = T.DocumentUri
export declare const DocumentUri: Is<T.DocumentUri>
export type URI = T.URI
export declare const URI: Is<T.URI>
export type MarkedString = T.MarkedString
export declare const MarkedString: Is<T.MarkedString> & { fromPlainText(text: string): string }
export type integer = T.integer
export declare const integer: Bounded
export type uinteger = T.uinteger
export declare const uinteger: Bounded
export type MarkupKind = T.MarkupKind
export declare const MarkupKind: typeof T.MarkupKind & Is<T.MarkupKind>
export type InlayHintKind = T.InlayHintKind
export declare const InlayHintKind: typeof T.InlayHintKind & Is<T.InlayHintKind>
export type NotebookCellKind = T.NotebookCellKind
export declare const NotebookCellKind: typeof T.NotebookCellKind & Is<T.NotebookCellKind>
export type LSPErrorCodes = T.LSPErrorCodes
export declare const LSPErrorCodes: typeof T.LSPErrorCodes & {
  readonly lspReservedErrorRangeStart: -32899, readonly lspReservedErrorRangeEnd: -32800
}
