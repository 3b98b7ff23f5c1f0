// The names and shapes of vscode-jsonrpc 8, and what there is beyond them. They need no other types: streams, sockets and
// ports are named by what is used of them, so those of Node.js fit with and without @types/node.

// Streams

/** What is used of a stream that is read: any Readable or socket of Node.js. */
export interface InputStream {
  on(event: string, listener: (...args: any[]) => void): unknown
  off(event: string, listener: (...args: any[]) => void): unknown
  pause(): unknown
  resume(): unknown
}
/** What is used of a stream that is written: any Writable or socket of Node.js. */
export interface OutputStream {
  on(event: string, listener: (...args: any[]) => void): unknown
  off(event: string, listener: (...args: any[]) => void): unknown
  once(event: string, listener: (...args: any[]) => void): unknown
  write(bytes: any, done?: any): boolean
  end(): unknown
}

// Events

export interface Disposable {
  dispose(): void
}
export declare namespace Disposable {
  function create(dispose: () => void): Disposable
}
export interface Event<T> {
  (listener: (e: T) => any, thisArgs?: any, disposables?: Disposable[]): Disposable
}
export declare namespace Event {
  const None: Event<any>
}
export interface EmitterOptions {
  onFirstListenerAdd?: Function
  onLastListenerRemove?: Function
}
export declare class Emitter<T> {
  constructor(options?: EmitterOptions)
  get event(): Event<T>
  fire(event: T): any
  hasListeners(): boolean
  dispose(): void
}

// Cancellation

export interface CancellationToken {
  readonly isCancellationRequested: boolean
  readonly onCancellationRequested: Event<any>
}
export declare namespace CancellationToken {
  const None: CancellationToken
  const Cancelled: CancellationToken
  function is(value: any): value is CancellationToken
}
export interface AbstractCancellationTokenSource extends Disposable {
  token: CancellationToken
  cancel(): void
}
export declare class CancellationTokenSource implements AbstractCancellationTokenSource {
  get token(): CancellationToken
  cancel(): void
  dispose(): void
}
export type CancellationId = number | string
export interface IdCancellationReceiverStrategy {
  kind?: 'id'
  createCancellationTokenSource(id: CancellationId): AbstractCancellationTokenSource
  dispose?(): void
}
export declare namespace IdCancellationReceiverStrategy {
  function is(value: any): value is IdCancellationReceiverStrategy
}
export interface RequestCancellationReceiverStrategy {
  kind: 'request'
  createCancellationTokenSource(requestMessage: RequestMessage): AbstractCancellationTokenSource
  dispose?(): void
}
export declare namespace RequestCancellationReceiverStrategy {
  function is(value: any): value is RequestCancellationReceiverStrategy
}
export type CancellationReceiverStrategy = IdCancellationReceiverStrategy | RequestCancellationReceiverStrategy
export declare namespace CancellationReceiverStrategy {
  const Message: CancellationReceiverStrategy
  function is(value: any): value is CancellationReceiverStrategy
}
export interface CancellationSenderStrategy {
  sendCancellation(conn: MessageConnection, id: CancellationId): Promise<void>
  cleanup(id: CancellationId): void
  dispose?(): void
}
export declare namespace CancellationSenderStrategy {
  const Message: CancellationSenderStrategy
  function is(value: any): value is CancellationSenderStrategy
}
export interface CancellationStrategy {
  receiver: CancellationReceiverStrategy
  sender: CancellationSenderStrategy
}
export declare namespace CancellationStrategy {
  const Message: CancellationStrategy
  function is(value: any): value is CancellationStrategy
}

// Messages

export interface Message {
  jsonrpc: string
}
export declare namespace Message {
  function isRequest(message: Message | undefined): message is RequestMessage
  function isNotification(message: Message | undefined): message is NotificationMessage
  function isResponse(message: Message | undefined): message is ResponseMessage
}
export interface RequestMessage extends Message {
  id: number | string | null
  method: string
  params?: any[] | object
}
export interface NotificationMessage extends Message {
  method: string
  params?: any[] | object
}
export interface ResponseMessage extends Message {
  id: number | string | null
  result?: string | number | boolean | object | any[] | null
  error?: ResponseErrorLiteral<any>
}

// Errors

export declare namespace ErrorCodes {
  const ParseError: -32700
  const InvalidRequest: -32600
  const MethodNotFound: -32601
  const InvalidParams: -32602
  const InternalError: -32603
  const jsonrpcReservedErrorRangeStart: -32099
  const serverErrorStart: -32099
  const MessageWriteError: -32099
  const MessageReadError: -32098
  const PendingResponseRejected: -32097
  const ConnectionInactive: -32096
  const ServerNotInitialized: -32002
  const UnknownErrorCode: -32001
  const jsonrpcReservedErrorRangeEnd: -32000
  const serverErrorEnd: -32000
}
export type ErrorCodes = number
export interface ResponseErrorLiteral<D = void> {
  code: number
  message: string
  data?: D
}
export declare class ResponseError<D = void> extends Error {
  readonly code: number
  readonly data: D | undefined
  constructor(code: number, message: string, data?: D)
  toJson(): ResponseErrorLiteral<D>
}
export declare enum ConnectionErrors {
  Closed = 1,
  Disposed = 2,
  AlreadyListening = 3
}
export declare class ConnectionError extends Error {
  readonly code: ConnectionErrors
  constructor(code: ConnectionErrors, message: string)
}

// Types of requests and notifications

export declare class ParameterStructures {
  private readonly kind
  private constructor()
  static readonly auto: ParameterStructures
  static readonly byPosition: ParameterStructures
  static readonly byName: ParameterStructures
  static is(value: any): value is ParameterStructures
  toString(): string
}
export interface MessageSignature {
  readonly method: string
  readonly numberOfParams: number
  readonly parameterStructures: ParameterStructures
}
export declare abstract class AbstractMessageSignature implements MessageSignature {
  readonly method: string
  readonly numberOfParams: number
  constructor(method: string, numberOfParams: number)
  get parameterStructures(): ParameterStructures
}
export interface _EM {
  _$endMarker$_: number
}
export declare class RequestType0<R, E> extends AbstractMessageSignature {
  readonly _: [R, E, _EM] | undefined
  constructor(method: string)
}
export declare class RequestType<P, R, E> extends AbstractMessageSignature {
  readonly _: [P, R, E, _EM] | undefined
  constructor(method: string, structures?: ParameterStructures)
}
export declare class RequestType1<P1, R, E> extends AbstractMessageSignature {
  readonly _: [P1, R, E, _EM] | undefined
  constructor(method: string, structures?: ParameterStructures)
}
export declare class RequestType2<P1, P2, R, E> extends AbstractMessageSignature {
  readonly _: [P1, P2, R, E, _EM] | undefined
  constructor(method: string)
}
export declare class RequestType3<P1, P2, P3, R, E> extends AbstractMessageSignature {
  readonly _: [P1, P2, P3, R, E, _EM] | undefined
  constructor(method: string)
}
export declare class RequestType4<P1, P2, P3, P4, R, E> extends AbstractMessageSignature {
  readonly _: [P1, P2, P3, P4, R, E, _EM] | undefined
  constructor(method: string)
}
export declare class RequestType5<P1, P2, P3, P4, P5, R, E> extends AbstractMessageSignature {
  readonly _: [P1, P2, P3, P4, P5, R, E, _EM] | undefined
  constructor(method: string)
}
export declare class RequestType6<P1, P2, P3, P4, P5, P6, R, E> extends AbstractMessageSignature {
  readonly _: [P1, P2, P3, P4, P5, P6, R, E, _EM] | undefined
  constructor(method: string)
}
export declare class RequestType7<P1, P2, P3, P4, P5, P6, P7, R, E> extends AbstractMessageSignature {
  readonly _: [P1, P2, P3, P4, P5, P6, P7, R, E, _EM] | undefined
  constructor(method: string)
}
export declare class RequestType8<P1, P2, P3, P4, P5, P6, P7, P8, R, E> extends AbstractMessageSignature {
  readonly _: [P1, P2, P3, P4, P5, P6, P7, P8, R, E, _EM] | undefined
  constructor(method: string)
}
export declare class RequestType9<P1, P2, P3, P4, P5, P6, P7, P8, P9, R, E> extends AbstractMessageSignature {
  readonly _: [P1, P2, P3, P4, P5, P6, P7, P8, P9, R, E, _EM] | undefined
  constructor(method: string)
}
export declare class NotificationType0 extends AbstractMessageSignature {
  readonly _: [_EM] | undefined
  constructor(method: string)
}
export declare class NotificationType<P> extends AbstractMessageSignature {
  readonly _: [P, _EM] | undefined
  constructor(method: string, structures?: ParameterStructures)
}
export declare class NotificationType1<P1> extends AbstractMessageSignature {
  readonly _: [P1, _EM] | undefined
  constructor(method: string, structures?: ParameterStructures)
}
export declare class NotificationType2<P1, P2> extends AbstractMessageSignature {
  readonly _: [P1, P2, _EM] | undefined
  constructor(method: string)
}
export declare class NotificationType3<P1, P2, P3> extends AbstractMessageSignature {
  readonly _: [P1, P2, P3, _EM] | undefined
  constructor(method: string)
}
export declare class NotificationType4<P1, P2, P3, P4> extends AbstractMessageSignature {
  readonly _: [P1, P2, P3, P4, _EM] | undefined
  constructor(method: string)
}
export declare class NotificationType5<P1, P2, P3, P4, P5> extends AbstractMessageSignature {
  readonly _: [P1, P2, P3, P4, P5, _EM] | undefined
  constructor(method: string)
}
export declare class NotificationType6<P1, P2, P3, P4, P5, P6> extends AbstractMessageSignature {
  readonly _: [P1, P2, P3, P4, P5, P6, _EM] | undefined
  constructor(method: string)
}
export declare class NotificationType7<P1, P2, P3, P4, P5, P6, P7> extends AbstractMessageSignature {
  readonly _: [P1, P2, P3, P4, P5, P6, P7, _EM] | undefined
  constructor(method: string)
}
export declare class NotificationType8<P1, P2, P3, P4, P5, P6, P7, P8> extends AbstractMessageSignature {
  readonly _: [P1, P2, P3, P4, P5, P6, P7, P8, _EM] | undefined
  constructor(method: string)
}
export declare class NotificationType9<P1, P2, P3, P4, P5, P6, P7, P8, P9> extends AbstractMessageSignature {
  readonly _: [P1, P2, P3, P4, P5, P6, P7, P8, P9, _EM] | undefined
  constructor(method: string)
}

// Handlers

export interface Thenable<T> {
  then<A>(onfulfilled?: (value: T) => A | Thenable<A>, onrejected?: (reason: any) => A | Thenable<A>): Thenable<A>
  then<A>(onfulfilled?: (value: T) => A | Thenable<A>, onrejected?: (reason: any) => void): Thenable<A>
}
export type HandlerResult<R, E> =
  | R | ResponseError<E> | Thenable<R> | Thenable<ResponseError<E>> | Thenable<R | ResponseError<E>>
export interface StarRequestHandler {
  (method: string, params: any[] | object | undefined, token: CancellationToken): HandlerResult<any, any>
}
export interface GenericRequestHandler<R, E> {
  (...params: any[]): HandlerResult<R, E>
}
export interface RequestHandler0<R, E> {
  (token: CancellationToken): HandlerResult<R, E>
}
export interface RequestHandler<P, R, E> {
  (params: P, token: CancellationToken): HandlerResult<R, E>
}
export interface RequestHandler1<P1, R, E> {
  (p1: P1, token: CancellationToken): HandlerResult<R, E>
}
export interface RequestHandler2<P1, P2, R, E> {
  (p1: P1, p2: P2, token: CancellationToken): HandlerResult<R, E>
}
export interface RequestHandler3<P1, P2, P3, R, E> {
  (p1: P1, p2: P2, p3: P3, token: CancellationToken): HandlerResult<R, E>
}
export interface RequestHandler4<P1, P2, P3, P4, R, E> {
  (p1: P1, p2: P2, p3: P3, p4: P4, token: CancellationToken): HandlerResult<R, E>
}
export interface RequestHandler5<P1, P2, P3, P4, P5, R, E> {
  (p1: P1, p2: P2, p3: P3, p4: P4, p5: P5, token: CancellationToken): HandlerResult<R, E>
}
export interface RequestHandler6<P1, P2, P3, P4, P5, P6, R, E> {
  (p1: P1, p2: P2, p3: P3, p4: P4, p5: P5, p6: P6, token: CancellationToken): HandlerResult<R, E>
}
export interface RequestHandler7<P1, P2, P3, P4, P5, P6, P7, R, E> {
  (p1: P1, p2: P2, p3: P3, p4: P4, p5: P5, p6: P6, p7: P7, token: CancellationToken): HandlerResult<R, E>
}
export interface RequestHandler8<P1, P2, P3, P4, P5, P6, P7, P8, R, E> {
  (p1: P1, p2: P2, p3: P3, p4: P4, p5: P5, p6: P6, p7: P7, p8: P8, token: CancellationToken): HandlerResult<R, E>
}
export interface RequestHandler9<P1, P2, P3, P4, P5, P6, P7, P8, P9, R, E> {
  (p1: P1, p2: P2, p3: P3, p4: P4, p5: P5, p6: P6, p7: P7, p8: P8, p9: P9, token: CancellationToken): HandlerResult<R, E>
}
export interface StarNotificationHandler {
  (method: string, params: any[] | object | undefined): void | Promise<void>
}
export interface GenericNotificationHandler {
  (...params: any[]): void | Promise<void>
}
export interface NotificationHandler0 {
  (): void | Promise<void>
}
export interface NotificationHandler<P> {
  (params: P): void | Promise<void>
}
export interface NotificationHandler1<P1> {
  (p1: P1): void | Promise<void>
}
export interface NotificationHandler2<P1, P2> {
  (p1: P1, p2: P2): void | Promise<void>
}
export interface NotificationHandler3<P1, P2, P3> {
  (p1: P1, p2: P2, p3: P3): void | Promise<void>
}
export interface NotificationHandler4<P1, P2, P3, P4> {
  (p1: P1, p2: P2, p3: P3, p4: P4): void | Promise<void>
}
export interface NotificationHandler5<P1, P2, P3, P4, P5> {
  (p1: P1, p2: P2, p3: P3, p4: P4, p5: P5): void | Promise<void>
}
export interface NotificationHandler6<P1, P2, P3, P4, P5, P6> {
  (p1: P1, p2: P2, p3: P3, p4: P4, p5: P5, p6: P6): void | Promise<void>
}
export interface NotificationHandler7<P1, P2, P3, P4, P5, P6, P7> {
  (p1: P1, p2: P2, p3: P3, p4: P4, p5: P5, p6: P6, p7: P7): void | Promise<void>
}
export interface NotificationHandler8<P1, P2, P3, P4, P5, P6, P7, P8> {
  (p1: P1, p2: P2, p3: P3, p4: P4, p5: P5, p6: P6, p7: P7, p8: P8): void | Promise<void>
}
export interface NotificationHandler9<P1, P2, P3, P4, P5, P6, P7, P8, P9> {
  (p1: P1, p2: P2, p3: P3, p4: P4, p5: P5, p6: P6, p7: P7, p8: P8, p9: P9): void | Promise<void>
}

// Progress and trace

export type ProgressToken = number | string
export declare namespace ProgressToken {
  function is(value: any): value is number | string
}
export declare class ProgressType<PR> {
  readonly __?: [PR, _EM]
  readonly _pr?: PR
}
export interface ProgressParams<T> {
  token: ProgressToken
  value: T
}
export declare enum Trace {
  Off = 0,
  Messages = 1,
  Compact = 2,
  Verbose = 3
}
export declare namespace Trace {
  function fromString(value: string): Trace
  function toString(value: Trace): TraceValues
}
export type TraceValues = 'off' | 'messages' | 'compact' | 'verbose'
export declare namespace TraceValues {
  const Off: 'off'
  const Messages: 'messages'
  const Compact: 'compact'
  const Verbose: 'verbose'
}
export declare enum TraceFormat {
  Text = 'text',
  JSON = 'json'
}
export declare namespace TraceFormat {
  function fromString(value: string): TraceFormat
}
export interface TraceOptions {
  sendNotification?: boolean
  traceFormat?: TraceFormat
}
export interface SetTraceParams {
  value: TraceValues
}
export declare namespace SetTraceNotification {
  const type: NotificationType<SetTraceParams>
}
export interface LogTraceParams {
  message: string
  verbose?: string
}
export declare namespace LogTraceNotification {
  const type: NotificationType<LogTraceParams>
}
export interface Tracer {
  log(dataObject: any): void
  log(message: string, data?: string): void
}
export interface Logger {
  error(message: string): void
  warn(message: string): void
  info(message: string): void
  log(message: string): void
}
export declare const NullLogger: Logger

// Readers and writers

export interface DataCallback {
  (data: Message): void
}
export interface PartialMessageInfo {
  readonly messageToken: number
  readonly waitingTime: number
}
export interface MessageReader {
  readonly onError: Event<Error>
  readonly onClose: Event<void>
  readonly onPartialMessage?: Event<PartialMessageInfo>
  listen(callback: DataCallback): Disposable
  dispose(): void
}
export declare namespace MessageReader {
  function is(value: any): value is MessageReader
}
export declare abstract class AbstractMessageReader implements MessageReader {
  get onError(): Event<Error>
  get onClose(): Event<void>
  get onPartialMessage(): Event<PartialMessageInfo>
  protected fireError(error: any): void
  protected fireClose(): void
  abstract listen(callback: DataCallback): Disposable
  dispose(): void
}
export interface MessageReaderOptions {
  charset?: 'utf-8'
}
export declare class ReadableStreamMessageReader extends AbstractMessageReader {
  readonly stream: InputStream
  constructor(readable: InputStream, options?: 'utf-8' | MessageReaderOptions)
  listen(callback: DataCallback): Disposable
}
export declare class StreamMessageReader extends ReadableStreamMessageReader {}
export declare class SocketMessageReader extends ReadableStreamMessageReader {}
export declare class IPCMessageReader extends AbstractMessageReader {
  constructor(process: unknown)
  listen(callback: DataCallback): Disposable
}
export declare class PortMessageReader extends AbstractMessageReader {
  constructor(port: unknown)
  listen(callback: DataCallback): Disposable
}
/** An object like WebSocket: with send, close, and addEventListener or on. */
export interface WebSocketLike {
  send(text: string): unknown
  close(): unknown
  addEventListener?(name: any, listener: any): unknown
  on?(name: any, listener: any): unknown
}
export declare class WebSocketMessageReader extends AbstractMessageReader {
  constructor(socket: WebSocketLike)
  listen(callback: DataCallback): Disposable
}

export interface MessageWriter {
  readonly onError: Event<[Error, Message | undefined, number | undefined]>
  readonly onClose: Event<void>
  write(message: Message): Promise<void>
  end(): void
  dispose(): void
}
export declare namespace MessageWriter {
  function is(value: any): value is MessageWriter
}
export declare abstract class AbstractMessageWriter implements MessageWriter {
  get onError(): Event<[Error, Message | undefined, number | undefined]>
  get onClose(): Event<void>
  protected fireError(error: any, message?: Message, count?: number): void
  protected fireClose(): void
  abstract write(message: Message): Promise<void>
  end(): void
  dispose(): void
}
export interface MessageWriterOptions {
  charset?: 'utf-8'
}
export declare class WriteableStreamMessageWriter extends AbstractMessageWriter {
  readonly stream: OutputStream
  constructor(writable: OutputStream, options?: 'utf-8' | MessageWriterOptions)
  write(message: Message): Promise<void>
}
export declare class StreamMessageWriter extends WriteableStreamMessageWriter {}
export declare class SocketMessageWriter extends WriteableStreamMessageWriter {}
export declare class IPCMessageWriter extends AbstractMessageWriter {
  constructor(process: unknown)
  write(message: Message): Promise<void>
}
export declare class PortMessageWriter extends AbstractMessageWriter {
  constructor(port: unknown)
  write(message: Message): Promise<void>
}
export declare class WebSocketMessageWriter extends AbstractMessageWriter {
  constructor(socket: WebSocketLike)
  write(message: Message): Promise<void>
}

// Sockets and pipes

export declare function generateRandomPipeName(): string
export interface PipeTransport {
  onConnected(): Promise<[MessageReader, MessageWriter]>
}
export interface SocketTransport {
  onConnected(): Promise<[MessageReader, MessageWriter]>
  /** Beyond vscode-jsonrpc: where it waits, as for the port 0. */
  address: any
}
export declare function createClientPipeTransport(pipeName: string, encoding?: 'utf-8'): Promise<PipeTransport>
export declare function createServerPipeTransport(pipeName: string, encoding?: 'utf-8'): [MessageReader, MessageWriter]
export declare function createClientSocketTransport(port: number, encoding?: 'utf-8'): Promise<SocketTransport>
export declare function createServerSocketTransport(port: number, encoding?: 'utf-8'): [MessageReader, MessageWriter]

// The connection

export interface ConnectionStrategy {
  cancelUndispatched?: (
    message: RequestMessage, next: (message: RequestMessage) => ResponseMessage | undefined
  ) => ResponseMessage | undefined
}
export declare namespace ConnectionStrategy {
  function is(value: any): value is ConnectionStrategy
}
export interface MessageStrategy {
  handleMessage(message: Message, next: (message: Message) => void): void
}
export declare namespace MessageStrategy {
  function is(value: any): value is MessageStrategy
}
export interface ConnectionOptions {
  cancellationStrategy?: CancellationStrategy
  connectionStrategy?: ConnectionStrategy
  messageStrategy?: MessageStrategy
  // Beyond vscode-jsonrpc
  /** How messages are framed and cancels are named; 'lsp' where it is absent. */
  protocol?: 'lsp' | 'mcp'
  /** In place of the protocol's: behind a head with its Content-Length, or one content a line. */
  framing?: 'frames' | 'lines'
  order?: 'as-answered' | 'as-came'
  /** How many bytes a content may have, at most 2,147,483,647; 16,777,216 where it is absent. */
  content?: number
  /** How many calls may come. */
  calls?: number
  /** Over so many bytes that wait to be written the input is paused; 16,777,216 where it is absent. */
  pauseOver?: number
  /** After so many milliseconds in which no output was taken onError tells; 30,000 where it is absent, 0 for never. */
  stalled?: number
  /** Where a line for each message goes, as inspectors of LSP read them: a file's name, a stream or a function. */
  trace?: string | OutputStream | ((line: string) => void)
}
export declare namespace ConnectionOptions {
  function is(value: any): value is ConnectionOptions
}

/** A content that can't be read, or in which something is neither a call nor a reply. It is answered already. */
export interface Broken {
  /** Of its first byte, counted from the first one of the input. */
  offset: number
  /** Its first bytes, at most 64. */
  first: Uint8Array
  what: 'Unreadable' | 'Invalid'
  /** The index of the first invalid entry of a batch; 0 where there is no batch. */
  entry: number
  /** How many entries are invalid; 0 where nothing can be read. */
  entries: number
}
/** Why a connection ended. */
export interface Ended {
  /** What was wrong, where, and what to do; absent where nothing was. */
  text?: string
  how:
    | 'Clean' | 'BadHead' | 'BadLength' | 'TwoLengths' | 'TooLarge' | 'NoLength' | 'HeadTooLong' | 'Truncated' | 'Read'
    | 'Full' | 'OutputClosed' | 'Stopped' | 'Disposed'
  error?: Error
  /** Where the frame or line at fault begins, counted from the first byte of the input. */
  offset?: number
}
export interface Counts {
  calls: number
  requests: number
  open: number
  waiting: number
  ownCalls: number
  answersWritten: number
  unreadable: number
  invalid: number
  ignored: number
}
/** A call of a batch: its type or method, and its arguments. */
export type BatchCall = readonly [type: MessageSignature | string, ...params: any[]]

export interface MessageConnection {
  sendRequest<R, E>(type: RequestType0<R, E>, token?: CancellationToken): Promise<R>
  sendRequest<P, R, E>(type: RequestType<P, R, E>, params: P, token?: CancellationToken): Promise<R>
  sendRequest<P1, R, E>(type: RequestType1<P1, R, E>, p1: P1, token?: CancellationToken): Promise<R>
  sendRequest<P1, P2, R, E>(type: RequestType2<P1, P2, R, E>, p1: P1, p2: P2, token?: CancellationToken): Promise<R>
  sendRequest<P1, P2, P3, R, E>(type: RequestType3<P1, P2, P3, R, E>, p1: P1, p2: P2, p3: P3, token?: CancellationToken): Promise<R>
  sendRequest<P1, P2, P3, P4, R, E>(type: RequestType4<P1, P2, P3, P4, R, E>, p1: P1, p2: P2, p3: P3, p4: P4, token?: CancellationToken): Promise<R>
  sendRequest<P1, P2, P3, P4, P5, R, E>(type: RequestType5<P1, P2, P3, P4, P5, R, E>, p1: P1, p2: P2, p3: P3, p4: P4, p5: P5, token?: CancellationToken): Promise<R>
  sendRequest<P1, P2, P3, P4, P5, P6, R, E>(type: RequestType6<P1, P2, P3, P4, P5, P6, R, E>, p1: P1, p2: P2, p3: P3, p4: P4, p5: P5, p6: P6, token?: CancellationToken): Promise<R>
  sendRequest<P1, P2, P3, P4, P5, P6, P7, R, E>(type: RequestType7<P1, P2, P3, P4, P5, P6, P7, R, E>, p1: P1, p2: P2, p3: P3, p4: P4, p5: P5, p6: P6, p7: P7, token?: CancellationToken): Promise<R>
  sendRequest<P1, P2, P3, P4, P5, P6, P7, P8, R, E>(type: RequestType8<P1, P2, P3, P4, P5, P6, P7, P8, R, E>, p1: P1, p2: P2, p3: P3, p4: P4, p5: P5, p6: P6, p7: P7, p8: P8, token?: CancellationToken): Promise<R>
  sendRequest<P1, P2, P3, P4, P5, P6, P7, P8, P9, R, E>(type: RequestType9<P1, P2, P3, P4, P5, P6, P7, P8, P9, R, E>, p1: P1, p2: P2, p3: P3, p4: P4, p5: P5, p6: P6, p7: P7, p8: P8, p9: P9, token?: CancellationToken): Promise<R>
  sendRequest<R>(method: string, r0?: ParameterStructures | any, ...rest: any[]): Promise<R>
  onRequest<R, E>(type: RequestType0<R, E>, handler: RequestHandler0<R, E>): Disposable
  onRequest<P, R, E>(type: RequestType<P, R, E>, handler: RequestHandler<P, R, E>): Disposable
  onRequest<P1, R, E>(type: RequestType1<P1, R, E>, handler: RequestHandler1<P1, R, E>): Disposable
  onRequest<P1, P2, R, E>(type: RequestType2<P1, P2, R, E>, handler: RequestHandler2<P1, P2, R, E>): Disposable
  onRequest<P1, P2, P3, R, E>(type: RequestType3<P1, P2, P3, R, E>, handler: RequestHandler3<P1, P2, P3, R, E>): Disposable
  onRequest<P1, P2, P3, P4, R, E>(type: RequestType4<P1, P2, P3, P4, R, E>, handler: RequestHandler4<P1, P2, P3, P4, R, E>): Disposable
  onRequest<P1, P2, P3, P4, P5, R, E>(type: RequestType5<P1, P2, P3, P4, P5, R, E>, handler: RequestHandler5<P1, P2, P3, P4, P5, R, E>): Disposable
  onRequest<P1, P2, P3, P4, P5, P6, R, E>(type: RequestType6<P1, P2, P3, P4, P5, P6, R, E>, handler: RequestHandler6<P1, P2, P3, P4, P5, P6, R, E>): Disposable
  onRequest<P1, P2, P3, P4, P5, P6, P7, R, E>(type: RequestType7<P1, P2, P3, P4, P5, P6, P7, R, E>, handler: RequestHandler7<P1, P2, P3, P4, P5, P6, P7, R, E>): Disposable
  onRequest<P1, P2, P3, P4, P5, P6, P7, P8, R, E>(type: RequestType8<P1, P2, P3, P4, P5, P6, P7, P8, R, E>, handler: RequestHandler8<P1, P2, P3, P4, P5, P6, P7, P8, R, E>): Disposable
  onRequest<P1, P2, P3, P4, P5, P6, P7, P8, P9, R, E>(type: RequestType9<P1, P2, P3, P4, P5, P6, P7, P8, P9, R, E>, handler: RequestHandler9<P1, P2, P3, P4, P5, P6, P7, P8, P9, R, E>): Disposable
  onRequest<R, E>(method: string, handler: GenericRequestHandler<R, E>): Disposable
  onRequest(handler: StarRequestHandler): Disposable
  hasPendingResponse(): boolean
  sendNotification(type: NotificationType0): Promise<void>
  sendNotification<P>(type: NotificationType<P>, params?: P): Promise<void>
  sendNotification<P1>(type: NotificationType1<P1>, p1: P1): Promise<void>
  sendNotification<P1, P2>(type: NotificationType2<P1, P2>, p1: P1, p2: P2): Promise<void>
  sendNotification<P1, P2, P3>(type: NotificationType3<P1, P2, P3>, p1: P1, p2: P2, p3: P3): Promise<void>
  sendNotification<P1, P2, P3, P4>(type: NotificationType4<P1, P2, P3, P4>, p1: P1, p2: P2, p3: P3, p4: P4): Promise<void>
  sendNotification<P1, P2, P3, P4, P5>(type: NotificationType5<P1, P2, P3, P4, P5>, p1: P1, p2: P2, p3: P3, p4: P4, p5: P5): Promise<void>
  sendNotification<P1, P2, P3, P4, P5, P6>(type: NotificationType6<P1, P2, P3, P4, P5, P6>, p1: P1, p2: P2, p3: P3, p4: P4, p5: P5, p6: P6): Promise<void>
  sendNotification<P1, P2, P3, P4, P5, P6, P7>(type: NotificationType7<P1, P2, P3, P4, P5, P6, P7>, p1: P1, p2: P2, p3: P3, p4: P4, p5: P5, p6: P6, p7: P7): Promise<void>
  sendNotification<P1, P2, P3, P4, P5, P6, P7, P8>(type: NotificationType8<P1, P2, P3, P4, P5, P6, P7, P8>, p1: P1, p2: P2, p3: P3, p4: P4, p5: P5, p6: P6, p7: P7, p8: P8): Promise<void>
  sendNotification<P1, P2, P3, P4, P5, P6, P7, P8, P9>(type: NotificationType9<P1, P2, P3, P4, P5, P6, P7, P8, P9>, p1: P1, p2: P2, p3: P3, p4: P4, p5: P5, p6: P6, p7: P7, p8: P8, p9: P9): Promise<void>
  sendNotification(method: string, r0?: ParameterStructures | any, ...rest: any[]): Promise<void>
  onNotification(type: NotificationType0, handler: NotificationHandler0): Disposable
  onNotification<P>(type: NotificationType<P>, handler: NotificationHandler<P>): Disposable
  onNotification<P1>(type: NotificationType1<P1>, handler: NotificationHandler1<P1>): Disposable
  onNotification<P1, P2>(type: NotificationType2<P1, P2>, handler: NotificationHandler2<P1, P2>): Disposable
  onNotification<P1, P2, P3>(type: NotificationType3<P1, P2, P3>, handler: NotificationHandler3<P1, P2, P3>): Disposable
  onNotification<P1, P2, P3, P4>(type: NotificationType4<P1, P2, P3, P4>, handler: NotificationHandler4<P1, P2, P3, P4>): Disposable
  onNotification<P1, P2, P3, P4, P5>(type: NotificationType5<P1, P2, P3, P4, P5>, handler: NotificationHandler5<P1, P2, P3, P4, P5>): Disposable
  onNotification<P1, P2, P3, P4, P5, P6>(type: NotificationType6<P1, P2, P3, P4, P5, P6>, handler: NotificationHandler6<P1, P2, P3, P4, P5, P6>): Disposable
  onNotification<P1, P2, P3, P4, P5, P6, P7>(type: NotificationType7<P1, P2, P3, P4, P5, P6, P7>, handler: NotificationHandler7<P1, P2, P3, P4, P5, P6, P7>): Disposable
  onNotification<P1, P2, P3, P4, P5, P6, P7, P8>(type: NotificationType8<P1, P2, P3, P4, P5, P6, P7, P8>, handler: NotificationHandler8<P1, P2, P3, P4, P5, P6, P7, P8>): Disposable
  onNotification<P1, P2, P3, P4, P5, P6, P7, P8, P9>(type: NotificationType9<P1, P2, P3, P4, P5, P6, P7, P8, P9>, handler: NotificationHandler9<P1, P2, P3, P4, P5, P6, P7, P8, P9>): Disposable
  onNotification(method: string, handler: GenericNotificationHandler): Disposable
  onNotification(handler: StarNotificationHandler): Disposable
  readonly onUnhandledNotification: Event<NotificationMessage>
  onProgress<P>(type: ProgressType<P>, token: ProgressToken, handler: NotificationHandler<P>): Disposable
  sendProgress<P>(type: ProgressType<P>, token: ProgressToken, value: P): Promise<void>
  readonly onUnhandledProgress: Event<ProgressParams<any>>
  trace(value: Trace, tracer: Tracer, sendNotification?: boolean): Promise<void>
  trace(value: Trace, tracer: Tracer, traceOptions?: TraceOptions): Promise<void>
  readonly onError: Event<[Error, Message | undefined, number | undefined]>
  /** (in vscode-jsonrpc it is fired without a value) */
  readonly onClose: Event<Ended>
  readonly onDispose: Event<void>
  listen(): void
  end(): void
  inspect(): void
  dispose(): void

  // Beyond vscode-jsonrpc
  /** Tells of each message that can't be read, or in which something is neither a call nor a reply. */
  readonly onBroken: Event<Broken>
  /** Calls several times in one message. It rejects with the first error, or, `settled`, tells of each call. */
  sendBatch(calls: Iterable<BatchCall>): Promise<any[]>
  sendBatch(calls: Iterable<BatchCall>, options: { settled: true }): Promise<PromiseSettledResult<any>[]>
  /** Settled once all that was said so far is out. */
  drained(): Promise<void>
  /** How many requests' handlers go on, and calls wait for theirs to begin. */
  readonly open: number
  /** Settled once none are. */
  settled(): Promise<void>
  /** How many bytes wait to be written, beyond those that the stream has. */
  readonly pending: number
  /** The input is over for us. The status is that of the process, where `run` runs it. */
  stop(status?: number): void
  /** Answers as cancelled the requests whose handlers still go on, and gives their methods. */
  cancelOpen(): string[]
  /** Why it ended, once it has. */
  readonly reason: Ended | undefined
  counts(): Counts
}
export declare function createMessageConnection(
  input: MessageReader | InputStream, output: MessageWriter | OutputStream, logger?: Logger,
  options?: ConnectionStrategy | ConnectionOptions
): MessageConnection

/** Listens, and ends the process once the input is over, every handler done or out of its grace, and all is written. */
export declare function run(connection: MessageConnection, options?: { grace?: number }): void

// The lower floor

/** A JSON text. */
export type Json = string | Uint8Array
export type ConnectionEvent =
  | { kind: 'call'; number: number; method: string; params?: string; id?: string; isRequest: boolean }
  | { kind: 'cancelled'; number: number }
  | { kind: 'replied'; key: number; result: string }
  | { kind: 'failed'; key: number; code: number | bigint; message: string; data?: string }
  | { kind: 'unanswered'; key: number }
  | ({ kind: 'broken' } & Broken)
  | { kind: 'over'; how: Exclude<Ended['how'], 'OutputClosed' | 'Stopped' | 'Disposed'> }
export declare class Refused extends Error {
  readonly code:
    | 'NoMemory' | 'NotOpen' | 'NotWaiting' | 'InputOver' | 'NotJson' | 'NotText' | 'BadSettings' | 'Empty' | 'Full'
}
export interface ConnectionSettings {
  framing?: 'frames' | 'lines' | 'contents'
  order?: 'as-answered' | 'as-came'
  /** Whose: `$/cancelRequest`, `notifications/cancelled`, or none; 'lsp' where it is absent. */
  cancels?: 'lsp' | 'mcp' | boolean | null
  /** How many bytes a content may have, at most 2,147,483,647; 16,777,216 where it is absent. */
  content?: number
  calls?: number | bigint
  /** Whether invalid messages are reported. */
  broken?: boolean
  /** How many entries a batch may have: 100,000 where it is absent, and 4,294,967,295 or more is any number. */
  entries?: number | bigint
  /** Whether params that are null are reported as the text null; else they are absent. */
  nullParams?: boolean
}
export declare class Connection {
  constructor(settings?: ConnectionSettings)
  feed(bytes: Uint8Array): void
  end(isFailed?: boolean): void
  /** `feed` and then `events`, in one crossing. */
  fed(bytes: Uint8Array): ConnectionEvent[]
  events(): ConnectionEvent[]
  nextEvent(): ConnectionEvent | undefined
  call(number: number | bigint, method: string | Uint8Array, params?: Json): number
  callBatch(number: number | bigint, calls: Iterable<readonly [method: string | Uint8Array, params?: Json]>): number
  notify(method: string | Uint8Array, params?: Json): void
  withdraw(key: number | bigint): void
  answer(number: number | bigint, result?: Json): void
  fail(number: number | bigint, code: number | bigint, message?: string | Uint8Array, data?: Json): void
  cancel(number: number | bigint): void
  readonly pending: number
  /** For how many bytes its buffers have room: small once all is taken, whatever was written before. Contents that wait
   * aren't counted. */
  readonly held: number
  take(most?: number): Uint8Array
  readonly isDone: boolean
  /** Where the frame or line at fault begins, counted from the first byte that was fed. */
  readonly faultOffset: number | undefined
  counts(): Counts
  close(): void
}
