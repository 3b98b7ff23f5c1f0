// Tool servers and their hosts, as the Model Context Protocol has them, with the names of its TypeScript SDK.

import type { ConnectionOptions, Ended, InputStream, Logger, MessageReader, MessageWriter, OutputStream } from './index.js'
import { ResponseError } from './index.js'
import type * as model from './mcp_model.js'

export * from './mcp_model.js'

type JsonObject = model.JsonObject
type Awaitable<T> = T | PromiseLike<T>

// Schemas

/** What a validator has that zod, valibot and arktype have in common (https://standardschema.dev). */
export interface StandardSchema<Input = unknown, Output = Input> {
  readonly '~standard': {
    readonly version: 1
    readonly vendor: string
    readonly validate: (value: unknown, ...more: any[]) => Awaitable<StandardResult<Output>>
    readonly types?: { readonly input: Input; readonly output: Output } | undefined
  }
}
export type StandardResult<Output> =
  | { readonly value: Output; readonly issues?: undefined }
  | { readonly issues: ReadonlyArray<{ readonly message: string; readonly path?: ReadonlyArray<any> | undefined }> }
/** Validators, by the names of members. */
export interface Shape {
  readonly [name: string]: StandardSchema<any, any>
}
/** A JSON Schema (2020-12), whose `type` is "object". */
export type JsonSchema = JsonObject & { readonly type: 'object' }
export type AnySchema = StandardSchema<any, any> | Shape | JsonSchema

type OutputOf<S> = S extends { readonly '~standard': { readonly types?: infer T } }
  ? NonNullable<T> extends { readonly output: infer O } ? O : any : never
type Optional<S> = { [K in keyof S]: undefined extends OutputOf<S[K]> ? K : never }[keyof S]
/** What a function gets for a schema: what the validator makes of the arguments. */
export type Validated<S> = S extends StandardSchema<any, any> ? OutputOf<S>
  : S extends JsonSchema ? JsonObject
    : S extends Shape ? { [K in Exclude<keyof S, Optional<S>>]: OutputOf<S[K]> } & { [K in Optional<S>]?: OutputOf<S[K]> }
      : JsonObject

/** A validator, or a member of a JSON Schema, of an argument that a function completes. */
export declare function completable<S extends object>(schema: S, complete: Completion): S
export interface Completion {
  (value: string, context: { arguments: { [name: string]: string } }): Awaitable<Iterable<string> | null | undefined>
}

// What tools, resources and prompts give

/** A part of a result, as `image` and the like make it. */
export declare class Part<P extends model.ContentBlock = model.ContentBlock> {
  readonly type: P['type']
  private readonly of
}
export declare function text(words: string): Part<model.TextContent> & model.TextContent
export declare function image(data: Uint8Array | string, mimeType: string): Part<model.ImageContent> & model.ImageContent
export declare function audio(data: Uint8Array | string, mimeType: string): Part<model.AudioContent> & model.AudioContent
export declare function resourceLink(
  link: Omit<model.ResourceLink, 'type'>
): Part<model.ResourceLink> & model.ResourceLink
export declare function embeddedResource(
  uri: string, contents: unknown, mimeType?: string
): Part<model.EmbeddedResource> & model.EmbeddedResource

/** A result as the protocol has it, or a value that becomes one: a text, parts, or what has JSON. */
export type ToolValue = model.CallToolResult | Part | string | number | boolean | null | undefined | void | object
export type PromptValue =
  | string | Part | model.PromptMessage | model.GetPromptResult
  | ReadonlyArray<string | Part | { role: model.Role; content: string | Part | model.ContentBlock }>
export type ResourceValue = model.ReadResourceResult | Uint8Array | string | number | boolean | null | object

// Servers

export interface ServerInfo extends Omit<model.Implementation, 'version'> {
  version?: string
}
export interface ServerOptions extends Omit<ConnectionOptions, 'protocol' | 'framing' | 'messageStrategy'> {
  /** What the host may tell its model of the server. */
  instructions?: string
  /** The versions of the protocol that may be agreed on, the preferred one first. */
  versions?: readonly string[]
  /** How many tools, resources or prompts a page of a list has; all where it is absent. */
  pageSize?: number
  /** Capabilities beside those of what is registered. */
  capabilities?: model.ServerCapabilities
  /** For how many milliseconds at most a task and its result are kept; 3,600,000 where it is absent. */
  taskTtl?: number
  /** Where errors go that no host should see, as those of a tool's own code; the console where it is absent. */
  logger?: Pick<Logger, 'error'>
  /** So many milliseconds what goes on has to end once the input is over; 5000 where it is absent. */
  grace?: number
}

interface About {
  title?: string
  description?: string
  icons?: model.Icon[]
  _meta?: JsonObject
}
export interface ToolConfig<I, O> extends About {
  inputSchema?: I
  /** What the host is told of a validator that says no JSON Schema of itself. */
  inputSchemaJson?: JsonSchema
  outputSchema?: O
  outputSchemaJson?: JsonSchema
  annotations?: model.ToolAnnotations
  /** Whether hosts may call it as a task; they may not where it is absent. */
  execution?: model.ToolExecution
  /** So many milliseconds a call may take; then its result is an error, and its signal is aborted. */
  timeout?: number
}
export interface ResourceConfig extends About {
  mimeType?: string
  annotations?: model.Annotations
  size?: number
}
export interface PromptConfig<A> extends About {
  argsSchema?: A
  argsSchemaJson?: JsonSchema
}
/** What changes or takes away something that is registered. */
export interface Registered<Config> {
  readonly enabled: boolean
  enable(): void
  /** Hosts see it no more, until it is enabled again. */
  disable(): void
  update(changes: Partial<Config> & { callback?: (...args: any[]) => unknown }): void
  remove(): void
}

/** The URI of a resource with parts, `{name}` or `{+path}`, and what completes these. */
export declare class ResourceTemplate {
  readonly uriTemplate: string
  constructor(uriTemplate: string, options?: { list?: undefined; complete?: { [part: string]: Completion } })
}

export interface SamplingQuestion extends Omit<model.CreateMessageRequestParams, 'messages' | 'maxTokens' | 'tools' | 'toolChoice'> {
  /** A text of the user's, or messages. */
  messages: string | ReadonlyArray<string | model.SamplingMessage>
  maxTokens?: number
  /** Names of this server's tools, or descriptions, that the model may ask for. */
  tools?: ReadonlyArray<string | model.Tool>
  toolChoice?: model.ToolChoiceMode | model.ToolChoice
}
export type ElicitQuestion =
  | { mode?: 'form'; message: string; requestedSchema: JsonSchema }
  | { mode: 'url'; message: string; url: string; elicitationId?: string }
export interface Elicited {
  action: model.ElicitAction
  content?: { [name: string]: string | number | boolean | string[] } | undefined
}

/** One request, as the last argument of the function that answers it. */
export declare class Extra {
  private constructor()
  /** Aborted once the host has cancelled the request, or its time is over. */
  readonly signal: AbortSignal
  readonly isCancelled: boolean
  readonly requestId: model.RequestId
  readonly _meta: JsonObject
  readonly protocolVersion: string
  /** Who calls over HTTP, as the check of tokens gave it, and the id of the session there. */
  readonly user: any
  readonly sessionId: string | undefined
  /** The id of the task that it runs as; undefined if it isn't one. */
  readonly taskId: string | undefined
  /** A capability of the host's, as 'sampling' or 'roots.listChanged'; undefined if it has none. */
  clientHas(path: string): any
  /** Tells how far it is, if the host asked for that. */
  reportProgress(progress: number, total?: number, message?: string): void
  log(level: model.LoggingLevel, data: unknown, logger?: string): void
  sendNotification(notification: { method: string; params?: object }): Promise<void>
  sendRequest<R = any>(request: { method: string; params?: object }): Promise<R>
  /** Asks the host's model. */
  createMessage(question: SamplingQuestion): Promise<model.CreateMessageResult>
  /** Asks the host's user. */
  elicitInput(question: ElicitQuestion): Promise<Elicited>
  listRoots(): Promise<model.Root[]>
  readResource(resource: { uri: string }): Promise<model.ResourceContents[]>
}

/** A tool server, for hosts as the Model Context Protocol has them. */
export declare class ToolServer {
  constructor(about: ServerInfo, options?: ServerOptions)
  registerTool<I extends AnySchema, O extends AnySchema | undefined = undefined>(
    name: string, config: ToolConfig<I, O> & { inputSchema: I },
    callback: (args: Validated<I>, extra: Extra) => Awaitable<ToolValue>
  ): Registered<ToolConfig<I, O>>
  registerTool<O extends AnySchema | undefined = undefined>(
    name: string, config: ToolConfig<undefined, O>, callback: (extra: Extra) => Awaitable<ToolValue>
  ): Registered<ToolConfig<AnySchema, O>>
  registerResource(
    name: string, uri: string, config: ResourceConfig, callback: (uri: URL, extra: Extra) => Awaitable<ResourceValue>
  ): Registered<ResourceConfig>
  registerResource(
    name: string, template: ResourceTemplate | string, config: ResourceConfig,
    callback: (uri: URL, parts: { [name: string]: string }, extra: Extra) => Awaitable<ResourceValue>
  ): Registered<ResourceConfig>
  registerPrompt<A extends AnySchema>(
    name: string, config: PromptConfig<A> & { argsSchema: A },
    callback: (args: Validated<A>, extra: Extra) => Awaitable<PromptValue>
  ): Registered<PromptConfig<A>>
  registerPrompt(
    name: string, config: PromptConfig<undefined>, callback: (extra: Extra) => Awaitable<PromptValue>
  ): Registered<PromptConfig<AnySchema>>
  /** Answers a host over a transport. A server may have several at once. */
  connect(transport: Transport): Promise<void>
  /** Answers on the standard streams, and ends the process when they are closed. */
  run(): void
  /** A handler of requests over HTTP, as node:http, connect and express take it. */
  http(options?: HttpOptions): HttpHandler
  /** Serves over HTTP at the path /mcp of a port, on this machine alone if no other `host` is given. */
  runHttp(port: number, options?: HttpOptions & { host?: string }): Promise<{ url: string; close(): Promise<void> }>
  /** Ends all sessions: what was asked before is answered, if it is done in time. */
  close(): Promise<void>
  isConnected(): boolean
  sendToolListChanged(): void
  sendResourceListChanged(): void
  sendPromptListChanged(): void
  /** Tells the hosts that have subscribed to a resource that it has changed. */
  sendResourceUpdated(resource: { uri: string }): void
  sendLoggingMessage(message: { level: model.LoggingLevel; logger?: string; data: unknown }): void
  /** Tells the host whose user was asked to open a page that this is done. */
  sendElicitationComplete(page: { elicitationId: string }): void
  /** Sends all hosts a notification. */
  sendNotification(notification: { method: string; params?: object }): void
  /** Answers a method of the program's own. */
  setRequestHandler(
    method: string, handler: (request: { method: string; params: any }, extra: Extra) => unknown
  ): void
  setNotificationHandler(method: string, handler: (notification: { method: string; params: any }) => unknown): void
}

// Over HTTP

/** Keeps the events of one session, so that a stream that broke can go on. */
export interface EventStore {
  /** Keeps a message. The numbers of a stream follow one another. */
  add(stream: string, number: number, message: string): void
  /** The messages of a stream after this number; undefined if one of them isn't kept, or nothing of the stream is. */
  after(stream: string, number: number): Array<[number, string]> | undefined
}
/** Events in memory: the newest 500, and 1 MiB of them, where nothing else is said. */
export declare class MemoryEvents implements EventStore {
  constructor(most?: number, mostBytes?: number)
  add(stream: string, number: number, message: string): void
  after(stream: string, number: number): Array<[number, string]> | undefined
}
/** A check of tokens; `check` gives who has one, or nothing if it isn't good, and throws a NotEnough if it lacks a scope. */
export declare class Bearer {
  constructor(
    check: (token: string) => unknown, resource: string, authorizationServers?: readonly string[],
    options?: { scopes?: readonly string[]; metadata?: string }
  )
  /** What clients are told of where tokens come from, as JSON (RFC 9728). */
  readonly metadata: string
}
export declare class NotEnough extends Error {
  constructor(scope: string)
  readonly scope: string
}
/** Times are milliseconds. */
export interface HttpOptions {
  /** Whether nothing is kept from one POST to the next. */
  stateless?: boolean
  /** How a POST is answered: by JSON if the answer is there at once and else by a stream ('auto'), or always by one. */
  answers?: 'auto' | 'json' | 'stream'
  /** The path; every path where it is absent. */
  path?: string
  /** Which pages may call, as 'https://example.com'; those of this machine where it is absent. */
  origins?: readonly string[]
  /** By which names the server may be called, without a port; any where it is absent. */
  hosts?: readonly string[]
  bearer?: Bearer
  events?: () => EventStore
  /** After how long a stream's client is to ask again, and how long it waits before. */
  poll?: number
  retry?: number
  /** The bytes of a body, and how long it may take. */
  body?: number
  bodyTimeout?: number
  /** How many sessions there may be, and how long one may be unused. */
  sessions?: number
  sessionTimeout?: number
  /** How many requests over HTTP there may be at once, and of one session. */
  streams?: number
  sessionStreams?: number
  /** How many bytes of a stream a client may leave unread, and how long it may read nothing. */
  unread?: number
  unreadTimeout?: number
  /** After how long without an event a stream has a comment. */
  ping?: number
}
/** What is used of a request of node:http, and of its response. */
export interface HttpRequest {
  method?: string
  url?: string
  rawHeaders: string[]
  on(event: string, listener: (...given: any[]) => void): unknown
}
export interface HttpResponse {
  writeHead(status: number, headers?: any): unknown
  write(data: any): boolean
  end(data?: any): unknown
  on(event: string, listener: (...given: any[]) => void): unknown
}
export interface HttpHandler {
  (request: HttpRequest, response: HttpResponse): Promise<void>
  /** Ends all sessions, and waits for what they still do, for as long as their grace is. */
  close(): Promise<void>
  /** How many sessions there are. */
  readonly sessions: number
}
export interface HttpClientOptions {
  /** What each request has besides, such as Authorization; or a function that gives it, for each request. */
  headers?: { [name: string]: string } | (() => Awaitable<{ [name: string]: string }>)
  /** Makes the requests in place of the global fetch. */
  fetch?: (url: URL, init: any) => Promise<Response>
}
/** A tool server at a URL. */
export declare class StreamableHTTPClientTransport implements Transport {
  constructor(url: string | URL, options?: HttpClientOptions)
  readonly input: MessageReader
  readonly output: MessageWriter
  /** The id that the server gave the session; an empty text if none. */
  readonly sessionId: string
  close(): Promise<void>
}

// Hosts

export interface ClientOptions extends Omit<ConnectionOptions, 'protocol' | 'framing' | 'messageStrategy'> {
  /** The versions of the protocol that may be agreed on; the first one is asked for. */
  versions?: readonly string[]
  /** Answers the server's questions to the model, by a text or a message; by nothing if the user rejects it. */
  sampling?: (params: model.CreateMessageRequestParams) => Awaitable<string | model.CreateMessageResult | null | undefined>
  /** Whether it knows the tools that a question may have; one with tools is refused else. */
  samplingTools?: boolean
  /** Answers its questions to the user, by the values; by nothing if the user declines. */
  elicitation?: (message: string, schema: JsonObject | undefined) => Awaitable<JsonObject | null | undefined>
  /** Asks the user to open a page: whether the user agrees. */
  page?: (message: string, url: string) => Awaitable<boolean | { action: model.ElicitAction } | null | undefined>
  /** Gets the id of such a question when the server says that it is done. */
  pageDone?: (elicitationId: string) => unknown
  /** The URIs of the folders that the server may work in, or a function that gives them. */
  roots?: ReadonlyArray<string | model.Root> | (() => Awaitable<ReadonlyArray<string | model.Root>>)
  /** Gets the server's log messages. */
  log?: (message: model.LoggingMessageNotificationParams) => unknown
  logger?: Logger
}
export interface RequestOptions {
  /** Cancels the request. */
  signal?: AbortSignal
}
export interface CallOptions extends RequestOptions {
  onprogress?: (progress: { progress: number; total?: number; message?: string }) => unknown
}

/** A host's side: it starts a tool server, calls its tools, and answers what it asks. */
export declare class ToolClient {
  constructor(about: ServerInfo, options?: ClientOptions)
  readonly protocolVersion: string | undefined
  onclose: ((reason: Ended) => unknown) | undefined
  onerror: ((error: Error) => unknown) | undefined
  /** Starts a session. Rejects with an UnknownVersion if the server wants a version that isn't known here. */
  connect(transport: Transport): Promise<void>
  /** Ends the session, and the server that the transport started. */
  close(): Promise<void>
  getServerCapabilities(): model.ServerCapabilities | undefined
  getServerVersion(): model.Implementation | undefined
  getInstructions(): string | undefined
  request<R = any>(request: { method: string; params?: object }, options?: RequestOptions): Promise<R>
  /** All tools, of all pages; so are the other lists. */
  listTools(options?: RequestOptions): Promise<{ tools: model.Tool[] }>
  listResources(options?: RequestOptions): Promise<{ resources: model.Resource[] }>
  listResourceTemplates(options?: RequestOptions): Promise<{ resourceTemplates: model.ResourceTemplate[] }>
  listPrompts(options?: RequestOptions): Promise<{ prompts: model.Prompt[] }>
  /** Calls a tool as a task: the server answers at once (2025-11-25, experimental). */
  callTool(
    call: { name: string; arguments?: JsonObject }, options: CallOptions & { task: model.TaskMetadata }
  ): Promise<model.CreateTaskResult>
  callTool(call: { name: string; arguments?: JsonObject }, options?: CallOptions): Promise<model.CallToolResult>
  getTask(taskId: string, options?: RequestOptions): Promise<model.TaskResult>
  /** Waits for what the tool of a task gives. Rejects with the error of one that was cancelled. */
  getTaskResult(taskId: string, options?: RequestOptions): Promise<model.CallToolResult>
  listTasks(options?: RequestOptions): Promise<{ tasks: model.Task[] }>
  /** Cancels a task. Rejects if it is over. */
  cancelTask(taskId: string, options?: RequestOptions): Promise<model.TaskResult>
  readResource(resource: { uri: string }, options?: RequestOptions): Promise<model.ReadResourceResult>
  subscribeResource(resource: { uri: string }, options?: RequestOptions): Promise<model.Result>
  unsubscribeResource(resource: { uri: string }, options?: RequestOptions): Promise<model.Result>
  getPrompt(
    prompt: { name: string; arguments?: { [name: string]: string } }, options?: RequestOptions
  ): Promise<model.GetPromptResult>
  complete(
    what: Omit<model.CompleteRequestParams, '_meta'>, options?: RequestOptions
  ): Promise<model.CompleteResult>
  setLoggingLevel(level: model.LoggingLevel, options?: RequestOptions): Promise<model.Result>
  ping(options?: RequestOptions): Promise<model.Result>
  sendNotification(notification: { method: string; params?: object }): Promise<void>
  /** Tells the server that the folders have changed, and which they are now. */
  sendRootsListChanged(roots?: ClientOptions['roots']): Promise<void>
  setNotificationHandler(method: string, handler: (notification: { method: string; params: any }) => unknown): void
}

/** The tools that a model asks for in its message. */
export declare function toolUses(message: { content: unknown }): model.ToolUseContent[]
/** What a tool gave that a model asked for, as a part of the next message. */
export declare function toolResult(
  use: { id: string }, value: unknown, options?: { isError?: boolean }
): model.ToolResultContent

// Transports

/** Where messages come from and go to: streams, whose lines they are, or readers and writers of messages. */
export interface Transport {
  readonly input: InputStream | MessageReader
  readonly output: OutputStream | MessageWriter
  start?(): Promise<void>
  close?(): Promise<void>
}
/** The standard streams of this process, which ends with its session; or others in their place, and then it doesn't. */
export declare class StdioServerTransport implements Transport {
  readonly input: InputStream
  readonly output: OutputStream
  constructor(input?: InputStream, output?: OutputStream)
}
/** A server that a command starts. */
export declare class StdioClientTransport implements Transport {
  constructor(server: {
    command: string; args?: readonly string[]; env?: { [name: string]: string | undefined }; cwd?: string
    stderr?: 'inherit' | 'ignore' | 'pipe' | number
    /** So many milliseconds it has to end when its input has ended, and again after SIGTERM; 2000 where it is absent. */
    grace?: number
  })
  readonly input: InputStream
  readonly output: OutputStream
  /** What the server writes to its standard error, if the option `stderr` is 'pipe'. */
  readonly stderr: InputStream | null
  readonly pid: number | null
  start(): Promise<void>
  close(): Promise<void>
}
/** A server and its client in one process. */
export declare class InMemoryTransport implements Transport {
  readonly input: InputStream
  readonly output: OutputStream
  private constructor()
  static createLinkedPair(): [InMemoryTransport, InMemoryTransport]
}

// Errors

export declare namespace ErrorCode {
  const ConnectionClosed: -32000
  const ParseError: -32700
  const InvalidRequest: -32600
  const MethodNotFound: -32601
  const InvalidParams: -32602
  const InternalError: -32603
  const ResourceNotFound: -32002
  const UrlElicitationRequired: -32042
}
export type ErrorCode = number
/** An error of the protocol: the same class as ResponseError. */
export { ResponseError as McpError } from './index.js'
/** What a tool throws that failed: its text is the tool's result, as an error of the tool's own, and isn't logged. */
export declare class ToolError extends Error {}
/** The other side answered a request with a result that isn't one of its method's. The text has the place. */
export declare class InvalidResult extends Error {}
/** The server wants to speak a version of the protocol that isn't known here. */
export declare class UnknownVersion extends Error {}
/** A tool throws it if it can't go on before the user has opened some pages. */
export declare class UrlElicitationRequired extends ResponseError<{ elicitations: model.ElicitRequestURLParams[] }> {
  constructor(pages: ReadonlyArray<Omit<model.ElicitRequestURLParams, 'mode'>>, message?: string)
}
/** The versions of the protocol that are known, the newest first. */
export declare const VERSIONS: readonly string[]
