// What tsc --strict takes, and what it has to refuse: a server as it is written to vscode-jsonrpc, and the lower floor.
import {
  CancellationTokenSource, Connection, ConnectionError, ConnectionErrors, createMessageConnection, Disposable, Emitter,
  ErrorCodes, Event, MessageConnection, MessageReader, MessageWriter, NotificationType, NotificationType0, NotificationType2,
  NullLogger, ParameterStructures, ProgressType, Refused, RequestType, RequestType0, RequestType2, ResponseError, run,
  StreamMessageReader, StreamMessageWriter, Trace, TraceFormat
} from 'bullmyrtle'
import { createMessageConnection as node } from 'bullmyrtle/node'
import { carry, joined } from 'bullmyrtle/testing'

interface Position {
  line: number
  character: number
}
declare const input: { on(event: string, listener: (...args: any[]) => void): unknown, off(event: string, listener: (...args: any[]) => void): unknown, pause(): unknown, resume(): unknown }
declare const output: typeof input & { once(event: string, listener: (...args: any[]) => void): unknown, write(bytes: any, done?: any): boolean, end(): unknown }

const Hover = new RequestType<{ position: Position }, { contents: string } | null, void>('textDocument/hover')
const Shutdown = new RequestType0<null, void>('shutdown')
const Sum = new RequestType2<number, number, number, string>('sum')
const Changed = new NotificationType<{ text: string }>('textDocument/didChange', ParameterStructures.byName)
const Exit = new NotificationType0('exit')
const Moved = new NotificationType2<number, string>('moved')

const reader: MessageReader = new StreamMessageReader(input)
const writer: MessageWriter = new StreamMessageWriter(output, 'utf-8')
const connection: MessageConnection = createMessageConnection(reader, writer, NullLogger, { protocol: 'lsp', pauseOver: 1 << 20 })
node(input, output, undefined, { cancelUndispatched: (message, next) => next(message) })

connection.onRequest(Hover, async (params, token) => {
  if (token.isCancellationRequested) return new ResponseError<void>(ErrorCodes.InvalidParams, 'no')
  const [label] = await connection.sendRequest<string[]>('workspace/configuration', { items: [] }, token)
  return { contents: label + params.position.line }
})
connection.onRequest(Shutdown, token => (token.isCancellationRequested ? null : null))
connection.onRequest(Sum, (one, other) => (one > 0 ? one + other : new ResponseError(1, 'no', 'data')))
connection.onRequest('any', (one: number, other: string) => one + other.length)
connection.onRequest((method, params, token) => [method, params, token.isCancellationRequested])
const registered: Disposable = connection.onNotification(Changed, params => { const text: string = params.text; void text })
connection.onNotification(Exit, () => connection.stop(0))
connection.onNotification(Moved, (line, why) => { const both: [number, string] = [line, why]; void both })
connection.onProgress(new ProgressType<{ kind: string }>(), 'token', value => { const kind: string = value.kind; void kind })
registered.dispose()

const source = new CancellationTokenSource()
const hover: Promise<{ contents: string } | null> = connection.sendRequest(Hover, { position: { line: 1, character: 2 } }, source.token)
const sum: Promise<number> = connection.sendRequest(Sum, 1, 2)
const done: Promise<null> = connection.sendRequest(Shutdown)
void [hover, sum, done, connection.sendNotification(Changed, { text: '' }), connection.sendNotification(Moved, 1, 'x')]
void connection.sendBatch([[Hover, { position: { line: 0, character: 0 } }], ['any', 1, 'x']]).then(all => all.length)
void connection.sendBatch([['any']], { settled: true }).then(all => all.map(it => it.status))
void connection.trace(Trace.Verbose, { log: (message: unknown) => void message }, { traceFormat: TraceFormat.JSON })
connection.onClose(reason => { const how: 'Clean' | string = reason.how; void how })
connection.onClose(({ offset }) => { const place: number | undefined = offset; void place })
connection.onClose(() => undefined)
connection.onBroken(({ offset, first, what, entries }) => { const told: [number, Uint8Array, string, number] = [offset, first, what, entries]; void told })
connection.onError(([error, message, count]) => { const text: string = error.message; void [text, message, count] })
const emitter = new Emitter<number>()
const event: Event<number> = emitter.event
event(it => it.toFixed())
run(connection, { grace: 100 })

// @ts-expect-error a hover has a position
connection.sendRequest(Hover, { place: 1 })
// @ts-expect-error a sum is of numbers
connection.sendRequest(Sum, 1, '2')
// @ts-expect-error a hover's result has contents
connection.onRequest(Hover, () => ({ text: '' }))
// @ts-expect-error what moved has a line and a reason
connection.sendNotification(Moved, 'x', 1)
// @ts-expect-error a text is no number
connection.onNotification(Changed, params => { const text: number = params.text; void text })
// @ts-expect-error there is no such protocol
createMessageConnection(input, output, undefined, { protocol: 'dap' })
// @ts-expect-error a connection is read from something
createMessageConnection(1, output)

const lower = new Connection({ framing: 'lines', calls: 10n })
const place: number | undefined = new Connection({ cancels: 'mcp', broken: true }).faultOffset
void [place, new Connection({ cancels: null }), new Connection({ cancels: true })]
// @ts-expect-error (there are no such cancels)
new Connection({ cancels: 'dap' })
for (const it of lower.fed(new Uint8Array())) {
  if (it.kind === 'call' && it.isRequest) lower.answer(it.number, it.params ?? 'null')
  // @ts-expect-error an end has no params
  if (it.kind === 'over') void it.params
}
carry(lower, new Connection())
const both = joined({ client: { protocol: 'mcp' }, highWaterMark: 1024 })
both.server.listen()
try {
  lower.answer(1)
} catch (error) {
  if (error instanceof Refused && error.code === 'NotOpen') void error
  if (error instanceof ConnectionError && error.code === ConnectionErrors.Closed) void error
}
