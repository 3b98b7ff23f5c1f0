// What tsc --strict takes of tool servers and hosts, and what it has to refuse.
import {
  Bearer, CallToolResult, completable, ErrorCode, Extra, image, InMemoryTransport, InvalidResult, McpError, ResourceTemplate, StandardSchema,
  HttpHandler, MemoryEvents, NotEnough, StdioClientTransport, StdioServerTransport, StreamableHTTPClientTransport, text, Tool, ToolClient, ToolError, toolResult, ToolServer, toolUses,
  UrlElicitationRequired, VERSIONS
} from 'bullmyrtle/mcp'

// Validators as zod, valibot and arktype have them: what they take and give is a type of theirs.
declare const ofText: StandardSchema<string, string>
declare const ofCount: StandardSchema<number | undefined, number>
declare const maybe: StandardSchema<string | undefined, string | undefined>
declare const whole: StandardSchema<{ text: string; times?: number }, { text: string; times: number }> & { parse(value: unknown): unknown }
interface Zod<O> {
  readonly _output: O
  readonly '~standard': {
    readonly version: 1
    readonly vendor: string
    readonly validate: (value: unknown) => { value: O } | { issues: { message: string; path?: PropertyKey[] }[] } | Promise<{ value: O }>
    readonly types?: { readonly input: O; readonly output: O }
  }
}
declare const zod: Zod<{ color: 'red' | 'blue' }>

const server = new ToolServer({ name: 'words', version: '1', icons: [{ src: 'data:' }] }, { pageSize: 10, versions: VERSIONS })
const handler: HttpHandler = server.http({
  bearer: new Bearer(async token => { if (!token) throw new NotEnough('tools') }, 'https://a', [], { scopes: ['tools'] }),
  events: () => new MemoryEvents(10), answers: 'json', poll: 1000
})
server.runHttp(0, { host: '::1', stateless: true }).then(({ url, close }) => close().then(() => url.length + handler.sessions))
new ToolClient({ name: 'h' }).connect(new StreamableHTTPClientTransport('http://a', { headers: async () => ({ a: 'b' }) }))
server.registerTool('whole', { inputSchema: whole }, ({ text, times }) => text.repeat(times))
server.registerTool('zod', { inputSchema: zod }, async ({ color }) => (color === 'red' ? 'r' : 'b'))
server.registerTool('shape', { inputSchema: { text: ofText, count: ofCount, maybe } }, ({ text, count, maybe }, extra) => {
  extra.reportProgress(1, 2, 'half')
  const length: number = text.length + count + (maybe?.length ?? 0)
  return { length }
})
server.registerTool('json', { inputSchema: { type: 'object', properties: { a: { type: 'string' } } } }, ({ a }) => String(a))
const registered = server.registerTool('none', { title: 'None', timeout: 5 }, async (extra: Extra): Promise<CallToolResult> => {
  const reply = await extra.createMessage({ messages: 'hello', toolChoice: 'auto' })
  const { action, content } = await extra.elicitInput({ message: 'x', requestedSchema: { type: 'object' } })
  await extra.elicitInput({ mode: 'url', message: 'x', url: 'https://example.com' })
  for (const it of toolUses(reply)) toolResult(it, it.input.a)
  if (extra.signal.aborted) throw new ToolError(`${action} ${content?.a}`)
  if (extra.requestId === 1) throw new McpError(ErrorCode.InvalidParams, 'no')
  throw new UrlElicitationRequired([{ message: 'a', url: 'https://example.com', elicitationId: '1' }])
})
new ToolServer({ name: 'later' }, { taskTtl: 60_000 }).registerTool('later', { execution: { taskSupport: 'optional' } }, ({ taskId }) => taskId)
registered.update({ title: 'Some' })
registered.disable()
server.registerTool('parts', {}, () => ['a', image(new Uint8Array(1), 'image/png'), text('b')])
server.registerResource('one', 'a://1', { mimeType: 'text/plain' }, uri => uri.href)
server.registerResource('two', new ResourceTemplate('a://{x}', { complete: { x: value => [value] } }), {}, (uri, { x }) => ({ contents: [{ uri: uri.href, text: x }] }))
server.registerPrompt('hello', { argsSchema: { name: completable(ofText, (value, { arguments: others }) => [value, others.a]) } }, ({ name }) => `Hello ${name}`)
server.registerPrompt('none', {}, () => [{ role: 'assistant', content: text('x') }])
void server.connect(new StdioServerTransport())
server.sendLoggingMessage({ level: 'info', data: 1 })

const client = new ToolClient({ name: 'host' }, { sampling: async ({ messages }) => String(messages.length), roots: ['file:///a'], page: (message, url) => url === message })
export async function use(): Promise<string | undefined> {
  await client.connect(new StdioClientTransport({ command: 'node', args: ['words.mjs'] }))
  const { tools }: { tools: Tool[] } = await client.listTools()
  const { content } = await client.callTool({ name: tools[0].name, arguments: { text: 'a' } }, { onprogress: ({ progress }) => progress + 1 })
  const [first] = content
  const { task } = await client.callTool({ name: 'later' }, { task: { ttl: 60_000 }, onprogress: ({ progress }) => progress + 1 })
  const { status } = await client.getTask(task.taskId, { signal: new AbortController().signal })
  const { tasks } = await client.listTasks()
  const over = status === 'working' ? await client.cancelTask(tasks[0].taskId) : task
  if (over.status === 'completed') return (await client.getTaskResult(task.taskId)).content[0].type
  client.onclose = ({ how }) => how
  await client.close().catch(error => error instanceof InvalidResult)
  return first.type === 'text' ? first.text : undefined
}
const [one] = InMemoryTransport.createLinkedPair()
void one.input

// @ts-expect-error
server.registerTool('whole', { inputSchema: whole }, ({ texts }) => texts)
// @ts-expect-error
server.registerTool('zod', { inputSchema: zod }, ({ color }) => (color === 'green' ? 'g' : ''))
// @ts-expect-error
server.registerTool('shape', { inputSchema: { count: ofCount } }, ({ count }) => count.length)
// @ts-expect-error
server.registerTool('shape', { inputSchema: { maybe } }, ({ maybe }) => maybe.length)
// @ts-expect-error
server.registerTool('no function', {}, 5)
// @ts-expect-error
server.registerTool('wrong option', { tittle: 'x' }, () => '')
// @ts-expect-error
server.registerTool('no object', { inputSchema: { type: 'string' } }, () => '')
// @ts-expect-error
server.registerTool('no support', { execution: { taskSupport: 'maybe' } }, () => '')
// @ts-expect-error
void client.callTool({ name: 'later' }, { task: {} }).then(({ content }) => content)
// @ts-expect-error
server.sendLoggingMessage({ level: 'loud', data: 1 })
// @ts-expect-error
void client.callTool('count')
// @ts-expect-error
new ToolClient({ name: 'host' }, { protocol: 'lsp' })
// @ts-expect-error
new ToolServer('words')
