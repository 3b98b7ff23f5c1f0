// The tool server of the sessions in tool_rows/, in JavaScript; tool_server.py is the same in Python.
import { setImmediate as turn, setTimeout as sleep } from 'node:timers/promises'
import {
  McpError, ResourceTemplate, ToolError, ToolServer, UrlElicitationRequired, audio, completable, embeddedResource, image,
  resourceLink
} from '../../../bindings/node/lib/mcp/index.mjs'

const PAGE = 'https://example.com/pay'
const TEXTS = { type: 'object', properties: { text: { type: 'string' } }, required: ['text'], additionalProperties: false }
const FORM = { type: 'object', properties: { x: { type: 'number' } }, required: ['x'] }

function addResults(server) {
  const link = resourceLink(/** @type {any} */ ({ uri: 'a://1', name: 'one', title: 'T' }))
  const parts = ['t', image(Buffer.from('i'), 'a/b'), audio(Buffer.from('s'), 'a/c'), link, embeddedResource('x:1', 't')]
  server.registerTool('count', { inputSchema: TEXTS }, ({ text }) => ({ words: text.split(/\s+/).length }))
  server.registerTool('nothing', {}, () => {})
  server.registerTool('array', {}, () => [1, 'a'])
  server.registerTool('parts', {}, async () => parts)
  const hand = { content: ['no'], structuredContent: { a: 1 }, isError: true, _meta: { m: 1 } }
  server.registerTool('hand', {}, () => hand)
  server.registerTool('told', {}, () => { throw new ToolError('no such city') })
  server.registerTool('refused', {}, async () => { throw new McpError(-32001, 'no') })
  server.registerTool('odd', {}, () => { throw new McpError(-32602, 'Invalid params: arguments.a is odd') })
}

function addWhatTells(server) {
  server.registerTool('work', {}, async extra => {
    for (const progress of [1, 2, 2, 1, 3]) {
      extra.reportProgress(progress, 3, 'on')
      await turn()
    }
  })
  server.registerTool('waits', {}, ({ signal }) => sleep(3_600_000, undefined, { signal }))
  server.registerTool('logs', {}, extra => {
    extra.log('debug', 'a')
    extra.log('info', { b: 1 })
    extra.log('alert', 'c', 'mine')
  })
  server.registerTool('touch', {}, () => server.sendResourceUpdated({ uri: 'a://1' }))
  let added
  server.registerTool('come', {}, () => { added = server.registerTool('new', {}, () => 'new') })
  server.registerTool('go', {}, () => added.remove())
  server.registerTool('paid', {}, () => {
    for (const elicitationId of ['one', 'two']) server.sendElicitationComplete({ elicitationId })
  })
}

function addWhatAsks(server) {
  server.registerTool('samples', {}, async extra => {
    const asked = { messages: 'Name a town', maxTokens: 20, systemPrompt: 'Be brief' }
    return (await extra.createMessage(asked)).content.text
  })
  server.registerTool('elicits', {}, async extra => {
    const { action, content } = await extra.elicitInput({ message: 'Which one?', requestedSchema: FORM })
    return [action, content]
  })
  server.registerTool('roots', {}, extra => extra.listRoots())
  server.registerTool('pays', {}, async extra => (
    (await extra.elicitInput({ mode: 'url', message: 'Pay', url: PAGE, elicitationId: 'one' })).action
  ))
  server.registerTool('needs', {}, () => {
    throw new UrlElicitationRequired([{ message: 'Pay', url: PAGE, elicitationId: 'two' }])
  })
}

/** What may be called as a task. */
function addTasks(server) {
  const execution = { taskSupport: /** @type {'optional'} */ ('optional') }
  server.registerTool('later', { inputSchema: TEXTS, execution }, ({ text }) => ({ words: text.split(/\s+/).length }))
  server.registerTool('fails', { execution }, async () => { throw new ToolError('no such city') })
  server.registerTool('asks', { execution }, async extra => {
    const asked = { messages: 'Name a town', maxTokens: 20 }
    return (await extra.createMessage(asked)).content.text
  })
  server.registerTool('tells', { execution }, async extra => {
    extra.reportProgress(1, 2, 'on')
    extra.log('info', 'a', 'mine')
  })
  const required = { execution: { taskSupport: /** @type {'required'} */ ('required') } }
  server.registerTool('stays', required, ({ signal }) => sleep(3_600_000, undefined, { signal }))
}

/** The server; some sessions are with tasks. */
function makeServer(options, hasTasks) {
  const server = new ToolServer({ name: 'table', version: '1' }, { instructions: 'I', ...options })
  addResults(server)
  addWhatTells(server)
  addWhatAsks(server)
  if (hasTasks) addTasks(server)
  server.registerResource('one', 'a://1', { mimeType: 'a/b' }, () => '1')
  server.registerResource('bytes', 'b://1', {}, () => Buffer.from('\x89PNG', 'latin1'))
  const folder = (value, { arguments: others }) => [value, others.name]
  const notes = new ResourceTemplate('n://{folder}/{name}', { complete: { folder } })
  server.registerResource('note', notes, {}, (uri, { folder, name }) => ({ folder, name }))
  server.registerResource('path', 'path:///{+path}', {}, (uri, parts) => parts.path)
  const properties = { name: completable({ type: 'string' }, value => [`${value}!`]), other: { type: 'string' } }
  const argsSchema = { type: 'object', properties, required: ['name'], additionalProperties: false }
  server.registerPrompt('hello', { description: 'Greets.', argsSchema }, ({ name }) => `Hello ${name}`)
  const picture = { role: 'assistant', content: image(Buffer.from('i'), 'a/b') }
  server.registerPrompt('talk', {}, () => ['Hello', picture, { role: 'user', content: { type: 'text', text: 'Bye' } }])
  return server
}

const [pageSize, hasTasks] = process.argv.slice(2).map(it => JSON.parse(it))
makeServer({ pageSize: pageSize ?? undefined, grace: 10 }, hasTasks).run()
