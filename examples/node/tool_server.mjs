// A tool server for hosts of the Model Context Protocol: one tool counts words, the other asks the host's model for a title.
import { setImmediate as turn } from 'node:timers/promises'
import { ToolServer } from '../../bindings/node/lib/mcp/index.mjs' // (in a project of your own: 'bullmyrtle/mcp')

const inputSchema = { type: 'object', properties: { text: { type: 'string' } }, required: ['text'] }
const server = new ToolServer({ name: 'words', version: '1.0' })

server.registerTool('count', { description: 'Counts the words of a text', inputSchema }, async ({ text }, extra) => {
  const words = text.split(/\s+/).filter(Boolean)
  for (let at = 0; at < words.length && !extra.isCancelled; at += 100) {
    extra.reportProgress(at, words.length)
    await turn() // (a cancel arrives here)
  }
  return `${words.length} words`
})

server.registerTool('title', { description: 'Finds a title for a text', inputSchema }, async ({ text }, extra) => {
  const { content } = await extra.createMessage({ messages: `A title for: ${text}`, maxTokens: 20 })
  return content.text
})

server.run()
