'use strict'
// The same server over each connection: node server.js bullmyrtle, lean or layered.

const connections = {
  bullmyrtle: (input, output) => require('..').createMessageConnection(input, output),
  lean: (input, output) => require('./plain.js').createLean(input, output),
  layered: (input, output) => require('./plain.js').createLayered(input, output)
}
const hover = params => ({ contents: params.textDocument.uri, line: params.position.line })
const connection = connections[process.argv[2]](process.stdin, process.stdout)
connection.onRequest('hover', hover)
connection.onRequest('hoverAsync', async params => hover(params))
connection.onRequest('back', async (params, token) => connection.sendRequest('twice', { n: params.n }, token))
connection.onRequest('size', params => params.text.length)
connection.onNotification('note', () => {})
process.stdin.on('end', () => setTimeout(() => process.exit(0), 10))
connection.listen()
