'use strict'
// Sockets and pipes, as vscode-jsonrpc has them: [reader, writer] of one socket.

const crypto = require('node:crypto')
const net = require('node:net')
const os = require('node:os')
const path = require('node:path')
const { SocketMessageReader } = require('./readers')
const { SocketMessageWriter } = require('./writers')

const LONGEST = 107 // of the name of a socket in Linux

function generateRandomPipeName() {
  const name = `bullmyrtle-${crypto.randomBytes(12).toString('hex')}.sock`
  const found = path.join(process.env.XDG_RUNTIME_DIR ?? os.tmpdir(), name)
  if (Buffer.byteLength(found) <= LONGEST) return found
  throw new Error(`Unable to generate a random pipe name with ${LONGEST} characters.`)
}

const both = (...given) => [new SocketMessageReader(...given), new SocketMessageWriter(...given)]

/** Waits for one connection. */
function waitAt(address, encoding) {
  let connected
  const onConnected = new Promise(resolve => { connected = resolve })
  return new Promise((resolve, reject) => {
    const server = net.createServer(socket => {
      server.close()
      connected(both(socket, encoding))
    })
    server.on('error', reject)
    server.listen(address, () => {
      server.removeListener('error', reject)
      resolve({ onConnected: () => onConnected, address: server.address() })
    })
  })
}


const HOST = '127.0.0.1'

// A client's transport waits for its server, which it starts; a server's connects to it.
const createClientPipeTransport = (name, encoding = 'utf-8') => waitAt({ path: name }, encoding)
const createClientSocketTransport = (port, encoding = 'utf-8') => waitAt({ port, host: HOST }, encoding)

function server(address, encoding) {
  const socket = net.createConnection(address)
  return both(socket, encoding)
}

const createServerPipeTransport = (name, encoding = 'utf-8') => server({ path: name }, encoding)
const createServerSocketTransport = (port, encoding = 'utf-8') => server({ port, host: HOST }, encoding)

module.exports = {
  generateRandomPipeName, createClientPipeTransport, createServerPipeTransport, createClientSocketTransport,
  createServerSocketTransport
}
