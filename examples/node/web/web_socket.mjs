// As much of a WebSocket (RFC 6455) as this example needs, with the members of one in a browser. In earnest take the
// package ws, whose sockets the readers and writers of bullmyrtle take too.
import { createHash } from 'node:crypto'

const KEY = '258EAFA5-E914-47DA-95CA-C5AB0DC85B11'
const [MORE, TEXT, CLOSE, PING, PONG] = [0, 1, 8, 9, 10]
const MOST = 1 << 20 // so many bytes a message of the page's may have

export class WebSocketOfServer extends EventTarget {
  #socket
  #rest = Buffer.alloc(0)
  #parts = []

  /** Of what a server's 'upgrade' event gives. */
  constructor(request, socket) {
    super()
    this.#socket = socket
    const accepted = createHash('sha1').update(request.headers['sec-websocket-key'] + KEY).digest('base64')
    const head = ['HTTP/1.1 101 Switching Protocols', 'Upgrade: websocket', 'Connection: Upgrade']
    socket.write([...head, `Sec-WebSocket-Accept: ${accepted}`, '', ''].join('\r\n'))
    socket.on('data', piece => this.#read(piece))
    socket.on('error', () => {})
    socket.on('close', () => this.dispatchEvent(new Event('close')))
  }

  send(text) {
    this.#write(TEXT, Buffer.from(text))
  }

  close() {
    this.#write(CLOSE, Buffer.alloc(0))
    this.#socket.end()
  }

  #write(kind, data) {
    const { length } = data
    const head = Buffer.alloc(length < 126 ? 2 : length < 65536 ? 4 : 10, 0)
    head[0] = 128 | kind
    head[1] = length < 126 ? length : length < 65536 ? 126 : 127
    if (head[1] === 126) head.writeUInt16BE(length, 2)
    if (head[1] === 127) head.writeUInt32BE(length, 6)
    this.#socket.write(Buffer.concat([head, data]))
  }

  #read(piece) {
    this.#rest = Buffer.concat([this.#rest, piece])
    for (;;) {
      const found = this.#frame()
      if (found === undefined) return
      this.#rest = this.#rest.subarray(found.end)
      this.#take(found)
    }
  }

  /** The frame that has come whole. */
  #frame() {
    const rest = this.#rest
    if (rest.length < 6) return undefined
    const short = rest[1] & 127
    const start = short < 126 ? 2 : short === 126 ? 4 : 10
    if (rest.length < start + 4) return undefined
    const length = short < 126 ? short : short === 126 ? rest.readUInt16BE(2) : Number(rest.readBigUInt64BE(2))
    if (length > MOST || !(rest[1] & 128)) return void this.#socket.destroy()
    const end = start + 4 + length
    if (rest.length < end) return undefined
    const data = rest.subarray(start + 4, end).map((it, at) => it ^ rest[start + at % 4])
    return { isLast: (rest[0] & 128) !== 0, kind: rest[0] & 15, data: Buffer.from(data), end }
  }

  #take({ isLast, kind, data }) {
    if (kind === CLOSE) return this.close()
    if (kind === PING) return this.#write(PONG, data)
    if (kind !== TEXT && kind !== MORE) return undefined
    this.#parts.push(data)
    if (!isLast) return undefined
    const text = Buffer.concat(this.#parts.splice(0)).toString()
    this.dispatchEvent(Object.assign(new Event('message'), { data: text }))
  }
}
