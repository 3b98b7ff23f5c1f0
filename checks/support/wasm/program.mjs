// A program of C in WebAssembly, over the library in it (libc.c), in Node.js or in a browser.

const encoder = new TextEncoder()

/** Runs it, and gives its status. `host` has read(bytes), which gives how many came, write(descriptor, bytes) and
 * variable(name). */
export function run(module, words, host) {
  const bytes = (at, length) => new Uint8Array(exports.memory.buffer, Number(at), Number(length))
  /** @type {any} */
  const { exports } = new WebAssembly.Instance(module, {
    host: {
      read: (room, length) => BigInt(host.read(bytes(room, length))),
      write: (descriptor, from, length) => host.write(descriptor, bytes(from, length)),
      exit: status => { throw new Exit(status) },
      variable: (name, length, room) => {
        const value = host.variable(new TextDecoder().decode(bytes(name, length)))
        if (value !== undefined) bytes(room, value.length + 1).set(encoder.encode(`${value}\0`))
        return Number(value !== undefined)
      }
    }
  })
  try {
    const status = exports.program(words.length + 1, given(exports, words))
    exports.over()
    return status
  } catch (error) {
    if (error instanceof Exit) return error.status
    throw error
  }
}

class Exit extends Error {
  constructor(status) {
    super(`status ${status}`)
    this.status = status
  }
}

/** The program's words, as C has them: their places, and behind these they themselves. */
function given(exports, words) {
  const room = exports.begin()
  const texts = ['program', ...words].map(it => encoder.encode(`${it}\0`))
  let at = Number(room) + 8 * (texts.length + 1)
  texts.forEach((it, nth) => {
    new DataView(exports.memory.buffer).setBigUint64(Number(room) + 8 * nth, BigInt(at), true)
    new Uint8Array(exports.memory.buffer).set(it, at)
    at += it.length
  })
  return room
}
