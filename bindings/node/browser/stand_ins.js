'use strict'
// As much of Node.js as the package takes in a browser.

const encoder = new TextEncoder()
// (a text may begin with what looks like a byte order mark)
const decoder = new TextDecoder('utf-8', { ignoreBOM: true })
/** So many letters are made of numbers at once. */
const MOST = 8192

class Buffer extends Uint8Array {
  static alloc(length) {
    return new Buffer(length)
  }

  static allocUnsafe(length) {
    return new Buffer(length)
  }

  static allocUnsafeSlow(length) {
    return new Buffer(length)
  }

  /** Of a text, UTF-8 or with 'latin1' a byte a letter; over an ArrayBuffer; or of an array, a copy. */
  static from(value, more, length) {
    if (value instanceof ArrayBuffer) return new Buffer(value, more, length)
    if (typeof value !== 'string') return new Buffer(value)
    if (more === 'latin1') return new Buffer(Array.from(value, it => it.charCodeAt(0)))
    const { buffer, byteOffset, byteLength } = encoder.encode(value)
    return new Buffer(buffer, byteOffset, byteLength)
  }

  static concat(pieces) {
    const made = new Buffer(pieces.reduce((length, it) => length + it.length, 0))
    pieces.reduce((at, it) => (made.set(it, at), at + it.length), 0)
    return made
  }

  static byteLength(text) {
    return encoder.encode(text).length
  }

  utf8Slice(from, to) {
    return decoder.decode(this.subarray(from, to))
  }

  latin1Slice(from, to) {
    let made = ''
    for (let at = from; at < to; at += MOST) made += String.fromCharCode(...this.subarray(at, Math.min(at + MOST, to)))
    return made
  }

  utf8Write(text, at) {
    return encoder.encodeInto(text, this.subarray(at)).written
  }

  toString(encoding, from = 0, to = this.length) {
    return encoding === 'latin1' ? this.latin1Slice(from, to) : this.utf8Slice(from, to)
  }

  copy(to, at, from, end) {
    to.set(this.subarray(from, end), at)
  }
}

/** What is to be done once the loop goes round. A channel's messages don't wait, as timers do in a page that nobody sees. */
const later = []
const channel = new MessageChannel()
channel.port1.onmessage = () => {
  const [act, given] = later.shift()
  act(...given)
}

function setImmediate(act, ...given) {
  later.push([act, given])
  channel.port2.postMessage(undefined)
}

const process = { nextTick: (act, ...given) => queueMicrotask(() => act(...given)) }

const util = {
  inspect: it => String(typeof it === 'string' ? JSON.stringify(it) : it),
  types: { isUint8Array: it => it instanceof Uint8Array, isPromise: it => it instanceof Promise }
}

const fs = {
  createWriteStream() {
    throw new TypeError('a page has no files: what is traced goes to a function, or to an object with write')
  }
}

/** (crypto.randomUUID is there only over HTTPS and on this machine) */
function randomUUID() {
  const digits = Array.from(crypto.getRandomValues(new Uint8Array(16)), it => it.toString(16).padStart(2, '0')).join('')
  return digits.replace(/^(.{8})(.{4}).(.{3}).(.{3})/, '$1-$2-4$3-8$4-')
}

module.exports = {
  Buffer, setImmediate, process, 'node:util': util, 'node:net': { Socket: class {} }, 'node:fs': fs,
  'node:crypto': { randomUUID }
}
