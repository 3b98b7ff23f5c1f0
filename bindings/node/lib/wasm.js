'use strict'
// The addon in WebAssembly: its calls, over its own code. Values go by memory (packaging/ports/wasm/node.c has the other
// side): they are written to it before a call, and what the call made is read from it.

const { types: { isUint8Array } } = require('node:util')

/** What a value is. */
const [, NUMBER, BOOLEAN, BIGINT, BYTES, WORDS, TEXT, ASCII, EXTERNAL, NUMBERS, LIST] = Array(11).keys()
const UNDEFINED = 0
/** Of a value, in words of 32 bits: how many it has, and where in it its kind, its place and its length stand. */
const VALUE = 6
const KIND = 2
const PLACE = 3
const LENGTH = 4
/** Where stands what a call made, and the code and the text of an error behind what a list has, in such words. */
const MADE = 8 * VALUE
const ERROR = MADE + VALUE + 9 * VALUE
/** Rooms for what comes in, for a second text, for a small output and for a large one. */
const FIRST = 0
const SECOND = 1
const OUTPUT = 2
const LARGE = 3
const SMALL_OUTPUT = 1 << 16
/** A length that no text has: there is no memory for one. */
const TOO_LONG = 2 ** 32 - 1
/** Of heads and of sayings: how many numbers stand before them, and how many each has. */
const BEFORE_HEADS = 4
const HEAD = 6
const BEFORE_SAYINGS = 1
const SAYING = 3
const MOST_SAYINGS = 1024
const NO_MEMORY = 1
const CONTENTS = 2
const LOW = 0xffffffffn

function failed(code, text) {
  return Object.assign(new Error(text), { code })
}

const noMemory = () => failed('ERR_MEMORY_ALLOCATION_FAILED', 'memory was refused')

/** A connection in the module's memory. */
class Handle {
  constructor(at) {
    this.at = at
    this.isContents = false
  }
}

/** The module's memory, and the values that cross by it. */
class Memory {
  #memory
  #here
  #room
  bytes
  words
  numbers

  constructor(exports) {
    this.#memory = exports.memory
    this.#room = exports.node_room
    this.#here = (exports.node_begin() >>> 0) / 4
    if (this.#here === 0) throw noMemory()
    this.look()
  }

  /** Memory that has grown lies elsewhere. */
  look() {
    const { buffer } = this.#memory
    if (this.bytes?.buffer === buffer) return
    this.bytes = Buffer.from(buffer)
    this.words = new Uint32Array(buffer)
    this.numbers = new Float64Array(buffer)
  }

  #put(at, kind, place, length) {
    const word = this.#here + at * VALUE
    this.words[word + KIND] = kind
    this.words[word + PLACE] = place
    this.words[word + LENGTH] = length
  }

  give(at, value) {
    switch (typeof value) {
      case 'number': return this.#giveNumber(at, NUMBER, value)
      case 'boolean': return this.#giveNumber(at, BOOLEAN, Number(value))
      case 'bigint': return this.#put(at, BIGINT, Number(value & LOW), Number((value >> 32n) & LOW))
    }
    if (value instanceof Handle && value.at) this.#put(at, EXTERNAL, value.at, 0)
    else this.#put(at, UNDEFINED, 0, 0)
  }

  #giveNumber(at, kind, value) {
    const word = this.#here + at * VALUE
    this.words[word + KIND] = kind
    this.numbers[word / 2] = value
  }

  /** Where so many bytes may be written, or 0. */
  #roomFor(which, length) {
    const place = this.#room(which, length || 1) >>> 0
    this.look()
    return place
  }

  /** Gives bytes, or whatever it is; whether there was memory for them. */
  giveBytes(at, value, which) {
    if (!isUint8Array(value)) {
      this.give(at, undefined)
      return true
    }
    const place = this.#roomFor(which, value.length)
    if (place) this.bytes.set(value, place)
    this.#put(at, BYTES, place, value.length)
    return place !== 0
  }

  giveWords(at, value, which) {
    const place = this.#roomFor(which, 4 * value.length)
    if (place) this.words.set(value, place / 4)
    this.#put(at, WORDS, place, value.length)
    return place !== 0
  }

  /** Gives a text, and behind it how many units of UTF-16 it has. */
  giveText(at, text) {
    const most = 3 * text.length
    const place = this.#roomFor(FIRST, most <= SMALL_OUTPUT ? most : Buffer.byteLength(text))
    this.#put(at, TEXT, place, place ? this.bytes.utf8Write(text, place) : TOO_LONG)
    this.give(at + 1, place ? text.length : TOO_LONG)
  }

  /** Gives a room for output, and where it is; or 0. */
  giveOutput(at, length, which) {
    const place = this.#roomFor(which, length)
    this.#put(at, BYTES, place, length)
    return place
  }

  /** What a call made. */
  get made() {
    return this.#valueAt(this.#here + MADE)
  }

  #valueAt(word) {
    const { words, numbers } = this
    const place = words[word + PLACE]
    const length = words[word + LENGTH]
    switch (words[word + KIND]) {
      case NUMBER: return numbers[word / 2]
      case BOOLEAN: return numbers[word / 2] !== 0
      case TEXT: return this.bytes.utf8Slice(place, place + length)
      case ASCII: return this.bytes.latin1Slice(place, place + length)
      case EXTERNAL: return new Handle(place)
      case NUMBERS: return numbers.subarray(place / 8, place / 8 + length)
      case LIST: return Array.from({ length }, (_, at) => this.#valueAt(place / 4 + at * VALUE))
      default: return undefined
    }
  }

  /** Throws what a call has thrown. */
  check() {
    const at = this.#here + ERROR
    if (this.words[at + 1]) throw failed(this.#word(this.words[at]), this.#word(this.words[at + 1]))
  }

  #word(place) {
    return this.bytes.latin1Slice(place, this.bytes.indexOf(0, place))
  }
}

/** An array of numbers that the module writes too: `read` takes the first so many from it. */
class Shared {
  array
  #words
  #place

  /** Over what a call made. */
  constructor(numbers) {
    this.array = new Float64Array(numbers.length)
    this.#words = new Uint32Array(this.array.buffer)
    this.#place = numbers.byteOffset / 4
  }

  /** (as words, since the bits of a large code are no number) */
  read(memory, count) {
    const { words } = memory
    for (let i = 0, at = this.#place; i < 2 * count; i++) this.#words[i] = words[at + i]
  }

  write(memory, count) {
    const { numbers } = memory
    for (let i = 0, at = this.#place / 2; i < count; i++) numbers[at + i] = this.array[i]
  }

  first(memory, nth) {
    return memory.numbers[this.#place / 2 + nth]
  }
}

class Addon {
  #exports
  #memory
  #registry
  #says
  #heads = []
  #stopped

  /** Over what an instance of the module exports. */
  constructor(exports) {
    this.#exports = exports
    this.#memory = new Memory(this.#exports)
    this.#says = new Shared(this.#memory.made)
    this.says = this.#says.array
    this.#registry = new FinalizationRegistry(at => this.#exports.node_forget(at))
    if (this.#memory.giveOutput(0, SMALL_OUTPUT, OUTPUT) === 0) throw noMemory()
  }

  /** Calls, with what was given. What ends a call in its middle, such as a stack that is too small, ends the module. */
  #call(name) {
    if (this.#stopped) throw failed('ERR_BULLMYRTLE_STOPPED', `bullmyrtle.wasm has stopped: ${this.#stopped.message}`)
    try {
      this.#exports[`node_${name}`]()
    } catch (error) {
      this.#stopped = error
      throw error
    }
    this.#memory.look()
    this.#memory.check()
    return this.#memory.made
  }

  #with(name, ...given) {
    given.forEach((it, at) => this.#memory.give(at, it))
    return this.#call(name)
  }

  // A connection's life

  open(framing, ...more) {
    for (let at = 0; at < 8; at++) this.#memory.give(at, at === 0 ? framing : more[at - 1])
    const made = this.#call('open')
    if (!(made instanceof Handle)) return made
    made.isContents = framing === CONTENTS
    this.#registry.register(made, made.at, made)
    return made
  }

  close(handle) {
    this.#with('close', handle)
    this.#registry.unregister(handle)
    this.#exports.node_forget(handle.at)
    handle.at = 0
  }

  // Events

  heads() {
    const made = new Shared(this.#call('heads'))
    this.#heads.push(made)
    return made.array
  }

  /** Heads and texts of what the call told. */
  #told(name, place) {
    const texts = this.#call(name)
    const heads = this.#heads[place]
    heads.read(this.#memory, BEFORE_HEADS + HEAD * heads.first(this.#memory, 1))
    return texts
  }

  fed(handle, bytes, place, wantsIds) {
    const memory = this.#memory
    const hasRoom = memory.giveBytes(1, bytes, FIRST)
    memory.give(0, handle)
    memory.give(2, place)
    memory.give(3, wantsIds)
    if (hasRoom) return this.#told('fed', place)
    this.#heads[place].array.fill(0, 0, BEFORE_HEADS)
    this.#heads[place].array[0] = NO_MEMORY
    return undefined
  }

  events(handle, place, wantsIds, isOne) {
    const memory = this.#memory
    memory.give(0, handle)
    memory.give(1, place)
    memory.give(2, wantsIds)
    memory.give(3, isOne)
    return this.#told('events', place)
  }

  feed(handle, bytes) {
    const hasRoom = this.#memory.giveBytes(1, bytes, FIRST)
    this.#memory.give(0, handle)
    return hasRoom ? this.#call('feed') : NO_MEMORY
  }

  end(handle, isFailed) {
    return this.#with('end', handle, isFailed)
  }

  // Saying

  say(handle, count, texts, units, out) {
    const memory = this.#memory
    if (count > MOST_SAYINGS) throw failed('ERR_INVALID_ARG_TYPE', 'a room is needed')
    memory.giveText(2, texts)
    const place = memory.giveOutput(4, Math.min(out.length, SMALL_OUTPUT), OUTPUT)
    memory.give(0, handle)
    memory.give(1, count)
    const numbers = BEFORE_SAYINGS + SAYING * count
    this.#says.write(memory, numbers)
    const taken = this.#call('say')
    this.#says.read(memory, numbers)
    memory.bytes.copy(out, 0, place, place + taken)
    return taken
  }

  sayOne(handle, kind, number, code, first, second) {
    const memory = this.#memory
    const hasRoom = memory.giveBytes(4, first, FIRST) && memory.giveBytes(5, second, SECOND)
    memory.give(0, handle)
    memory.give(1, kind)
    memory.give(2, number)
    memory.give(3, code)
    return hasRoom ? this.#said('sayOne') : NO_MEMORY
  }

  callBatch(handle, number, bytes, lengths) {
    const memory = this.#memory
    const hasRoom = memory.giveBytes(2, bytes, FIRST) && memory.giveWords(3, lengths, SECOND)
    memory.give(0, handle)
    memory.give(1, number)
    return hasRoom ? this.#said('callBatch') : NO_MEMORY
  }

  /** (whose key stands in the third place) */
  #said(name) {
    const code = this.#call(name)
    this.#says.read(this.#memory, BEFORE_SAYINGS + SAYING)
    return code
  }

  // Taking, and what has happened

  take(handle, out) {
    if (handle.isContents && out.length > SMALL_OUTPUT) return this.#takeOne(handle, out, LARGE)
    let all = 0
    for (;;) {
      const piece = out.subarray(all, all + SMALL_OUTPUT)
      const taken = this.#takeOne(handle, piece, OUTPUT)
      all += taken
      if (handle.isContents || taken < SMALL_OUTPUT) return all
    }
  }

  #takeOne(handle, out, which) {
    const memory = this.#memory
    const place = memory.giveOutput(1, out.length, which)
    if (place === 0) throw noMemory()
    memory.give(0, handle)
    const taken = this.#call('take')
    memory.bytes.copy(out, 0, place, place + taken)
    return taken
  }

  pending(handle) {
    return this.#with('pending', handle)
  }

  held(handle) {
    return this.#with('held', handle)
  }

  isDone(handle) {
    return this.#with('isDone', handle)
  }

  counts(handle) {
    return this.#with('counts', handle)
  }

  faultAt(handle) {
    return this.#with('faultAt', handle)
  }
}

module.exports = { Addon }
