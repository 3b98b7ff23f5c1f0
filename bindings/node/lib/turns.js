'use strict'
// When what was received is handled. Plain handlers run in one go. After a handler that returned a promise, and after
// a reply, microtasks run before the next call begins, as in vscode-jsonrpc: it waits for an immediate. An immediate
// each would turn the loop for each message, so many are set at once.

const { TOLD } = require('./native')

/** So many messages may wait for an immediate of their own at once. */
const IMMEDIATES = 64
const runOne = turns => turns.runOne()

class Turns {
  #owner
  #isSocket
  #queue = []
  #first = 0
  #immediates = 0
  #mustWait = false
  #isOver = false

  /**
   * The owner has handle(..) for what was received, together(act), which does something during which nothing is
   * written, and lookWhetherIdle(). The pieces of a socket come with all microtasks between them, those of other
   * streams may not.
   */
  constructor(owner, isSocket) {
    this.#owner = owner
    this.#isSocket = isSocket
  }

  /** How many wait. */
  get count() {
    return this.#queue.length - this.#first
  }

  /** Whether some wait for their immediates. */
  get isBusy() {
    return this.#immediates > 0 && this.count > 0
  }

  /** Has an event handled, or has it wait. */
  received(kind, flags, number, code, name, body, id) {
    if (this.#queue.length > this.#first || (this.#mustWait && kind === TOLD.call)) {
      this.#queue.push([kind, flags, number, code, name, body, id])
      this.#runLater()
    } else this.#owner.handle(kind, flags, number, code, name, body, id)
  }

  /** The next call has to wait. */
  wait() {
    this.#mustWait = true
    if (this.#isSocket || this.#immediates) return
    this.#immediates++
    setImmediate(runOne, this)
  }

  /** A piece of a socket came. */
  piece() {
    this.#mustWait = this.count > 0
  }

  #runLater() {
    const wanted = Math.min(this.count, IMMEDIATES)
    while (this.#immediates < wanted) {
      this.#immediates++
      setImmediate(runOne, this)
    }
  }

  runOne() {
    this.#immediates--
    this.#mustWait = false
    if (this.count > 0) this.#owner.together(() => this.#goOn())
  }

  #goOn() {
    while (this.count > 0 && !this.#isOver) {
      const next = this.#queue[this.#first]
      if (this.#mustWait && next[0] === TOLD.call) break
      this.#queue[this.#first++] = undefined
      this.#owner.handle(...next)
    }
    if (this.count > 0) return this.#runLater()
    this.#queue = []
    this.#first = 0
    this.#owner.lookWhetherIdle()
  }

  /** The call with this number that waits: its method, params and id. */
  call(number) {
    const found = this.#queue.find(it => it?.[0] === TOLD.call && it[2] === number)
    return found === undefined ? undefined : { method: found[4], params: found[5], id: found[6] }
  }

  /** Takes the call with this number out. */
  drop(number) {
    this.#queue.splice(this.#queue.findIndex(it => it?.[0] === TOLD.call && it[2] === number), 1)
  }

  clear() {
    this.#isOver = true
    this.#queue = []
    this.#first = 0
  }
}

module.exports = { Turns }
