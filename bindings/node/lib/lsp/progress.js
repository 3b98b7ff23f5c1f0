'use strict'
// Progress of work that a client shows, and parts of results, with the names of vscode-languageserver.

const crypto = require('node:crypto')
const { CancellationToken, CancellationTokenSource } = require('../cancellation')

const PROGRESS = '$/progress'
const CREATE = 'window/workDoneProgress/create'

/** What work reports whose client has no progress. */
const NOTHING = Object.freeze({ begin() {}, report() {}, done() {}, token: CancellationToken.None })

/** Reports to a token of the client's, or of our own. */
class WorkDone {
  #remote
  #token
  #hasBegun = false
  #isOver = false

  constructor(remote, token) {
    this.#remote = remote
    this.#token = token
  }

  #send(value) {
    if (!this.#isOver) this.#remote.notify(PROGRESS, { token: this.#token, value })
  }

  begin(title, percentage, message, cancellable) {
    this.#send({ kind: 'begin', title, percentage, message, cancellable })
    this.#hasBegun = true
  }

  /** Takes a percentage, a message, or both. */
  report(first, second) {
    const value = typeof first === 'number' ? { percentage: first, message: second } : { message: first }
    this.#send({ kind: 'report', ...value })
  }

  done() {
    this.#send({ kind: 'end' })
    this.#isOver = true
  }

  /** Ends what the program left open: a token that came with a request means nothing once that is answered. */
  close() {
    if (this.#hasBegun && !this.#isOver) this.done()
    this.#isOver = true
  }
}

class ServerWorkDone extends WorkDone {
  #source = new CancellationTokenSource()
  #onDone

  constructor(remote, token, onDone) {
    super(remote, token)
    this.#onDone = onDone
  }

  get token() { return this.#source.token }

  cancel() {
    this.#source.cancel()
  }

  done() {
    super.done()
    this.#onDone()
  }
}

/** The results of a request in parts, to the token that came with it. */
class Parts {
  #remote
  #token
  #isOver = false

  constructor(remote, token) {
    this.#remote = remote
    this.#token = token
  }

  report(value) {
    if (!this.#isOver) this.#remote.notify(PROGRESS, { token: this.#token, value })
  }

  close() {
    this.#isOver = true
  }
}

class Progresses {
  #remote
  #life
  #ours = new Map() // those that the client may cancel, by their tokens

  constructor(remote, life) {
    this.#remote = remote
    this.#life = life
  }

  /** What reports to a token, if there is one. */
  attach(token) {
    return token === undefined || token === null ? NOTHING : new WorkDone(this.#remote, token)
  }

  parts(token) {
    return token === undefined || token === null ? undefined : new Parts(this.#remote, token)
  }

  /** Has the client show work of our own; one that has no progress, or refuses it, shows nothing. */
  async create() {
    if (this.#life.clientCapabilities.window?.workDoneProgress !== true) return NOTHING
    const token = crypto.randomUUID()
    const made = new ServerWorkDone(this.#remote, token, () => this.#ours.delete(token))
    this.#ours.set(token, made) // (it may be cancelled at once)
    try {
      await this.#remote.call(CREATE, { token })
    } catch {
      this.#ours.delete(token)
      return NOTHING
    }
    return made
  }

  cancelled({ token }) {
    this.#ours.get(token)?.cancel()
  }
}

module.exports = { Progresses }
