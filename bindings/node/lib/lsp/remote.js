'use strict'
// What a server says to its client of itself. Once the connection is over nobody hears it: a notification is dropped
// then, and a call rejects. A rejection that the program doesn't look at, as one may leave out what a refresh gives,
// doesn't end the process.

const { Trace } = require('../trace').words

const MESSAGES = { error: 1, warn: 2, info: 3, log: 4 }

class Remote {
  #peer
  #life

  constructor(peer, life) {
    this.#peer = peer
    this.#life = life
  }

  /** @param {string} method @param {any} [params] */
  notify(method, params) {
    if (this.#peer.reason !== undefined) return Promise.resolve()
    const sent = this.#peer.sendNotification(method, params)
    sent.catch(() => {})
    return sent
  }

  /** @param {string} method @param {any} [params] @returns {Promise<any>} */
  call(method, params) {
    const called = this.#called(method, params)
    called.catch(() => {})
    return called
  }

  async #called(method, params) {
    return params === undefined ? this.#peer.sendRequest(method) : this.#peer.sendRequest(method, params)
  }

  /**
   * A result that is null is undefined, as vscode-languageserver has it.
   * @param {string} method @param {any} [params]
   */
  ask(method, params) {
    const asked = this.call(method, params).then(it => it ?? undefined)
    asked.catch(() => {})
    return asked
  }

  /** Logs a text where the user finds it: at the client, or before there is one on the standard error. */
  say(type, text) {
    if (this.#life.isRunning && this.#peer.reason === undefined) {
      this.notify('window/logMessage', { type: MESSAGES[type], message: text })
    } else {
      console.error(`bullmyrtle: ${text}`)
    }
  }
}

/** `connection.console`: logs at the client. */
const remoteConsole = remote => Object.fromEntries(Object.entries({ ...MESSAGES, debug: 4 }).map(([name, type]) => (
  [name, message => { remote.notify('window/logMessage', { type, message: String(message) }) }]
)))

/** `connection.tracer`: what the client asked for by its trace. */
class Tracer {
  #remote
  level = Trace.Off

  constructor(remote) {
    this.#remote = remote
  }

  log = (message, verbose) => {
    if (this.level === Trace.Off) return
    const more = this.level === Trace.Verbose && verbose !== undefined ? { verbose } : {}
    this.#remote.notify('$/logTrace', { message, ...more })
  }
}

module.exports = { Remote, remoteConsole, Tracer }
