'use strict'
// What a server has and its client isn't told of, and what it is told of that LSP hasn't: each is logged once.

const { at } = require('./life')
const { membersOf } = require('./fitting')
const { METHODS } = require('./specification')

/** Methods that are registered while the server runs by another name than their own. */
const REGISTERED_AS = {
  'textDocument/semanticTokens': 'textDocument/semanticTokens/full', 'notebookDocument/sync': 'notebookDocument/didOpen'
}
const rootOf = method => METHODS.get(REGISTERED_AS[method] ?? method)?.capability?.split('.')[0]

class Untold {
  #life
  #registered
  #client
  #say
  #said = new Set()
  #isOn = false

  constructor(life, dispatch, client, say) {
    this.#life = life
    this.#registered = dispatch.registered
    this.#client = client
    this.#say = say
    dispatch.onRegistered = () => this.#later()
  }

  /** The session has begun: what isn't told by now is logged. */
  begin() {
    this.#isOn = true
    this.#later()
    const known = new Set(membersOf('ServerCapabilities').map(it => it.name))
    for (const name of Object.keys(this.#life.capabilities)) {
      if (!known.has(name)) this.#once(name, `${name} isn't a capability of LSP 3.17`)
    }
  }

  #once(name, text) {
    if (this.#said.has(name)) return
    this.#said.add(name)
    this.#say(text)
  }

  #later() {
    if (this.#isOn) setImmediate(() => this.#look()) // (a registration may follow its handler)
  }

  #look() {
    const { capabilities } = this.#life
    const hasSync = capabilities.textDocumentSync > 0 // (a number tells of all)
    const whileRunning = new Set([...this.#client.methods].map(rootOf))
    for (const method of this.#registered) {
      const capability = METHODS.get(method)?.capability
      const root = rootOf(method)
      if (capability === undefined || at(capabilities, capability) || whileRunning.has(root)) continue
      if (root === 'textDocumentSync' && hasSync) continue
      this.#once(method, `${method} has a handler, and the capability ${capability} isn't told: no client will send it`)
    }
  }
}

module.exports = { Untold }
