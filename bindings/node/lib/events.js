'use strict'
// Disposable, Event and Emitter, as vscode-jsonrpc has them.

const { print, watch } = require('./thrown')

const Disposable = { create: dispose => ({ dispose }) }
const NOTHING = Object.freeze({ dispose() {} })
const Event = { None: () => NOTHING }

class Emitter {
  #options
  #listeners = []
  #event

  constructor(options) {
    this.#options = options
  }

  get event() {
    return (this.#event ??= (listener, self, disposables) => {
      const one = self === undefined ? listener : listener.bind(self)
      if (this.#listeners.length === 0) this.#options?.onFirstListenerAdd?.(this)
      this.#listeners = [...this.#listeners, one] // (a list that is being gone through doesn't change)
      const made = Disposable.create(() => this.#remove(one))
      if (Array.isArray(disposables)) disposables.push(made)
      return made
    })
  }

  #remove(one) {
    const at = this.#listeners.indexOf(one)
    if (at < 0) return
    this.#listeners = this.#listeners.filter((_, other) => other !== at)
    if (this.#listeners.length === 0) this.#options?.onLastListenerRemove?.(this)
  }

  fire(value) {
    for (const it of this.#listeners) {
      try {
        watch(it(value))
      } catch (error) {
        print(error)
      }
    }
  }

  hasListeners() {
    return this.#listeners.length > 0
  }

  dispose() {
    this.#listeners = []
  }
}

module.exports = { Disposable, Event, Emitter }
