'use strict'
// Methods that come and go while a server runs, with the names of vscode-languageserver.

const crypto = require('node:crypto')
const { Disposable } = require('../events')

const REGISTER = 'client/registerCapability'
const UNREGISTER = 'client/unregisterCapability'
const methodOf = type => (typeof type === 'string' ? type : type.method)

/** Several registrations, which are sent together. */
class Bulk {
  #registrations = []

  add(type, registerOptions = {}) {
    const method = methodOf(type)
    if (this.#registrations.some(it => it.method === method)) throw new Error(`${method} is already added to this registration`)
    this.#registrations.push({ id: crypto.randomUUID(), method, registerOptions })
  }

  asRegistrationParams() {
    return { registrations: this.#registrations }
  }
}

/** What takes several registrations back. */
class Unregistration {
  #client
  #ids = new Map()

  constructor(client, registrations = []) {
    this.attach(client, registrations)
  }

  get isAttached() { return this.#client !== undefined }

  attach(client, registrations) {
    this.#client = client
    for (const { id, method } of registrations) this.#ids.set(method, id)
  }

  add(id, method) {
    this.#ids.set(method, id)
  }

  dispose() {
    const all = [...this.#ids].map(([method, id]) => ({ id, method }))
    this.#ids.clear()
    if (all.length) this.#client?.unregister(all)
  }

  /** Takes one back, and gives whether it was there. */
  disposeSingle(type) {
    const method = methodOf(type)
    const id = this.#ids.get(method)
    if (id === undefined) return false
    this.#ids.delete(method)
    this.#client?.unregister([{ id, method }])
    return true
  }
}

const BulkRegistration = { create: () => new Bulk() }
const BulkUnregistration = { create: () => new Unregistration(undefined) }

class Client {
  #remote
  /** The methods that the client was told of while it runs. */
  methods = new Set()

  constructor(remote) {
    this.#remote = remote
  }

  /** Takes a type with options, a BulkRegistration, or a BulkUnregistration with a type and options. */
  register = (first, second, third) => {
    if (first instanceof Bulk) return this.#registerAll(first.asRegistrationParams())
    if (first instanceof Unregistration) return this.#registerInto(first, methodOf(second), third)
    return this.#registerOne(methodOf(first), second)
  }

  async #register(registrations) {
    for (const { method } of registrations) this.methods.add(method)
    try {
      await this.#remote.call(REGISTER, { registrations })
    } catch (error) {
      for (const { method } of registrations) this.methods.delete(method)
      this.#remote.say('info', `Registering ${registrations.map(it => it.method).join(', ')} failed: ${error.message}`)
      throw error
    }
  }

  #made(promise) {
    promise.catch(() => {}) // (it is logged)
    return promise
  }

  #registerOne(method, registerOptions = {}) {
    const id = crypto.randomUUID()
    const taken = () => Disposable.create(() => this.unregister([{ id, method }]))
    return this.#made(this.#register([{ id, method, registerOptions }]).then(taken))
  }

  #registerInto(unregistration, method, registerOptions = {}) {
    const id = crypto.randomUUID()
    return this.#made(this.#register([{ id, method, registerOptions }]).then(() => {
      if (!unregistration.isAttached) unregistration.attach(this, [])
      unregistration.add(id, method)
      return unregistration
    }))
  }

  #registerAll({ registrations }) {
    return this.#made(this.#register(registrations).then(() => new Unregistration(this, registrations)))
  }

  unregister(all) {
    for (const { method } of all) this.methods.delete(method)
    const names = all.map(it => it.method).join(', ')
    // (the specification spells it so)
    this.#remote.call(UNREGISTER, { unregisterations: all }).catch(error => {
      this.#remote.say('info', `Unregistering ${names} failed: ${error.message}`)
    })
  }
}

module.exports = { Client, BulkRegistration, BulkUnregistration }
