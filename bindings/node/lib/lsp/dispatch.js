'use strict'
// What a server is sent, from the life that lets it in to the handler that it is for.

const { ErrorCodes, ResponseError } = require('../errors')
const { Handlers, handleRequest, handleNotification } = require('../handlers')
const { checkParams } = require('./checking')
const { METHODS } = require('./specification')

class Dispatch {
  #life
  #log
  #check
  #requests = new Handlers()
  #notifications = new Handlers()
  /** The methods of LSP's that have a handler of the program's, and were told by nobody yet to the contrary. */
  registered = new Set()
  /** Called with each method that is registered. */
  onRegistered = () => {}

  /** @param {{ onRequest: any, onNotification: any }} peer */
  constructor(peer, life, log, isChecked) {
    this.#life = life
    this.#log = log
    this.#check = isChecked ? checkParams : () => {}
    peer.onRequest((method, params, token) => this.#request(method, params, token))
    peer.onNotification((method, params) => this.#notified(method, params))
  }

  /** A handler is called as that of a MessageConnection is. `isOptional`: it isn't a fault that nothing tells of it. */
  onRequest(type, handler, isOptional = false) {
    const made = this.#requests.register(type, handler)
    this.#registered(type, isOptional)
    return made
  }

  onNotification(type, handler, isOptional = false) {
    const made = this.#notifications.register(type, handler)
    this.#registered(type, isOptional)
    return made
  }

  #registered(type, isOptional) {
    const method = typeof type === 'string' ? type : type.method
    if (isOptional || !METHODS.has(method)) return
    this.registered.add(method)
    this.onRegistered()
  }

  #request(method, params, token) {
    const refusal = this.#life.refusalOf(method)
    if (refusal !== undefined) throw refusal
    const one = this.#requests.named.get(method)
    if (one === undefined && this.#requests.star === undefined) {
      throw new ResponseError(ErrorCodes.MethodNotFound, `Unhandled method ${method}`)
    }
    this.#check(method, params)
    return one === undefined ? this.#requests.star(method, params, token) : handleRequest(one, method, params, token)
  }

  #notified(method, params) {
    if (!this.#life.takes(method)) return undefined
    const one = this.#notifications.named.get(method)
    if (one === undefined) return this.#notifications.star?.(method, params)
    this.#check(method, params)
    return handleNotification(one, method, params, it => this.#log(it))
  }
}

module.exports = { Dispatch }
