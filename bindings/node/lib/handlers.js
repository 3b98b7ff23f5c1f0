'use strict'
// Handlers by their methods, and how params become their arguments, as in vscode-jsonrpc.

const { ResponseError, ErrorCodes } = require('./errors')
const { ParameterStructures, ProgressToken } = require('./signatures')

class Handlers {
  named = new Map()
  star

  /** Takes (handler), (method, handler) or (type, handler). */
  register(type, handler) {
    if (typeof type === 'function') {
      this.star = type
      return { dispose: () => { if (this.star === type) this.star = undefined } }
    }
    if (typeof handler !== 'function') throw new TypeError('a handler has to be a function')
    const isName = typeof type === 'string'
    const method = isName ? type : type.method
    const one = { handler, type: isName ? undefined : type }
    this.named.set(method, one)
    return { dispose: () => { if (this.named.get(method) === one) this.named.delete(method) } }
  }
}

const invalid = text => new ResponseError(ErrorCodes.InvalidParams, text)

/** Calls a request's handler. Params that don't fit its type are thrown as the error that answers it. */
function handleRequest({ handler, type }, method, params, token) {
  if (params === undefined) {
    if (type !== undefined && type.numberOfParams !== 0) {
      throw invalid(`Request ${method} defines ${type.numberOfParams} params but received none.`)
    }
    return handler(token)
  }
  const structures = type?.parameterStructures
  if (Array.isArray(params)) {
    if (structures === ParameterStructures.byName) {
      throw invalid(`Request ${method} defines parameters by name but received parameters by position`)
    }
    return handler(...params, token)
  }
  if (structures === ParameterStructures.byPosition) {
    throw invalid(`Request ${method} defines parameters by position but received parameters by name`)
  }
  return handler(params, token)
}

/** What of a notification's params doesn't fit its type: it is called all the same. */
function misfit(type, method, params) {
  const structures = type.parameterStructures
  if (params === undefined) {
    if (type.numberOfParams === 0 || structures === ParameterStructures.byName) return undefined
    return `Notification ${method} defines ${type.numberOfParams} params but received none.`
  }
  if (!Array.isArray(params)) {
    if (structures !== ParameterStructures.byPosition) return undefined
    return `Notification ${method} defines parameters by position but received parameters by name`
  }
  if (structures === ParameterStructures.byName) {
    return `Notification ${method} defines parameters by name but received parameters by position`
  }
  if (type.numberOfParams === params.length) return undefined
  return `Notification ${method} defines ${type.numberOfParams} params but received ${params.length} arguments`
}

function handleNotification({ handler, type }, method, params, tell) {
  const why = type === undefined ? undefined : misfit(type, method, params)
  if (why !== undefined) tell(why)
  if (params === undefined) return handler()
  if (!Array.isArray(params)) return handler(params)
  // (some peers send progress by position, though it is specified by name)
  const isProgress = method === '$/progress' && params.length === 2 && ProgressToken.is(params[0])
  return isProgress ? handler({ token: params[0], value: params[1] }) : handler(...params)
}

module.exports = { Handlers, handleRequest, handleNotification }
