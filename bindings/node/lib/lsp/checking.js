'use strict'
// Holds the params of LSP's methods to their types.

const { ErrorCodes, ResponseError } = require('../errors')
const { METHODS } = require('./specification')
const { fault, isEmpty } = require('./fitting')

/** Throws the error that answers params which aren't the method's. Those of other methods are the program's matter. */
function checkParams(method, params) {
  const type = METHODS.get(method)?.params
  if (type === undefined || (params === undefined && isEmpty(type))) return
  const why = fault(type, params, 'params')
  if (why !== undefined) throw new ResponseError(ErrorCodes.InvalidParams, `Invalid params: ${why}`)
}

module.exports = { checkParams }
