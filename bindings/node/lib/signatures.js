'use strict'
// Types of requests and notifications, and how their params are made of arguments, as vscode-jsonrpc has them.

const { CancellationToken } = require('./cancellation')

class ParameterStructures {
  static auto = new ParameterStructures('auto')
  static byPosition = new ParameterStructures('byPosition')
  static byName = new ParameterStructures('byName')

  constructor(kind) {
    this.kind = kind
  }

  static is(value) {
    return value === this.auto || value === this.byPosition || value === this.byName
  }

  toString() {
    return this.kind
  }
}

class AbstractMessageSignature {
  constructor(method, numberOfParams) {
    this.method = method
    this.numberOfParams = numberOfParams
  }

  get parameterStructures() {
    return ParameterStructures.auto
  }
}

class OfOne extends AbstractMessageSignature {
  #structures

  constructor(method, structures = ParameterStructures.auto) {
    super(method, 1)
    this.#structures = structures
  }

  get parameterStructures() {
    return this.#structures
  }
}

const types = {}
for (const kind of ['Request', 'Notification']) {
  types[`${kind}Type`] = { [`${kind}Type`]: class extends OfOne {} }[`${kind}Type`]
  types[`${kind}Type1`] = { [`${kind}Type1`]: class extends OfOne {} }[`${kind}Type1`]
  for (const count of [0, 2, 3, 4, 5, 6, 7, 8, 9]) {
    const name = `${kind}Type${count}`
    const made = { [name]: class extends AbstractMessageSignature { constructor(method) { super(method, count) } } }
    types[name] = made[name]
  }
}

class ProgressType {}
const ProgressToken = { is: value => typeof value === 'string' || typeof value === 'number' }

const orNull = value => (value === undefined ? null : value)
const isNamed = value => value !== null && typeof value === 'object' && !Array.isArray(value)

function single(structures, value) {
  if (structures === ParameterStructures.byPosition) return [orNull(value)]
  if (isNamed(value)) return value
  if (structures === ParameterStructures.auto) return [orNull(value)]
  throw new Error('Received parameters by name but param is not an object literal.')
}

/** The params that the arguments behind a type are. */
function paramsOfType(type, args) {
  if (type.numberOfParams === 0) return undefined
  if (type.numberOfParams === 1) return single(type.parameterStructures, args[0])
  return Array.from({ length: type.numberOfParams }, (_, at) => orNull(args[at]))
}

/** The params that the arguments behind a method's name are; `end` is behind the last of them. */
function paramsOfName(args, end, word) {
  const isGiven = ParameterStructures.is(args[0])
  const structures = isGiven ? args[0] : ParameterStructures.auto
  const begin = isGiven ? 1 : 0
  if (end <= begin) return undefined
  if (end - begin === 1) return single(structures, args[begin])
  if (structures === ParameterStructures.byName) {
    throw new Error(`Received ${end - begin} parameters for 'by Name' ${word} parameter structure.`)
  }
  return args.slice(begin, end).map(orNull)
}

/** What a request is sent with: its method, params and token. */
function request(type, args) {
  if (typeof type !== 'string') {
    const last = args[type.numberOfParams]
    const token = CancellationToken.is(last) ? last : undefined
    return { method: type.method, params: paramsOfType(type, args), token }
  }
  const last = args[args.length - 1]
  const hasToken = CancellationToken.is(last)
  const params = paramsOfName(args, hasToken ? args.length - 1 : args.length, 'request')
  return { method: type, params, token: hasToken ? last : undefined }
}

/** What a notification is sent with. */
function notification(type, args) {
  if (typeof type !== 'string') return { method: type.method, params: paramsOfType(type, args) }
  return { method: type, params: paramsOfName(args, args.length, 'notification') }
}

module.exports = {
  words: { ...types, ParameterStructures, AbstractMessageSignature, ProgressType, ProgressToken }, ParameterStructures,
  NotificationType: types.NotificationType, ProgressToken, request, notification
}
