'use strict'
// What a server asks its host: the model, the user, and the folders that it may work in.

const { ErrorCodes, ResponseError } = require('../errors')
const { isObject } = require('./checks')
const { text } = require('./content')
const { invalidParams } = require('./faults')
const { QUESTIONS, checked, faultIn } = require('./results')
const { turnFault } = require('./sampling')
const { cut } = require('./shown')

/** Since this version a host says what it can be asked for: forms or pages, and a model's tools. */
const DETAILED = '2025-11-25'
const REJECTED = -1

class Asked {
  /** What the server is told that it can ask. */
  capabilities = {}
  roots
  /** @type {Map<string, (params?: any) => any>} */
  #answers = new Map([['ping', () => ({})]])

  /** Functions that answer, and whether the model knows tools; `version` is the first that may be agreed on. */
  constructor({ sampling, samplingTools, elicitation, page, roots }, version) {
    this.roots = roots
    if (sampling !== undefined) {
      const hasTools = !!samplingTools && version >= DETAILED
      this.capabilities.sampling = hasTools ? { tools: {} } : {}
      this.#answers.set('sampling/createMessage', async params => messageOf(await sampled(sampling, params, hasTools)))
    }
    if (elicitation !== undefined || page !== undefined) {
      const modes = { ...(elicitation && { form: {} }), ...(page && { url: {} }) }
      // (before, there were forms alone, and no word for them)
      this.capabilities.elicitation = version >= DETAILED ? modes : {}
      this.#answers.set('elicitation/create', params => elicited(elicitation, page, params))
    }
    if (roots === undefined) return
    this.capabilities.roots = { listChanged: true }
    const given = async () => (typeof this.roots === 'function' ? this.roots() : this.roots)
    this.#answers.set('roots/list', async () => rootsOf(await given()))
  }

  async answer(method, params) {
    const answer = this.#answers.get(method)
    if (answer === undefined) {
      throw new ResponseError(ErrorCodes.MethodNotFound, `Method not found: ${cut(method, 200)}`)
    }
    const fault = Object.hasOwn(QUESTIONS, method) ? faultIn(QUESTIONS, method, params ?? null, 'params') : undefined
    if (fault !== undefined) throw invalidParams(fault)
    const result = await answer(params)
    return method === 'ping' ? result : checked(method, JSON.parse(JSON.stringify(result)))
  }
}

function sampled(sampling, params, hasTools) {
  if (!hasTools && (Object.hasOwn(params, 'tools') || Object.hasOwn(params, 'toolChoice'))) {
    throw invalidParams("params.tools: this host's model uses no tools")
  }
  const fault = turnFault(params.messages)
  if (fault !== undefined) throw invalidParams(`params.${fault}`)
  return sampling(params)
}

/** A model's message: a text is one, and nothing says that the user rejected the question. */
function messageOf(given) {
  if (given === undefined || given === null) throw new ResponseError(REJECTED, 'User rejected sampling request')
  if (typeof given !== 'string') return given
  return { role: 'assistant', content: text(given), model: 'unknown', stopReason: 'endTurn' }
}

async function elicited(form, page, params) {
  if (params.mode === 'url' && page !== undefined) {
    const agreed = await page(params.message, params.url)
    return isObject(agreed) ? agreed : { action: agreed ? 'accept' : 'decline' }
  }
  if (params.mode === 'url' || form === undefined) throw invalidParams("params.mode isn't one that this host has")
  const given = await form(params.message, params.requestedSchema)
  if (given === undefined || given === null) return { action: 'decline' }
  return isObject(given) && 'action' in given ? given : { action: 'accept', content: given }
}

const rootsOf = given => ({ roots: Array.from(given ?? [], it => (typeof it === 'string' ? { uri: it } : it)) })

module.exports = { Asked }
