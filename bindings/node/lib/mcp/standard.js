'use strict'
// The schemas of arguments and results: JSON Schemas, validators with the Standard Schema interface (`~standard`), as
// zod, valibot and arktype have it, and objects of such validators.

const { faultOf, isObject } = require('./checks')
const { invalidParams } = require('./faults')
const { Schema, plain } = require('./schema')
const { shown, typeOf, wellFormed } = require('./shown')

const TARGET = { target: 'draft-2020-12' }
const MOST_ISSUES = 3
/** Where `completable` keeps what completes an argument. */
const COMPLETE = Symbol('complete')

const isStandard = it => (
  it !== null && (typeof it === 'object' || typeof it === 'function') && typeof it['~standard']?.validate === 'function'
)

/** The JSON Schema that a validator gives, in the one of three ways in which such do. `side` is input or output. */
function jsonSchemaOf(validator, side) {
  const { jsonSchema } = validator['~standard']
  if (typeof jsonSchema?.[side] === 'function') return jsonSchema[side](TARGET)
  const toJson = validator.toJSONSchema ?? validator.toJsonSchema
  return typeof toJson === 'function' ? toJson.call(validator) : undefined
}

function issueText(issue, place) {
  const path = Array.from(issue?.path ?? [], it => (isObject(it) ? it.key : it))
  const at = path.map(it => (typeof it === 'number' ? `[${it}]` : `.${String(it)}`)).join('')
  return wellFormed(`${place}${at}: ${issue?.message ?? "isn't valid"}`)
}

/** What a validator makes of a value. Throws what `refuse` makes of a fault's text. */
async function validated(validator, value, place, refuse) {
  const found = await validator['~standard'].validate(value)
  if (found?.issues) {
    throw refuse(Array.from(found.issues).slice(0, MOST_ISSUES).map(it => issueText(it, place)).join('; '))
  }
  if (!isObject(found) || !('value' in found)) throw new TypeError('the validator gave neither a value nor issues')
  return found.value
}

/** A schema of arguments or results: `json` is what the host is told, and read(..) gives what a value becomes. */
class OfJson {
  json
  completions
  #check

  constructor(schema, name) {
    const { json, check } = new Schema(schema, name)
    if (!isObject(json) || json.type !== 'object') throw new TypeError(`${name}, at #/type: must be "object"`)
    this.json = json
    this.#check = check
    this.completions = completionsIn(schema.properties)
  }

  async read(value, place, refuse) {
    const fault = faultOf(this.#check, value, place)
    if (fault !== undefined) throw refuse(fault)
    return value
  }
}

class OfValidator {
  json
  completions = new Map()
  #validator

  /** @param {any} validator @param {string} name @param {{ side: string, jsonSchema?: any }} options */
  constructor(validator, name, { jsonSchema, side }) {
    const json = jsonSchema ?? jsonSchemaOf(validator, side)
    if (json === undefined) {
      throw new TypeError(`${name}: this validator has no JSON Schema to tell: give one as ${name}Json`)
    }
    this.json = new OfJson(json, name).json
    this.#validator = validator
  }

  read(value, place, refuse) {
    return validated(this.#validator, value, place, refuse)
  }
}

/** An object of validators, by the names of members; other members are dropped. */
class OfShape {
  json
  completions
  #shape

  constructor(shape, name, { side }) {
    const wrong = Object.keys(shape).find(it => !isStandard(shape[it]))
    if (wrong !== undefined) throw new TypeError(`${name}: ${shown(wrong)} isn't a validator, and others are`)
    this.#shape = { ...shape }
    this.completions = completionsIn(shape)
    const names = Object.keys(shape)
    const properties = names.map(it => [it, plain(jsonSchemaOf(shape[it], side) ?? {}, name)])
    const required = names.filter(it => !takesNothing(shape[it]))
    this.json = new OfJson({ type: 'object', properties: Object.fromEntries(properties), required }, name).json
    if (required.length === 0) delete this.json.required
  }

  async read(value, place, refuse) {
    if (!isObject(value)) throw refuse(`${place} must be an object, got ${typeOf(value)}`)
    const made = {}
    for (const name of Object.keys(this.#shape)) {
      const given = Object.hasOwn(value, name) ? value[name] : undefined
      const found = await validated(this.#shape[name], given, `${place}.${name}`, refuse)
      if (found !== undefined) made[name] = found
    }
    return made
  }
}

/** Whether a validator takes what isn't there, so that the member isn't required. */
function takesNothing(validator) {
  const found = validator['~standard'].validate(undefined)
  if (typeof found?.then !== 'function') return !found?.issues
  found.then(undefined, () => {}) // (one that takes its time isn't waited for)
  return false
}

/** What completes members, by their names. */
function completionsIn(members) {
  const found = Object.entries(isObject(members) ? members : {}).filter(([, it]) => it?.[COMPLETE])
  return new Map(found.map(([name, it]) => [name, it[COMPLETE]]))
}

const NO_ARGUMENTS = { type: 'object', properties: {}, additionalProperties: false }

/**
 * Of what the program gives as a schema of this name. The options are the JSON Schema that is told in place of a
 * validator's own, and whether that of its input or its output is told.
 * @param {any} given @param {string} name @param {{ side: string, jsonSchema?: any }} options
 */
function schemaOf(given, name, options) {
  if (given === undefined) return new OfJson(NO_ARGUMENTS, name)
  if (isStandard(given)) return new OfValidator(given, name, options)
  if (isObject(given) && (Object.keys(given).length === 0 || Object.values(given).some(isStandard))) {
    return new OfShape(given, name, options)
  }
  return new OfJson(given, name)
}

/** A validator, or a member of a JSON Schema, of an argument that `complete(value, context)` completes. */
function completable(schema, complete) {
  if (typeof complete !== 'function') throw new TypeError('what completes an argument is a function')
  const made = isStandard(schema)
    ? { '~standard': schema['~standard'], toJSONSchema: () => jsonSchemaOf(schema, 'input') ?? {} } : { ...schema }
  return Object.defineProperty(made, COMPLETE, { value: complete })
}

module.exports = { completable, invalidParams, schemaOf }
