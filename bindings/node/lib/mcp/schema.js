'use strict'
// JSON Schemas: what is wrong with one is found when it is registered.

const {
  ANYTHING, AnyOf, Constants, Every, Items, Members, Not, Nothing, OneOf, Rule, TYPES, Typed, isObject
} = require('./checks')
const { RULES } = require('./rules')
const { shown } = require('./shown')

/** The words of JSON Schema (2020-12) that are checked. Others are left to the host, which gets them all. */
const CHECKED = [
  'type', 'enum', 'const', 'properties', 'required', 'additionalProperties', 'items', 'prefixItems', 'anyOf', 'oneOf',
  'allOf', 'not', '$ref', ...Object.keys(RULES)
]
const CIRCLE = ' by references, with no member or item between'
const KINDS = { array: 'an array', object: 'an object' }

/** A part as a JSON pointer has it. */
const written = part => part.replaceAll('~', '~0').replaceAll('/', '~1')
const has = (schema, ...words) => words.some(it => Object.hasOwn(schema, it))

/** A value as JSON has it: what the program changes in its own later is no part of it. */
function plain(value, name) {
  let text
  try {
    text = JSON.stringify(value)
  } catch (error) {
    throw new TypeError(`${name} isn't JSON: ${error.message}`)
  }
  if (text === undefined) throw new TypeError(`${name} isn't JSON: it is ${typeof value}`)
  return JSON.parse(text)
}

/** Makes the checks of one schema. Places are JSON pointers, as those of `$ref`. */
class Schema {
  json
  check
  #name
  #made = new Map()
  #about = new Map() // of each schema, those that are about the same value

  /** Of a schema of this name. Throws a TypeError, with the place, if it isn't one that can be checked. */
  constructor(schema, name = 'schema') {
    this.#name = name
    this.json = plain(schema, name)
    this.check = this.#of(this.json, '#')
    if (isObject(this.json) && isObject(this.json.$defs)) this.#all(this.json.$defs, '#/$defs')
    this.#checkCircles()
  }

  #fault(place, words) {
    return new TypeError(`${this.#name}, at ${place}: ${words}`)
  }

  #of(given, givenPlace) {
    let [schema, place] = [given, givenPlace]
    const followed = new Set([place])
    while (isObject(schema) && has(schema, '$ref') && CHECKED.filter(it => has(schema, it)).length === 1) {
      // (what is a reference and nothing else is what it refers to, so that it adds nothing to a message's depth)
      [schema, place] = this.#referred(schema.$ref, place)
      if (followed.has(place)) throw this.#fault(place, `leads back to ${place}${CIRCLE}`)
      followed.add(place)
    }
    if (schema === true || (isObject(schema) && Object.keys(schema).length === 0)) return ANYTHING
    if (schema === false) return new Nothing()
    if (!isObject(schema)) {
      throw this.#fault(place, `must be a schema, which is an object or a boolean, got ${shown(schema)}`)
    }
    let made = this.#made.get(place)
    if (made === undefined) {
      this.#made.set(place, made = new Every())
      made.parts.push(...this.#parts(schema, place))
    }
    return made
  }

  #parts(schema, place) {
    const parts = []
    if (has(schema, 'type')) parts.push(this.#typed(schema.type, `${place}/type`))
    if (has(schema, 'enum')) parts.push(new Constants(this.#is('array', schema, 'enum', place)))
    if (has(schema, 'const')) parts.push(new Constants([schema.const]))
    for (const word of Object.keys(RULES)) if (has(schema, word)) parts.push(this.#rule(word, schema[word], place))
    if (has(schema, '$ref')) parts.push(this.#of(...this.#referred(schema.$ref, place)))
    if (has(schema, 'properties', 'required', 'additionalProperties')) parts.push(this.#members(schema, place))
    if (has(schema, 'items', 'prefixItems')) {
      const first = has(schema, 'prefixItems') ? this.#each(schema, 'prefixItems', place) : []
      parts.push(new Items(this.#of(has(schema, 'items') ? schema.items : true, `${place}/items`), first))
    }
    return [...parts, ...this.#choices(schema, place)]
  }

  #rule(word, value, place) {
    const [type, prepare, holds, words] = RULES[word]
    try {
      const bound = prepare(value)
      return new Rule(type, it => holds(it, bound), words.replace('{}', () => shown(value)))
    } catch (error) {
      throw this.#fault(`${place}/${word}`, error.message)
    }
  }

  #is(kind, schema, word, place) {
    if (TYPES[kind][1](schema[word])) return schema[word]
    throw this.#fault(`${place}/${word}`, `must be ${KINDS[kind]}, got ${shown(schema[word])}`)
  }

  #typed(given, place) {
    const names = Array.isArray(given) ? given : [given]
    const odd = names.find(it => typeof it !== 'string' || !Object.hasOwn(TYPES, it))
    if (odd === undefined) return new Typed(...names)
    throw this.#fault(place, `${shown(odd)} isn't a type: there are ${Object.keys(TYPES).join(', ')}`)
  }

  #members(schema, place) {
    const required = has(schema, 'required') ? this.#is('array', schema, 'required', place) : []
    required.forEach((it, at) => {
      if (typeof it !== 'string') throw this.#fault(`${place}/required/${at}`, `must be a string, got ${shown(it)}`)
    })
    const given = has(schema, 'properties') ? this.#is('object', schema, 'properties', place) : {}
    const more = has(schema, 'additionalProperties') ? schema.additionalProperties : true
    const others = more === false ? null : this.#of(more, `${place}/additionalProperties`)
    return new Members(this.#all(given, `${place}/properties`), required, others)
  }

  #all(schemas, place) {
    return new Map(Object.keys(schemas).map(it => [it, this.#of(schemas[it], `${place}/${written(it)}`)]))
  }

  #each(schema, word, place) {
    return this.#is('array', schema, word, place).map((it, at) => this.#of(it, `${place}/${word}/${at}`))
  }

  #choices(schema, place) {
    const parts = []
    const same = this.#aboutSame(place)
    for (const word of ['allOf', 'anyOf', 'oneOf']) {
      if (!has(schema, word)) continue
      const found = this.#each(schema, word, place)
      if (found.length === 0) throw this.#fault(`${place}/${word}`, 'must have at least one schema')
      same.push(...found.map((_, at) => `${place}/${word}/${at}`))
      if (word === 'allOf') parts.push(...found)
      else parts.push(word === 'anyOf' ? new AnyOf(found) : new OneOf(found))
    }
    if (has(schema, 'not')) {
      same.push(`${place}/not`)
      parts.push(new Not(this.#of(schema.not, `${place}/not`)))
    }
    return parts
  }

  /** The places of the schemas that are about the same value as the one at this place. */
  #aboutSame(place) {
    if (!this.#about.has(place)) this.#about.set(place, [])
    return this.#about.get(place)
  }

  // References

  /** What a schema refers to, and the place of that. */
  #referred(name, schemaPlace) {
    const place = `${schemaPlace}/$ref`
    if (typeof name !== 'string') throw this.#fault(place, `must be a string, got ${shown(name)}`)
    const pointer = unquoted(name.substring(1))
    if (!name.startsWith('#') || (pointer !== '' && !pointer.startsWith('/'))) {
      throw this.#fault(place, `${shown(name)} isn't a place in this schema: write #/$defs/.. for one`)
    }
    let found = this.json
    let target = '#'
    for (const it of pointer.split('/').slice(1)) {
      const part = it.replaceAll('~1', '/').replaceAll('~0', '~')
      const isThere = Array.isArray(found) ? /^\d+$/.test(part) && Number(part) < found.length
        : isObject(found) && Object.hasOwn(found, part)
      if (!isThere) throw this.#fault(place, `${shown(name)} refers to nothing in this schema`)
      found = found[part]
      target += `/${written(part)}`
    }
    this.#aboutSame(schemaPlace).push(target)
    return [found, target]
  }

  /** Throws a TypeError if a schema leads back to itself with no member or item between: no value ends that. */
  #checkCircles() {
    const done = new Map() // (false while those that it leads to are looked at)
    for (const start of this.#about.keys()) {
      const way = [start]
      while (way.length) {
        const place = way[way.length - 1]
        if (!done.has(place)) done.set(place, false)
        const following = this.#aboutSame(place).find(it => !done.get(it))
        if (following === undefined) done.set(way.pop(), true)
        else if (done.has(following)) throw this.#fault(place, `leads back to ${following}${CIRCLE}`)
        else way.push(following)
      }
    }
  }
}

function unquoted(text) {
  try {
    return decodeURIComponent(text)
  } catch { // (a percent sign that encodes nothing)
    return text
  }
}

module.exports = { CHECKED, Schema, plain }
