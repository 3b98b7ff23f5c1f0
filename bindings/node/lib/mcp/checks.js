'use strict'
// Checks JSON values: one pass, which gives a value's first fault, if it has one.
//
// Nothing is read twice. Two alternatives of a union may have the same parts, and these the same again, so that reading
// them anew would double the work at each level of a tree. So what `Every` found is kept for the pass, by check and
// value.

const { shown, received, typeOf, cut, MOST_SHOWN } = require('./shown')

const MOST_LISTED = 20

/** How near a value is to what a check wants: of another type, of another tag, or right except for a part of it. */
const OTHER = 0
const TAGGED = 1
const NEAR = 2

/** Texts as a sentence has them: `a, b or c`. */
function listed(texts) {
  if (texts.length > MOST_LISTED) {
    return `${texts.slice(0, MOST_LISTED).join(', ')} or one of ${texts.length - MOST_LISTED} more`
  }
  return [texts.slice(0, -1).join(', '), texts[texts.length - 1]].filter(Boolean).join(' or ')
}

/** What is wrong with a value, or with a part of it. */
class Fault {
  #words
  #wanted
  #parts
  nearness

  /** In these words; or, if something else is `wanted`, with what is there as the words. */
  constructor(words, wanted = [], nearness = NEAR, parts = undefined) {
    this.#words = words
    this.#wanted = wanted
    this.nearness = nearness
    this.#parts = parts // of the value, the outermost first: a part, and those within it
  }

  /** The same fault, as one of the value that has this part. */
  under(part, nearness = NEAR) {
    return new Fault(this.#words, this.#wanted, nearness, [part, this.#parts])
  }

  /** The fault of the value at this place. */
  text(place) {
    let at = place
    for (let it = this.#parts; it !== undefined; it = it[1]) {
      at += typeof it[0] === 'number' ? `[${it[0]}]` : `.${cut(it[0], MOST_SHOWN)}`
    }
    return `${at} ${this.#wanted.length ? `must be ${listed(this.#wanted)}, got ${this.#words}` : this.#words}`
  }

  /** Of faults with alternatives, the first of the nearest; all that was wanted, if the value is none of them. */
  static nearest(faults) {
    const most = Math.max(...faults.map(it => it.nearness))
    const alike = faults.filter(it => it.nearness === most)
    const [first] = alike
    if (most === NEAR) return first
    // (each once: two alternatives that refer to the same one would double them at each reference)
    const wanted = new Set(alike.filter(it => Fault.#areSame(it.#parts, first.#parts)).flatMap(it => it.#wanted))
    return new Fault(first.#words, [...wanted], most, first.#parts)
  }

  static #areSame(one, other) {
    if (one === undefined || other === undefined) return one === other
    return one[0] === other[0] && Fault.#areSame(one[1], other[1])
  }
}

const isObject = it => typeof it === 'object' && it !== null && !Array.isArray(it)

const TYPES = {
  string: ['a string', it => typeof it === 'string'],
  integer: ['an integer', it => Number.isInteger(it)],
  number: ['a number', it => typeof it === 'number'],
  boolean: ['a boolean', it => typeof it === 'boolean'],
  null: ['null', it => it === null],
  array: ['an array', it => Array.isArray(it)],
  object: ['an object', isObject]
}

/** Values that are equal in JSON have one text here, and no others have it. */
function canonical(value) {
  if (Array.isArray(value)) return `[${value.map(canonical).join()}]`
  if (!isObject(value)) return value === Infinity || value === -Infinity ? String(value) : JSON.stringify(value)
  return `{${Object.keys(value).sort().map(it => `${JSON.stringify(it)}:${canonical(value[it])}`).join()}}`
}

// What looks at a value itself. Each check has fault(value, seen): the fault, or undefined.

class Leaf {}

class Typed extends Leaf {
  #wanted
  #checks

  constructor(...names) {
    super()
    this.#wanted = names.map(it => TYPES[it][0])
    this.#checks = names.map(it => TYPES[it][1])
  }

  fault(value) {
    return this.#checks.some(it => it(value)) ? undefined : new Fault(typeOf(value), this.#wanted, OTHER)
  }
}

/** Takes some values. */
class Constants extends Leaf {
  #values
  #wanted

  constructor(values) {
    super()
    this.#values = new Set(values.map(canonical))
    this.#wanted = values.length ? values.map(shown) : ['one of no values']
  }

  fault(value) {
    return this.#values.has(canonical(value)) ? undefined : new Fault(received(value), this.#wanted, OTHER)
  }
}

/** Takes values of a type as a word of JSON Schema says, and all that are of another type. */
class Rule extends Leaf {
  #isOne
  #holds
  #words

  constructor(type, holds, words) {
    super()
    this.#isOne = TYPES[type][1]
    this.#holds = holds
    this.#words = words
  }

  fault(value) {
    return this.#isOne(value) && !this.#holds(value) ? new Fault(this.#words) : undefined
  }
}

class Anything extends Leaf {
  fault() {
    return undefined
  }
}

class Nothing extends Leaf {
  fault() {
    return new Fault("isn't allowed")
  }
}

const ANYTHING = new Anything()

// What looks at the parts of a value.

/** Whether a check takes constants alone. */
function isConstant(check) {
  return check instanceof Constants || (check instanceof Every && check.parts.some(it => it instanceof Constants))
}

/** Takes objects by their members, and all that isn't an object. */
class Members {
  #members
  #required
  #more
  #tags // (found at the first use, when all checks are whole)

  /** With checks of these members, a Map, and one of all others, if there may be others. */
  constructor(members, required, more = ANYTHING) {
    this.#members = members
    this.#required = required
    this.#more = more
  }

  fault(value, seen) {
    if (!isObject(value)) return undefined
    this.#tags ??= this.#required.filter(it => isConstant(this.#members.get(it)))
    // (a required constant is a tag: it says which alternative is meant, so it decides before anything else is read)
    for (const name of this.#tags) {
      if (!Object.hasOwn(value, name)) return new Fault(`lacks ${name}`)
      const found = this.#members.get(name).fault(value[name], seen)
      if (found !== undefined) return found.under(name, TAGGED)
    }
    for (const name of this.#required) if (!Object.hasOwn(value, name)) return new Fault(`lacks ${name}`)
    return this.#faultOfEach(value, seen)
  }

  #faultOfEach(value, seen) {
    for (const name of Object.keys(value)) {
      const check = this.#members.get(name) ?? this.#more
      if (check === null) return new Fault(`has a member ${received(name)}, which isn't allowed`)
      const found = check.fault(value[name], seen)
      if (found !== undefined) return found.under(name)
    }
    return undefined
  }
}

/** Takes arrays by their items, and all that isn't an array. */
class Items {
  #rest
  #first

  constructor(rest, first = []) {
    this.#rest = rest
    this.#first = first
  }

  fault(value, seen) {
    if (!Array.isArray(value)) return undefined
    for (let at = 0; at < value.length; at++) {
      const found = (at < this.#first.length ? this.#first[at] : this.#rest).fault(value[at], seen)
      if (found !== undefined) return found.under(at)
    }
    return undefined
  }
}

// Several checks of one value.

/** Takes what each of its parts takes. */
class Every {
  parts = []
  #isLeaf // (found at the first use, when the parts are whole)

  constructor(...parts) {
    this.parts = parts
  }

  fault(value, seen) {
    this.#isLeaf ??= this.parts.every(it => it instanceof Leaf)
    if (this.#isLeaf) return this.#firstFault(value, seen)
    let kept = seen.get(this)
    if (kept === undefined) seen.set(this, kept = new Map())
    if (!kept.has(value)) kept.set(value, this.#firstFault(value, seen))
    return kept.get(value)
  }

  #firstFault(value, seen) {
    for (const it of this.parts) {
      const found = it.fault(value, seen)
      if (found !== undefined) return found
    }
    return undefined
  }
}

/** Takes what one of its alternatives takes. */
class AnyOf {
  #alternatives

  constructor(alternatives) {
    this.#alternatives = alternatives
  }

  fault(value, seen) {
    const faults = []
    for (const it of this.#alternatives) {
      const found = it.fault(value, seen)
      if (found === undefined) return undefined
      faults.push(found)
    }
    return Fault.nearest(faults)
  }
}

/** Takes what exactly one of its alternatives takes. */
class OneOf {
  #alternatives

  constructor(alternatives) {
    this.#alternatives = alternatives
  }

  fault(value, seen) {
    const found = this.#alternatives.map(it => it.fault(value, seen))
    const faults = found.filter(it => it !== undefined)
    if (faults.length === found.length) return Fault.nearest(faults)
    const fits = found.length - faults.length
    return fits === 1 ? undefined : new Fault(`must match exactly one alternative, matches ${fits}`)
  }
}

/** Takes what another check doesn't. */
class Not {
  #check

  constructor(check) {
    this.#check = check
  }

  fault(value, seen) {
    return this.#check.fault(value, seen) === undefined ? new Fault("isn't allowed") : undefined
  }
}

/** The text of a value's fault, or undefined. */
function faultOf(check, value, place) {
  try {
    return check.fault(value, new Map())?.text(place)
  } catch (error) {
    if (error instanceof RangeError) return `${place} nests too deep`
    throw error
  }
}

module.exports = {
  ANYTHING, AnyOf, Constants, Every, Items, Members, Not, Nothing, OneOf, Rule, TYPES, Typed, canonical, faultOf,
  isObject
}
