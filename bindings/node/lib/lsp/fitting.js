'use strict'
// Whether a value is of a type of LSP's, and where it isn't. A type is a name, or an array: ['|', A, B], ['[]', A],
// ['{}', A], ['()', A, B] and ['=', 'create'].

const { structures, unions, enumerations } = require('./specification')

const STRINGS = ['string', 'DocumentUri', 'URI']
const WORDS = {
  integer: 'an integer', uinteger: 'an integer', decimal: 'a number', boolean: 'true or false', null: 'null',
  LSPObject: 'an object', array: 'an array', ...Object.fromEntries(STRINGS.map(it => [it, 'a string']))
}
const SHOWN = 40 // so much of a value is shown
const MOST = 2147483647 // the largest integer of LSP's

const isObject = value => value !== null && typeof value === 'object' && !Array.isArray(value)
const isOneString = value => typeof value === 'string'

/** @type {Map<string, (value: any) => boolean>} */
const ready = new Map(Object.entries({
  integer: value => Number.isInteger(value),
  uinteger: value => Number.isInteger(value) && value >= 0 && value <= MOST,
  decimal: value => typeof value === 'number' && !Number.isNaN(value),
  boolean: value => typeof value === 'boolean',
  null: value => value === null,
  LSPObject: isObject,
  LSPAny: () => true,
  ...Object.fromEntries(STRINGS.map(it => [it, isOneString]))
}))

// Of these structures no other member has to be there. Clients of LSP 3.15 leave versions out or send null, and those
// of tests leave out more: a session doesn't fail for what a server can do without. (A client that is newer than LSP
// 3.17 tells capabilities and traces that 3.17 hasn't, so these aren't looked at.)
const NEEDED = {
  InitializeParams: [], TextDocumentItem: ['uri', 'text'], VersionedTextDocumentIdentifier: [], WorkspaceFolder: ['uri']
}
const OPEN = new Set(['TraceValues'])

/** @type {Map<string, { name: string, isOptional: boolean, type: any }[]>} */
const known = new Map()

/** The members of a structure, with those of what it extends. */
function membersOf(structure) {
  const found = known.get(structure)
  if (found !== undefined) return found
  const own = structure === 'ClientCapabilities' ? {} : structures[structure]
  const made = new Map()
  for (const base of (own[''] ?? '').split(' ').filter(Boolean)) for (const it of membersOf(base)) made.set(it.name, it)
  const needed = NEEDED[structure]
  for (const [key, type] of Object.entries(own)) {
    if (key === '') continue
    const name = key.replace('?', '')
    made.set(name, { name, isOptional: key.endsWith('?') || (needed !== undefined && !needed.includes(name)), type })
  }
  const members = [...made.values()]
  known.set(structure, members)
  return members
}

/**
 * What says whether a value fits a type. A member that may be absent may be null, and the other way round.
 * @returns {(value: any) => boolean}
 */
function fits(type) {
  if (Array.isArray(type)) return fitsParts(type[0], type.slice(1))
  const found = ready.get(type)
  if (found !== undefined) return found
  ready.set(type, value => fits(type)(value)) // (a structure may be in itself)
  const made = fitsName(type)
  ready.set(type, made)
  return made
}

function fitsName(type) {
  if (Object.hasOwn(structures, type)) return fitsStructure(type)
  if (Object.hasOwn(unions, type)) return fits(unions[type])
  const { of, open, values } = enumerations[type]
  const isOne = fits(of)
  const all = new Set(Object.values(values))
  return open || OPEN.has(type) ? isOne : value => isOne(value) && all.has(value)
}

function fitsParts(sign, parts) {
  if (sign === '=') return value => value === parts[0]
  const each = parts.map(fits)
  const [first] = each
  if (sign === '[]') return value => Array.isArray(value) && value.every(first)
  if (sign === '{}') return value => isObject(value) && Object.values(value).every(first)
  if (sign === '|') return value => each.some(it => it(value))
  return value => Array.isArray(value) && value.length === each.length && each.every((it, at) => it(value[at]))
}

function fitsStructure(structure) {
  const members = membersOf(structure).map(({ name, isOptional, type }) => {
    const isOne = fits(type)
    return { name, isOne, mayLack: isOptional || type === 'LSPAny' || (Array.isArray(type) && fits(type)(null)) }
  })
  return value => isObject(value) && members.every(({ name, isOne, mayLack }) => {
    const it = value[name]
    return it === undefined || it === null ? mayLack : isOne(it)
  })
}

/** What JSON calls a value. */
function named(value) {
  if (value === undefined) return 'nothing'
  if (value === null) return 'null'
  return Array.isArray(value) ? 'array' : typeof value
}

/** A value as JSON, its beginning if it is long. */
function shown(value) {
  const text = JSON.stringify(value) ?? named(value)
  return text.length <= SHOWN ? text : `${text.substring(0, SHOWN)}..`
}

/** What a value of a type is, in a word. */
function wordsOf(type) {
  if (Array.isArray(type)) {
    const [sign, ...parts] = type
    if (sign === '=') return shown(parts[0])
    if (sign === '|') return [...new Set(parts.map(wordsOf))].join(' or ')
    return sign === '{}' ? 'an object' : 'an array'
  }
  if (Object.hasOwn(structures, type)) return `${/^[AEIOU]/.test(type) ? 'an' : 'a'} ${type}`
  if (Object.hasOwn(unions, type)) return wordsOf(unions[type])
  return WORDS[enumerations[type]?.of ?? type]
}

/** The first thing that is wrong with a value that doesn't fit a type: its place, and what it must be. */
function faultOf(type, value, place) {
  if (Array.isArray(type)) return faultOfParts(type, value, place)
  if (Object.hasOwn(structures, type)) return faultOfStructure(type, value, place)
  if (Object.hasOwn(unions, type)) return faultOf(unions[type], value, place)
  const { of, values } = enumerations[type] ?? { of: type, values: undefined }
  if (of === 'uinteger' && Number.isInteger(value) && value < 0) return { place, words: 'must be at least 0' }
  if (of === 'uinteger' && Number.isInteger(value) && value > MOST) return { place, words: `must be at most ${MOST}` }
  const isValue = values !== undefined && fits(of)(value)
  return { place, words: isValue ? `must be one of ${type}'s values, got ${shown(value)}` : must(type, value) }
}

const must = (type, value) => `must be ${wordsOf(type)}, got ${named(value)}`

function faultOfParts(type, value, place) {
  const [sign, ...parts] = type
  if (sign === '|') return faultOfUnion(parts, type, value, place)
  const isRightKind = sign === '{}' ? isObject(value) : sign !== '=' && Array.isArray(value)
  if (!isRightKind) return { place, words: must(type, value) }
  if (sign === '()' && value.length !== parts.length) return { place, words: `must have ${parts.length} items` }
  const partAt = at => (sign === '()' ? parts[at] : parts[0])
  /** @type {any[]} */
  const keys = Array.isArray(value) ? [...value.keys()] : Object.keys(value)
  const wrong = keys.find(at => !fits(partAt(at))(value[at]))
  return faultOf(partAt(wrong), value[wrong], `${place}[${shown(wrong)}]`)
}

/** The fault of the alternative that is nearest: the one whose fault is deepest in the value. */
function faultOfUnion(parts, type, value, place) {
  const inside = parts.map(it => faultOf(it, value, place))
    .filter(it => it.place !== place || !it.words.startsWith('must be'))
    .sort((one, other) => other.place.length - one.place.length)
  return inside[0] ?? { place, words: must(type, value) }
}

function faultOfStructure(structure, value, place) {
  if (!isObject(value)) return { place, words: `must be an object, got ${named(value)}` }
  for (const { name, isOptional, type } of membersOf(structure)) {
    const it = value[name]
    if (it === undefined && !isOptional && !fits(type)(null)) return { place, words: `lacks ${name}` }
    if (it !== undefined && !(it === null && isOptional) && !fits(type)(it)) return faultOf(type, it, `${place}.${name}`)
  }
  return { place, words: must(structure, value) }
}

/** What is wrong with a value of a type, or undefined. */
function fault(type, value, place) {
  if (fits(type)(value)) return undefined
  const found = faultOf(type, value, place)
  return `${found.place} ${found.words}`
}

/** Whether all members of a structure may be absent, and so the structure itself as params. */
const isEmpty = type => Object.hasOwn(structures, type) && membersOf(type).length === 0

module.exports = { fits, fault, isEmpty, membersOf }
