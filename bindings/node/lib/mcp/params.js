'use strict'
// What hosts send beside the names of methods: members of params, and cursors.

const { isObject } = require('./checks')
const { invalidParams } = require('./faults')
const { cut, typeOf } = require('./shown')

/** So much of a name, and of the other side's URI, is shown. */
const MOST_NAME = 200
const KINDS = { string: 'a string', object: 'an object' }

const isOf = (value, kind) => (kind === 'object' ? isObject(value) : typeof value === kind)

/** A member of params. Throws where it is missing, or of another kind. */
function member(params, name, kind, isNeeded = true) {
  if (!isObject(params)) throw invalidParams(`params must be an object, got ${typeOf(params ?? null)}`)
  const isThere = Object.hasOwn(params, name)
  const value = isThere ? params[name] : undefined
  if (!isNeeded && (value === undefined || value === null)) return undefined
  if (isOf(value, kind)) return value
  throw invalidParams(isThere ? `${name} must be ${KINDS[kind]}, got ${typeOf(value)}` : `${name} is missing`)
}

/** Params that may be absent, and are an object if not. */
function checkObject(params) {
  if (params !== undefined && !isObject(params)) throw invalidParams(`params must be an object, got ${typeOf(params)}`)
}

function checkTexts(members, place) {
  for (const [name, it] of Object.entries(members)) {
    if (typeof it !== 'string') throw invalidParams(`${place}.${cut(name, 60)} must be a string, got ${typeOf(it)}`)
  }
}

const cursorOf = place => Buffer.from(String(place)).toString('base64')

/** Where the page of a cursor begins. */
function placeOf(params, count) {
  const cursor = isObject(params) ? params.cursor : undefined
  if (cursor === undefined || cursor === null) return 0
  const digits = typeof cursor === 'string' ? Buffer.from(cursor, 'base64').toString('latin1') : ''
  const isOurs = /^[1-9]\d{0,9}$/.test(digits) && cursorOf(digits) === cursor && Number(digits) <= count
  if (!isOurs) throw invalidParams("this cursor isn't one of this list's")
  return Number(digits)
}

module.exports = { MOST_NAME, checkObject, checkTexts, cursorOf, member, placeOf }
