'use strict'
// The words of JSON Schema that are about values of one type.

const { canonical } = require('./checks')

/** A number as its decimal digits and the power of ten of the last one, so that 0.3 is three times 0.1. */
function decimal(number) {
  const [, sign, whole, fraction = '', exponent = '0'] = /^(-?)(\d+)(?:\.(\d+))?(?:e([+-]\d+))?$/.exec(String(number))
  return { digits: BigInt(sign + whole + fraction), power: Number(exponent) - fraction.length }
}

function isMultiple(value, of) {
  if (!Number.isFinite(value)) return false
  const number = decimal(value)
  const least = Math.min(number.power, of.power)
  const scaled = it => it.digits * 10n ** BigInt(it.power - least)
  return scaled(number) % scaled(of) === 0n
}

function areUnique(values) {
  return new Set(values.map(canonical)).size === values.length
}

/** How many characters a text has, where a surrogate pair is one. */
function characters(text) {
  let count = text.length
  for (let at = 1; at < text.length; at++) {
    const isLow = (text.charCodeAt(at) & 0xfc00) === 0xdc00
    if (isLow && (text.charCodeAt(at - 1) & 0xfc00) === 0xd800) count--
  }
  return count
}

// What a word's value must be: each gives what the check uses, or throws an Error.

function bound(value) {
  if (typeof value !== 'number') throw new Error('must be a number')
  return value
}

function count(value) {
  if (!Number.isInteger(value) || value < 0) throw new Error('must be an integer of at least 0')
  return value
}

function divisor(value) {
  if (!(bound(value) > 0) || value === Infinity) throw new Error('must be a number above 0')
  return decimal(value)
}

function flag(value) {
  if (typeof value !== 'boolean') throw new Error('must be a boolean')
  return value
}

function pattern(value) {
  if (typeof value !== 'string') throw new Error('must be a string')
  try {
    return new RegExp(value, 'u')
  } catch (error) {
    throw new Error(`must be a regular expression: ${error.message}`)
  }
}

const size = it => Object.keys(it).length

/**
 * Of each word: the type, what makes its bound, whether a value holds it, and what is said of one that doesn't.
 * @type {{ [word: string]: any[] }}
 */
const RULES = {
  minLength: ['string', count, (it, least) => characters(it) >= least, 'must have at least {} characters'],
  maxLength: ['string', count, (it, most) => characters(it) <= most, 'must have at most {} characters'],
  pattern: ['string', pattern, (it, wanted) => wanted.test(it), 'must match {}'],
  minimum: ['number', bound, (it, least) => it >= least, 'must be at least {}'],
  maximum: ['number', bound, (it, most) => it <= most, 'must be at most {}'],
  exclusiveMinimum: ['number', bound, (it, least) => it > least, 'must be more than {}'],
  exclusiveMaximum: ['number', bound, (it, most) => it < most, 'must be less than {}'],
  multipleOf: ['number', divisor, isMultiple, 'must be a multiple of {}'],
  minItems: ['array', count, (it, least) => it.length >= least, 'must have at least {} items'],
  maxItems: ['array', count, (it, most) => it.length <= most, 'must have at most {} items'],
  uniqueItems: ['array', flag, (it, wanted) => !wanted || areUnique(it), 'must have no item twice'],
  minProperties: ['object', count, (it, least) => size(it) >= least, 'must have at least {} members'],
  maxProperties: ['object', count, (it, most) => size(it) <= most, 'must have at most {} members']
}

module.exports = { RULES }
