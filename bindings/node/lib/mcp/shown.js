'use strict'
// Values and texts as errors show them.

const MOST_SHOWN = 60
const HALVES = /[\ud800-\udbff](?![\udc00-\udfff])|(?<![\ud800-\udbff])[\udc00-\udfff]/g

/** A text with U+FFFD for each half of a surrogate pair: those have no UTF-8, so that no message could hold it. */
const wellFormed = text => text.replace(HALVES, '\ufffd')

/** The beginning of a text, which may be the other side's. */
const cut = (text, most) => wellFormed(text.substring(0, most))

/** A value of the program's, cut if it is long. */
function shown(value) {
  const text = JSON.stringify(value) ?? typeof value
  return text.length <= MOST_SHOWN ? text : `${cut(text, MOST_SHOWN)}..`
}

/** The name of a value's type in JSON. */
function typeOf(value) {
  if (value === null) return 'null'
  if (typeof value === 'number') return Number.isInteger(value) ? 'integer' : 'number'
  return Array.isArray(value) ? 'array' : typeof value
}

/** A received value: by its type, if its text may be long. */
function received(value) {
  if (typeof value === 'string') return shown(cut(value, MOST_SHOWN))
  return typeof value === 'object' && value !== null ? typeOf(value) : shown(value)
}

module.exports = { MOST_SHOWN, cut, received, shown, typeOf, wellFormed }
