'use strict'
// What handlers and listeners throw. It may be anything, also what throws in turn once it is looked at: a revoked
// proxy, or an error whose `message` is a getter. So it is looked at here, and nowhere else.

const { types: { isPromise } } = require('node:util')
const { ResponseError } = require('./errors')

/** A longer message is cut: with text around it, one that is as long as a string may be would be too long. */
const LONGEST = 1 << 20

const cut = text => (text.length > LONGEST ? text.substring(0, LONGEST) : text)

/** The message of what was thrown, if it has one that can be read. */
function messageOf(thrown) {
  watch(thrown, () => {}) // (a promise that is thrown has nobody who waits for it)
  try {
    const message = thrown?.message
    return typeof message === 'string' ? cut(message) : undefined
  } catch {
    return undefined
  }
}

/** The code, message and data of a ResponseError; nothing of anything else, or if they can't be read. */
function responseOf(value) {
  try {
    if (!(value instanceof ResponseError)) return undefined
    const { code, message, data } = value
    return { code, message: cut(String(message)), data }
  } catch {
    return undefined
  }
}

/** An error as it was thrown, or one that says so of anything else. */
function errorOf(thrown, what) {
  try {
    if (thrown instanceof Error) return thrown
  } catch {} // (a revoked proxy has no prototype)
  return new Error(`${what}. Reason: ${messageOf(thrown) ?? 'unknown'}`)
}

/** Writes what was thrown to the standard error. */
function print(thrown) {
  watch(thrown, () => {})
  for (const it of [thrown, "what was thrown can't be shown"]) {
    try {
      return console.error(it)
    } catch {} // (of its own way to be shown, or of a console that was replaced)
  }
}

/** Hears of the rejection of a promise that nobody waits for, which would end the process. All else is left alone. */
function watch(value, onRejected = print) {
  try {
    if (isPromise(value)) Promise.prototype.then.call(value, undefined, onRejected)
  } catch (error) { // (of its constructor)
    onRejected(error)
  }
}

module.exports = { messageOf, responseOf, errorOf, print, watch }
