'use strict'
// The addon, and the numbers by which it is spoken to (those of include/bullmyrtle.h and of addon/addon.c).

const { addon: native } = require('./load')

/** What a call gives. */
const CODES = [
  'Ok', 'NoMemory', 'NotOpen', 'NotWaiting', 'InputOver', 'NotJson', 'NotText', 'BadSettings', 'Empty', 'Full'
]
const OK = 0
/** Why an input is over. */
const HOWS = [
  'Clean', 'BadHead', 'BadLength', 'TwoLengths', 'TooLarge', 'NoLength', 'HeadTooLong', 'Truncated', 'Read', 'Full'
]
const FRAMINGS = ['frames', 'lines', 'contents']
const ORDERS = ['as-answered', 'as-came']
/** Whose cancels; the first is none. */
const CANCELS = [null, 'lsp', 'mcp']
/** What is wrong with broken input. */
const DEFECTS = ['Unreadable', 'Invalid']
/** The kinds of events. In a head, 16 times its flags stand beside the kind; LARGE_CODE where the code is a BigInt. */
const TOLD = { call: 1, cancelled: 2, replied: 3, unanswered: 4, over: 5, broken: 6 }
const LARGE_CODE = 256
/** What can be said. ALONE stands beside a kind where there is no second text. */
const SAY = { answer: 1, fail: 2, close: 3, call: 4, notify: 6, withdraw: 7, cancel: 8 }
const ALONE = 16
/** How many numbers stand before the heads, and how many each has; the same of what is said; how many sayings cross. */
const BEFORE_HEADS = 4
const HEAD = 6
const BEFORE_SAYINGS = 1
const SAYING = 3
const MOST_SAYINGS = 1024

/** The texts of the events that a crossing told are one string. Where the last event has no room in it, they are an
 * array: its name, its body and its id, or empty strings, and that string. */
const largeOf = texts => (typeof texts === 'string' ? undefined : texts)
const packedOf = texts => (typeof texts === 'string' ? texts : texts[3])

/** Arrays of heads that nobody reads now. Who hears of events borrows one, since a stream in memory may nest. */
const free = []
let made = 0
const borrowHeads = () => free.pop() ?? { heads: native.heads(), place: made++ }
const returnHeads = it => { free.push(it) }

module.exports = {
  native, CODES, OK, HOWS, FRAMINGS, ORDERS, CANCELS, DEFECTS, TOLD, LARGE_CODE, SAY, ALONE, BEFORE_HEADS, HEAD,
  BEFORE_SAYINGS, SAYING, MOST_SAYINGS, largeOf, packedOf, borrowHeads, returnHeads
}
