'use strict'
// Why a connection ended, in words that say what was wrong, where, and what to do.

const { messageOf } = require('./thrown')

/** How much of a message at fault, or of a name, is shown. */
const SHOWN = 64
/** How many methods are named that weren't answered. */
const NAMED = 3

const FAULTS = {
  BadHead: "a header line isn't a field",
  BadLength: "a Content-Length isn't a number",
  TwoLengths: 'a header has two Content-Length fields',
  NoLength: 'a header has no Content-Length',
  HeadTooLong: 'a header has more than 4,096 bytes',
  TooLarge: 'a message has more bytes than the option content allows',
  Truncated: 'the input ended inside a message'
}
const OTHERS = {
  Read: "the input can't be read",
  Full: 'more calls came than the option calls allows',
  OutputClosed: "the output can't be written: the other side has ended, or reads no more"
}
const ADVICE = {
  TooLarge: 'it may allow up to 2,147,483,647',
  Truncated: 'the other side ended before it had written all of it'
}

/** What to do about a header that can't be read, by what the message begins with. */
function adviceOn(start) {
  if (/^[{[]/.test(start)) return "if each line is a message, the option is framing: 'lines'"
  if (/^HTTP\/1\.|^[^\n]* HTTP\/1\./.test(start)) return 'this is HTTP, and no stream of messages'
  if (start.startsWith('\xef\xbb\xbf')) return 'it begins with a byte order mark, which has to go'
  if (/^content-/i.test(start)) return 'header lines end with CR LF, one is `Content-Length: N`, and the last is empty'
  return 'messages begin with `Content-Length: N`, CR LF, CR LF; what a server prints belongs on its standard error'
}

/** The beginning of a text, quoted: what isn't printable ASCII is escaped, so that a terminal does nothing of it. */
const shown = text => JSON.stringify(text.substring(0, SHOWN)).replace(/[^ -~]/g, it => (
  `\\u${it.charCodeAt(0).toString(16).padStart(4, '0')}`
))

/** Why an end isn't clean; `place` has the offset and the first bytes of a fault, where they are known. */
function endText(how, place, error) {
  const { offset, first = Buffer.alloc(0) } = place
  const fault = FAULTS[how]
  if (fault === undefined) return error === undefined ? OTHERS[how] : `${OTHERS[how]}: ${messageOf(error) ?? 'unknown'}`
  const start = first.toString('latin1')
  const at = offset === undefined ? '' : `, at byte ${offset}${start === '' ? '' : `: ${shown(start)}`}`
  return `${fault}${at}: ${ADVICE[how] ?? adviceOn(start.trimStart())}`
}

/** What is said of requests that weren't answered in time: the first few are named. */
function lateText(methods, seconds) {
  const named = [...new Set(methods)].slice(0, NAMED).map(shown).join(', ')
  return `${methods.length} request(s) weren't answered within the grace of ${seconds} seconds: ${named}`
}

module.exports = { endText, lateText }
