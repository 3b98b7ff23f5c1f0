'use strict'
// Templates of resources' URIs, as `notes://{folder}/{name}` and `files:///{+path}`.

const { wellFormed } = require('./shown')

const PART = /\{(\+?)(\w+)\}/
const PARTS = new RegExp(PART, 'g')

/** What is between two slashes of a template: texts, with parts between them. */
class Segment {
  #texts
  names
  hasPath

  constructor(text) {
    const found = text.split(PART)
    this.#texts = found.filter((_, at) => at % 3 === 0)
    this.names = found.filter((_, at) => at % 3 === 2)
    this.hasPath = found.some((it, at) => at % 3 === 1 && it === '+')
  }

  /** The parts of a segment; the first ones are as long as possible. */
  partsOf(segment) {
    const texts = this.#texts
    const [first, last] = [texts[0], texts[texts.length - 1]]
    if (this.names.length === 0) return segment === first ? new Map() : undefined
    const start = first.length
    let end = segment.length - last.length
    if (end <= start || !segment.startsWith(first) || !segment.endsWith(last)) return undefined
    const found = new Map()
    // (from the end, where the last place of a text is the only one that need be tried)
    for (let at = this.names.length - 1; at > 0; at--) {
      const before = end - 1 - texts[at].length
      const place = before > start ? segment.lastIndexOf(texts[at], before) : -1
      if (place <= start) return undefined
      found.set(this.names[at], segment.substring(place + texts[at].length, end))
      end = place
    }
    return found.set(this.names[0], segment.substring(start, end))
  }
}

/**
 * A URI with parts: `{name}` is what has no slash, and `{+name}` a path.
 *
 * A match takes time in proportion to the URI, which the other side chooses: a regular expression would try all cuts of
 * `{year}-{month}-{day}`.
 */
class Template {
  names
  #path
  #segments
  #at // the segment that has the path; without one, that behind the last

  /** Of this text. Throws a TypeError if that has braces that aren't parts, or parts that can't be told apart. */
  constructor(uri) {
    const wrong = words => new TypeError(`the URI '${uri}'${words}`)
    const parts = [...uri.matchAll(PARTS)]
    const paths = parts.filter(it => it[1] !== '')
    this.names = parts.map(it => it[2])
    if (/[{}]/.test(uri.replace(PARTS, ''))) throw wrong(': parts are {name}, or {+name} for a path')
    if (new Set(this.names).size < this.names.length) throw wrong(' has two parts of one name')
    if (paths.length > 1) throw wrong(" has two paths, which can't be told apart")
    this.#path = paths[0]?.[2]
    this.#segments = uri.split('/').map(it => new Segment(it))
    const at = this.#segments.findIndex(it => it.hasPath)
    this.#at = at < 0 ? this.#segments.length : at
    if (at >= 0 && this.#segments[at].names.length > 1) {
      throw wrong(' has a path and another part without a slash between')
    }
  }

  /**
   * The parts of a URI, decoded; undefined if it isn't one of this template's.
   *
   * A part is decoded once, after the match, so what is encoded in it may be a slash: such a part is refused, as is all
   * else that would lead out of a folder if a program takes the part for the name of a file.
   */
  partsOf(uri) {
    const segments = this.#cut(uri.split('/'))
    if (segments === undefined) return undefined
    const found = {}
    for (let at = 0; at < segments.length; at++) {
      const parts = this.#segments[at].partsOf(segments[at])
      if (parts === undefined) return undefined
      for (const [name, part] of parts) {
        const text = decoded(part)
        if (text === undefined || !(name === this.#path ? isPath(text) : isName(text))) return undefined
        Object.defineProperty(found, name, { value: text, enumerable: true, configurable: true, writable: true })
      }
    }
    return found
  }

  #cut(given) {
    const count = this.#segments.length
    if (this.#path === undefined) return given.length === count ? given : undefined
    if (given.length < count) return undefined
    const end = given.length - (count - this.#at - 1)
    return [...given.slice(0, this.#at), given.slice(this.#at, end).join('/'), ...given.slice(end)]
  }
}

const HEX = /^[0-9a-f]{2}$/i
const PERCENT = 0x25

/** A part without its percent signs; undefined if it isn't UTF-8 then. */
function decoded(part) {
  if (wellFormed(part) !== part) return undefined
  if (!part.includes('%')) return part
  const given = Buffer.from(part)
  const made = Buffer.alloc(given.length)
  let length = 0
  for (let at = 0; at < given.length; at++) {
    const digits = given[at] === PERCENT ? given.subarray(at + 1, at + 3).toString('latin1') : ''
    const isEncoded = HEX.test(digits)
    made[length++] = isEncoded ? Number.parseInt(digits, 16) : given[at]
    if (isEncoded) at += 2
  }
  try {
    return new TextDecoder('utf-8', { fatal: true, ignoreBOM: true }).decode(made.subarray(0, length))
  } catch {
    return undefined
  }
}

/** Whether a text names one thing, in the folder that one looks in. */
const isName = text => text !== '.' && text !== '..' && !/[/\\\0]/.test(text)

/** Whether a text is a path that begins in a folder and stays there. (An empty name at its start would be a root.) */
function isPath(text) {
  const segments = text.split('/')
  return segments[0] !== '' && segments.every(isName)
}

/** Whether a text is a URI that has a URL, as a resource's function gets it. */
function isUri(text) {
  try {
    return Boolean(new URL(text))
  } catch {
    return false
  }
}

module.exports = { Template, isUri }
