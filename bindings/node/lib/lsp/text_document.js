'use strict'
// TextDocument, with the names of vscode-languageserver-textdocument. Offsets count as JavaScript does, so that
// `document.getText()[offset]` is what is at an offset. A position that isn't in the text means the nearest one before
// it: behind a line's end the line's end, behind the last line the text's end, and inside a character its beginning.

const CR = 13
const LF = 10
const MOST_SPREAD = 10_000 // so many arguments are handed over at most
const ENCODINGS = ['utf-8', 'utf-16', 'utf-32']

const isLow = unit => unit >= 0xdc00 && unit <= 0xdfff
const isHigh = unit => unit >= 0xd800 && unit <= 0xdbff

/** Whether an offset is inside a pair of surrogates. */
const isInside = (text, offset) => (
  offset > 0 && isLow(text.charCodeAt(offset)) && isHigh(text.charCodeAt(offset - 1))
)

/** How many units of an encoding a character has, by its code point. */
const UNITS = {
  'utf-8': point => (point < 0x80 ? 1 : point < 0x800 ? 2 : point < 0x10000 ? 3 : 4),
  'utf-16': point => (point < 0x10000 ? 1 : 2),
  'utf-32': () => 1
}

/** The offset at which so many units end that begin at another one; inside a character its beginning. */
function offsetOfUnits(text, range, units, encoding) {
  const { start, end } = range
  if (encoding === 'utf-16') {
    const offset = Math.min(start + units, end)
    return isInside(text, offset) ? offset - 1 : offset
  }
  const width = UNITS[encoding]
  let offset = start
  for (let left = units; offset < end;) {
    const point = text.codePointAt(offset)
    left -= width(point)
    if (left < 0) break
    offset += point > 0xffff ? 2 : 1
  }
  return offset
}

function unitsBetween(text, start, end, encoding) {
  if (encoding === 'utf-16') return end - start
  const width = UNITS[encoding]
  let units = 0
  for (let offset = start; offset < end;) {
    const point = text.codePointAt(offset)
    units += width(point)
    offset += point > 0xffff ? 2 : 1
  }
  return units
}

/** The offsets behind the line breaks of a part of a text. */
function lineStarts(text, begin, end) {
  const found = []
  for (let at = begin; at < end; at++) {
    const unit = text.charCodeAt(at)
    if (unit !== CR && unit !== LF) continue
    if (unit === CR && at + 1 < end && text.charCodeAt(at + 1) === LF) at++
    found.push(at + 1)
  }
  return found
}

/** An array with other items between two places. */
function replaced(array, begin, end, items) {
  if (items.length > MOST_SPREAD) return array.slice(0, begin).concat(items, array.slice(end))
  if (items.length !== end - begin) array.splice(begin, end - begin, ...items)
  else items.forEach((it, at) => { array[begin + at] = it })
  return array
}

const isCount = value => Number.isInteger(value)

function checkPosition(position) {
  if (isCount(position?.line) && isCount(position.character)) return
  throw new TypeError('a position has a line and a character, which are integers')
}

function checkRange(range) {
  checkPosition(range?.start)
  checkPosition(range.end)
}

function checkChange(change) {
  if (typeof change?.text !== 'string') throw new TypeError('a change has a text')
  if (change.range !== undefined && change.range !== null) checkRange(change.range)
}

class Text {
  #uri
  #languageId
  #version
  #content
  #encoding
  #lines

  constructor(uri, languageId, version, content, encoding) {
    this.#uri = uri
    this.#languageId = languageId
    this.#version = version
    this.#content = content
    this.#encoding = encoding
  }

  get uri() { return this.#uri }
  get languageId() { return this.#languageId }
  get version() { return this.#version }
  get lineCount() { return this.#starts().length }

  getText(range) {
    if (range === undefined) return this.#content
    const { start, end } = this.#between(range)
    return this.#content.substring(start, end)
  }

  positionAt(offset) {
    const within = Math.max(Math.min(Math.trunc(offset) || 0, this.#content.length), 0)
    const line = this.#lineOf(within)
    const { start, end } = this.#line(line)
    const at = Math.min(within, end)
    const before = isInside(this.#content, at) ? at - 1 : at
    return { line, character: unitsBetween(this.#content, start, before, this.#encoding) }
  }

  offsetAt(position) {
    checkPosition(position)
    const { line, character } = position
    if (line < 0) return 0
    if (line >= this.#starts().length) return this.#content.length
    const range = this.#line(line)
    return character <= 0 ? range.start : offsetOfUnits(this.#content, range, character, this.#encoding)
  }

  /** Applies changes, all of them or, if one isn't well formed, none. */
  update(changes, version) {
    for (const it of changes) checkChange(it)
    for (const { range, text } of changes) {
      if (range === undefined || range === null) {
        this.#content = text
        this.#lines = undefined
      } else {
        this.#replace(this.#between(range), text)
      }
    }
    this.#version = version
  }

  #between(range) {
    checkRange(range)
    const [start, end] = [this.offsetAt(range.start), this.offsetAt(range.end)]
    return start <= end ? { start, end } : { start: end, end: start }
  }

  /** Where each line begins. */
  #starts() {
    return (this.#lines ??= [0].concat(lineStarts(this.#content, 0, this.#content.length)))
  }

  #lineOf(offset) {
    const starts = this.#starts()
    let low = 0
    let high = starts.length
    while (high - low > 1) {
      const middle = (low + high) >> 1
      if (starts[middle] <= offset) low = middle
      else high = middle
    }
    return low
  }

  /** The offsets between which a line is, without its line break. */
  #line(line) {
    const starts = this.#starts()
    const start = starts[line]
    if (line + 1 >= starts.length) return { start, end: this.#content.length }
    const end = starts[line + 1] - 1
    const hasTwo = end > start && this.#content.charCodeAt(end) === LF && this.#content.charCodeAt(end - 1) === CR
    return { start, end: hasTwo ? end - 1 : end }
  }

  #replace({ start, end }, text) {
    this.#starts()
    this.#content = this.#content.substring(0, start) + text + this.#content.substring(end)
    // (a carriage return before what is new and a line feed behind it make one line break with its ends)
    const over = start + text.length
    const unit = at => this.#content.charCodeAt(at)
    const begin = unit(start - 1) === CR ? start - 1 : start
    const more = unit(over - 1) === CR && unit(over) === LF ? 1 : 0
    const [first, behind] = [this.#lineOf(begin) + 1, this.#lineOf(end + more) + 1]
    const added = lineStarts(this.#content, begin, over + more)
    const lines = replaced(this.#lines, first, behind, added)
    const grown = text.length - (end - start)
    if (grown !== 0) for (let at = first + added.length; at < lines.length; at++) lines[at] += grown
    this.#lines = lines
  }
}

const TextDocument = {
  /** `encoding` is what its positions count: 'utf-8', 'utf-16' or 'utf-32'. */
  create(uri, languageId, version, content, encoding = 'utf-16') {
    if (!ENCODINGS.includes(encoding)) throw new RangeError(`an encoding is one of ${ENCODINGS.join(', ')}: ${encoding}`)
    return new Text(uri, languageId, version, content, encoding)
  },

  /** Applies changes as `textDocument/didChange` has them. */
  update(document, changes, version) {
    if (!(document instanceof Text)) throw new TypeError('a document has to be made by TextDocument.create')
    document.update(changes, version)
    return document
  },

  /** The text with edits, which don't overlap. The document stays as it is. */
  applyEdits(document, edits) {
    const text = document.getText()
    const placed = edits.map(({ range, newText }) => {
      const [start, end] = [document.offsetAt(range.start), document.offsetAt(range.end)]
      return { start: Math.min(start, end), end: Math.max(start, end), newText }
    }).sort((one, other) => one.start - other.start)
    const parts = []
    let done = 0
    for (const { start, end, newText } of placed) {
      if (start < done) throw new Error('Overlapping edit')
      parts.push(text.substring(done, start), newText)
      done = end
    }
    return parts.join('') + text.substring(done)
  }
}

module.exports = { TextDocument }
