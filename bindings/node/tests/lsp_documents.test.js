'use strict'
// Open documents, beside a plain model: a string, which is cut into lines anew for each position.

const assert = require('node:assert/strict')
const { test } = require('node:test')
const { rejectsWith, turns } = require('./helping')
const { lsp, URI, place, inSession } = require('./language_sessions')

const { TextDocument, TextDocuments } = lsp
const EDITS = 3_000
// (U+10000 and U+10FFFF are pairs in UTF-16; U+0085, U+2028, VT and FF are no line breaks of LSP's)
const PIECES = [
  'a', 'b', ' ', '\n', '\r', '\r\n', '\n\r', 'é', '\u07ff\u0800', '€', '\u{10000}', '\u{10ffff}', 'word', '\v\f\u0085\u2028', '', 'line\n',
  '\u{1f600}\u{1f600}', 'x'.repeat(40), '\r\r\n\n'
]
const ENCODINGS = { 'utf-8': it => Buffer.byteLength(it), 'utf-16': it => it.length, 'utf-32': it => [...it].length }

/** What a position means, by the words of the specification. */
class Plain {
  text = ''
  cut = { text: undefined, lines: [] }

  constructor(units) {
    this.units = units
  }

  /** The lines, with the offsets at which they begin, without their line breaks. */
  lines() {
    if (this.cut.text !== this.text) this.cut = { text: this.text, lines: this.cutLines() }
    return this.cut.lines
  }

  cutLines() {
    const found = []
    let start = 0
    for (const it of this.text.matchAll(/\r\n|\n|\r/g)) {
      found.push({ start, text: this.text.substring(start, it.index) })
      start = it.index + it[0].length
    }
    return [...found, { start, text: this.text.substring(start) }]
  }

  offset({ line, character }) {
    const lines = this.lines()
    if (line >= lines.length) return this.text.length
    let at = lines[line].start
    let left = character
    for (const it of lines[line].text) {
      left -= this.units(it)
      if (left < 0) break
      at += it.length
    }
    return at
  }

  /** The position of an offset, which isn't inside a pair. */
  place(offset) {
    const lines = this.lines()
    const line = lines.findLastIndex(it => it.start <= offset)
    return { line, character: this.units(lines[line].text.substring(0, offset - lines[line].start)) }
  }
}

/** Numbers below others, the same for the same seed. */
function numbers(seed) {
  let state = seed * 2654435761 + 1
  return below => {
    state = (state * 1103515245 + 12345) % 2147483648
    return Math.floor((state / 2147483648) * below)
  }
}

const isInside = (text, at) => /^[\udc00-\udfff]$/.test(text[at] ?? '') && /^[\ud800-\udbff]$/.test(text[at - 1] ?? '')
/** The offset of the character that an offset is in. */
const before = (text, at) => (isInside(text, at) ? at - 1 : at)

class Edits {
  constructor(encoding, seed, units = ENCODINGS[encoding]) {
    this.below = numbers(seed)
    this.plain = new Plain(units)
    this.document = TextDocument.create('file:///a', 'text', 0, '', encoding)
    this.where = `${encoding}, seed ${seed}`
  }

  /** A position, which may be behind a line's end, behind the last line, or inside a pair. */
  somePlace() {
    const lines = this.plain.lines()
    const line = this.below(2) ? this.below(lines.length + 2) : lines.length - 1
    const longest = line < lines.length ? this.plain.units(lines[line].text) : 9
    return { line, character: this.below(longest + 3) }
  }

  text() {
    return Array.from({ length: this.below(4) }, () => PIECES[this.below(PIECES.length)]).join('')
  }

  one(version) {
    const { plain, document } = this
    const [one, other] = [this.somePlace(), this.somePlace()]
    const [start, end] = plain.text.length < 300 && this.below(10) < 7 ? [one, one] : [one, other]
    const text = this.text()
    TextDocument.update(document, [{ range: { start, end }, text }], version)
    const [low, high] = [plain.offset(start), plain.offset(end)].sort((a, b) => a - b)
    plain.text = plain.text.substring(0, low) + text + plain.text.substring(high)
    this.compare(version)
  }

  compare(version) {
    const { plain, document } = this
    const where = `${this.where}, version ${version}: ${JSON.stringify(plain.text)}`
    assert.equal(document.getText(), plain.text, where)
    assert.deepEqual([document.lineCount, document.version], [plain.lines().length, version], where)
    const it = this.somePlace()
    assert.equal(document.offsetAt(it), plain.offset(it), where)
    const offset = before(plain.text, this.below(plain.text.length + 1))
    const inside = plain.text[offset - 1] === '\r' && plain.text[offset] === '\n' // (there the line has ended)
    assert.deepEqual(document.positionAt(offset), plain.place(inside ? offset - 1 : offset), where)
    const range = { start: this.somePlace(), end: this.somePlace() }
    const [low, high] = [plain.offset(range.start), plain.offset(range.end)].sort((a, b) => a - b)
    assert.equal(document.getText(range), plain.text.substring(low, high), where)
  }

  all(count) {
    for (let version = 1; version <= count; version++) this.one(version)
  }
}

Object.keys(ENCODINGS).forEach((encoding, seed) => {
  test(`random edits in ${encoding}, beside a plain model`, () => {
    for (let more = 0; more < 3; more++) new Edits(encoding, seed + 10 * more).all(EDITS / 3)
  })
})

test('a model that is wrong is found', () => {
  assert.throws(() => new Edits('utf-16', 1, it => [...it].length).all(EDITS), assert.AssertionError)
})

test('a change of very many lines', () => {
  const edits = new Edits('utf-16', 3)
  for (const text of ['one\ntwo\nthree', 'line\n'.repeat(200_000), '']) {
    const end = edits.document.positionAt(edits.document.getText().length - 2)
    const change = { range: { start: place(1, 1), end }, text }
    edits.plain.text = TextDocument.applyEdits(edits.document, [{ range: change.range, newText: text }])
    TextDocument.update(edits.document, [change], 1)
    for (let i = 0; i < 10; i++) edits.compare(1)
  }
})

test('each position in each encoding', () => {
  const text = 'é€\u{10000}z\r\n\n'
  const offsets = {
    'utf-8': [0, 0, 1, 1, 1, 2, 2, 2, 2, 4, 5, 5], 'utf-16': [0, 1, 2, 2, 4, 5, 5], 'utf-32': [0, 1, 2, 4, 5, 5]
  }
  for (const [encoding, expected] of Object.entries(offsets)) {
    const document = TextDocument.create(URI, 'x', 1, text, encoding)
    assert.deepEqual(expected.map((_, character) => document.offsetAt(place(0, character))), expected, encoding)
  }
})

test('places that are nowhere', () => {
  const document = TextDocument.create(URI, 'x', 1, 'ab\r\ncd')
  assert.deepEqual([[-1, 5], [0, -3], [0, 99], [1, 99], [2, 0], [99, 0]].map(it => document.offsetAt(place(...it))), [0, 0, 2, 6, 6, 6])
  assert.deepEqual([-5, 3, 99, NaN, 1.5].map(it => document.positionAt(it)), [place(0, 0), place(0, 2), place(1, 2), place(0, 0), place(0, 1)])
  for (const it of [undefined, null, {}, { line: 0 }, { line: '0', character: 0 }, { line: 0.5, character: 0 }, { line: NaN, character: 0 }]) {
    assert.throws(() => document.offsetAt(it), /a position has a line and a character/)
  }
  const half = TextDocument.create(URI, 'x', 1, '\ud800\udc00\ud800')
  assert.deepEqual([0, 1, 2, 3].map(it => half.positionAt(it).character), [0, 0, 2, 3])
})

test('all changes of an update are applied, or none', () => {
  const range = { start: place(0, 0), end: place(0, 1) }
  const document = TextDocument.create(URI, 'x', 1, 'abc')
  assert.equal(TextDocument.update(document, [{ range, text: '' }, { range, text: 'B' }, { text: 'whole' }, { range, text: 'W' }], 5), document)
  assert.deepEqual([document.getText(), document.version, document.uri, document.languageId], ['Whole', 5, URI, 'x'])
  for (const wrong of [{ range }, { text: 5 }, { text: '', range: { start: place(0, 0) } }, { text: '', range: {} }, null]) {
    assert.throws(() => TextDocument.update(document, [{ text: 'gone' }, wrong], 6), TypeError)
  }
  assert.deepEqual([document.getText(), document.version], ['Whole', 5])
  assert.throws(() => TextDocument.update({ update() {} }, [], 1), /TextDocument.create/)
  assert.throws(() => TextDocument.create(URI, 'x', 1, '', 'utf-7'), RangeError)
})

test('edits', () => {
  const document = TextDocument.create(URI, 'x', 1, 'one\ntwo\nthree')
  const edit = (from, to, newText) => ({ range: { start: place(...from), end: place(...to) }, newText })
  const apply = (...edits) => TextDocument.applyEdits(document, edits)
  assert.equal(apply(), 'one\ntwo\nthree')
  assert.equal(apply(edit([1, 0], [1, 3], '2'), edit([0, 0], [0, 0], '> '), edit([2, 5], [9, 9], '!')), '> one\n2\nthree!')
  assert.equal(apply(edit([0, 1], [0, 1], 'A'), edit([0, 1], [0, 1], 'B')), 'oABne\ntwo\nthree')
  assert.equal(apply(edit([1, 3], [1, 0], '2')), 'one\n2\nthree') // (a range the wrong way round)
  assert.throws(() => apply(edit([0, 0], [0, 2], ''), edit([0, 1], [0, 3], '')), /Overlapping edit/)
  assert.equal(document.getText(), 'one\ntwo\nthree')
})

// Those of a client

const change = (version, ...contentChanges) => ({ textDocument: { uri: URI, version }, contentChanges })

test('the documents that a client has open', async () => {
  const events = []
  const documents = new TextDocuments(TextDocument)
  for (const name of ['onDidOpen', 'onDidChangeContent', 'onDidSave', 'onDidClose', 'onWillSave']) {
    documents[name](({ document, ...more }) => events.push([name, document.getText(), document.version, more]))
  }
  documents.onWillSaveWaitUntil(({ document, reason }) => [{ range: null, newText: `${document.getText()} ${reason}` }])
  await inSession(server => documents.listen(server), async client => {
    await client.begin()
    client.open('abc')
    client.tell('textDocument/didChange', change(2, { range: { start: place(0, 1), end: place(0, 2) }, text: '-' }, { range: { start: place(0, 3), end: place(0, 3) }, text: '!' }))
    client.tell('textDocument/didChange', change(null, { range: { start: place(0, 4), end: place(0, 4) }, text: '' })) // (as LSP 3.15)
    client.tell('textDocument/willSave', { textDocument: { uri: URI }, reason: 1 })
    assert.deepEqual(await client.ask('textDocument/willSaveWaitUntil', { textDocument: { uri: URI }, reason: 2 }), [{ range: null, newText: 'a-c! 2' }])
    client.tell('textDocument/didSave', { textDocument: { uri: URI } })
    await turns()
    assert.deepEqual([documents.keys(), documents.all().map(it => it.uri), documents.get(URI).languageId], [[URI], [URI], 'plaintext'])
    client.tell('textDocument/didClose', { textDocument: { uri: URI } })
    await turns()
    assert.deepEqual([documents.get(URI), documents.all()], [undefined, []])
    assert.deepEqual(events, [
      ['onDidOpen', 'abc', 1, {}], ['onDidChangeContent', 'abc', 1, {}], ['onDidChangeContent', 'a-c!', 2, {}], ['onDidChangeContent', 'a-c!', 2, {}],
      ['onWillSave', 'a-c!', 2, { reason: 1 }], ['onDidSave', 'a-c!', 2, {}], ['onDidClose', 'a-c!', 2, {}]
    ])
    assert.deepEqual(client.logged, [])
  })
})

test('positions count what was agreed on', async () => {
  for (const [positionEncoding, character] of [['utf-8', 4], ['utf-16', 2], ['utf-32', 1], [undefined, 2]]) {
    const documents = new TextDocuments(TextDocument)
    await inSession(server => documents.listen(server), async client => {
      await client.begin({ general: { positionEncodings: ['utf-8', 'utf-16', 'utf-32'] } })
      client.open('\u{10000}z')
      client.tell('textDocument/didChange', change(2, { range: { start: place(0, 0), end: place(0, character) }, text: '' }))
      await turns()
      assert.equal(documents.get(URI).getText(), 'z', positionEncoding)
    }, { capabilities: positionEncoding === undefined ? {} : { positionEncoding } })
  }
})

test('what a client says of documents that is wrong is logged, and they stay as they are', async () => {
  const documents = new TextDocuments(TextDocument)
  documents.onWillSaveWaitUntil(({ document }) => [{ range: null, newText: document.getText() }])
  await inSession(server => documents.listen(server), async client => {
    await client.begin()
    const range = { start: place(0, 0), end: place(0, 1) }
    client.tell('textDocument/didChange', change(2, { text: 'x' }))
    client.tell('textDocument/didClose', { textDocument: { uri: URI } })
    client.open('abc')
    client.open('abcd')
    client.tell('textDocument/didChange', change(1, { range, text: 'A' }))
    client.tell('textDocument/didChange', change(3, { range, text: 'B' }, { range: { start: place(0, 0) }, text: '' }))
    client.tell('textDocument/didChange', change(3, { range, text: 5 }))
    client.tell('textDocument/didChange', { textDocument: { uri: URI } })
    client.tell('textDocument/didOpen', { textDocument: { uri: 'x' } })
    await turns()
    assert.deepEqual(client.logged, [
      `Notification handler 'textDocument/didChange' failed with message: this document isn't open: ${URI}`,
      `Notification handler 'textDocument/didClose' failed with message: this document isn't open: ${URI}`,
      `${URI} was opened, and is open already`,
      `${URI}: version 1 came behind version 1`,
      "Notification handler 'textDocument/didChange' failed with message: a position has a line and a character, which are integers",
      "Notification handler 'textDocument/didChange' failed with message: Invalid params: params.contentChanges[0].text must be a string, got number",
      "Notification handler 'textDocument/didChange' failed with message: Invalid params: params lacks contentChanges",
      "Notification handler 'textDocument/didOpen' failed with message: Invalid params: params.textDocument lacks text"
    ])
    assert.deepEqual([documents.get(URI).getText(), documents.get(URI).version], ['Abcd', 1])
    assert.deepEqual(await client.ask('textDocument/willSaveWaitUntil', { textDocument: { uri: 'x' }, reason: 1 }), [])
  })
})

test('documents of a kind of its own', async () => {
  const made = { create: (uri, languageId, version, text) => ({ uri, text, version }), update: (it, changes, version) => ({ ...it, text: changes.at(-1).text, version }) }
  const documents = new TextDocuments(made)
  let listening
  await inSession(server => { listening = documents.listen(server) }, async client => {
    await client.begin()
    client.open('abc')
    client.tell('textDocument/didChange', change(2, { text: 'new' }))
    await turns()
    assert.deepEqual(documents.get(URI), { uri: URI, text: 'new', version: 2 })
    listening.dispose()
    client.tell('textDocument/didChange', change(3, { text: 'newer' }))
    await rejectsWith(client.ask('textDocument/willSaveWaitUntil', { textDocument: { uri: URI }, reason: 1 }), -32601)
    assert.equal(documents.get(URI).text, 'new')
  })
})
