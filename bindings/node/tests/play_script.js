#!/usr/bin/env node
'use strict'
// Plays a script for a connection through the lower floor: an action a line on the standard input, what it gives on the
// standard output. checks/support/connection_script.py has the grammar. With the word `strings`, texts that are UTF-8
// are passed as strings, and else as bytes.

const fs = require('node:fs')
const { Connection, Refused } = require('..')

const WHY = {
  NoMemory: 'memory', NotOpen: 'not_open', NotWaiting: 'not_waiting', InputOver: 'over', NotJson: 'not_json',
  NotText: 'not_text', BadSettings: 'settings', Empty: 'empty', Full: 'full'
}
const passesStrings = process.argv[2] === 'strings'
const said = []
let connection
let hasBegun = false

class Unreadable extends Error {}

function matched(form, word) {
  if (word === undefined || !form.test(word)) throw new Unreadable(`${word}`)
  return word
}

function number(word) {
  const it = BigInt(matched(/^(0|[1-9][0-9]*)$/, word))
  if (it >= 1n << 64n) throw new Unreadable(word)
  return it <= BigInt(Number.MAX_SAFE_INTEGER) ? Number(it) : it
}

function code(word) {
  const it = BigInt(matched(/^(0|-?[1-9][0-9]*)$/, word))
  if (BigInt.asIntN(64, it) !== it) throw new Unreadable(word)
  return Number.isSafeInteger(Number(it)) ? Number(it) : it
}

const bytes = word => (word === '.' ? Buffer.alloc(0) : Buffer.from(matched(/^([0-9a-f]{2})+$/, word), 'hex'))

function text(word) {
  const it = bytes(word)
  return passesStrings && it.equals(Buffer.from(it.toString())) ? it.toString() : it
}

const orNone = word => (word === '-' ? undefined : text(word))

function oneOf(words, word) {
  if (!words.includes(word)) throw new Unreadable(word)
  return word
}

const hex = it => Buffer.from(it).toString('hex') || '.'
const hexOrNone = it => (it === undefined ? '-' : hex(it))

function eventLine(it) {
  if (it === undefined) return 'none'
  switch (it.kind) {
    case 'call': return `call ${it.number} ${hex(it.method)} ${hexOrNone(it.params)} ${hexOrNone(it.id)}`
    case 'cancelled': return `cancelled ${it.number}`
    case 'replied': return `replied ${it.key} result ${hex(it.result)}`
    case 'failed': return `replied ${it.key} error ${it.code} ${hex(it.message)} ${hexOrNone(it.data)}`
    case 'unanswered': return `unanswered ${it.key}`
    case 'over': return `over ${it.how}`
    case 'broken': return `broken ${it.offset} ${defectOf(it)} ${hex(it.first)}`
  }
  throw new Error(`an event of the kind ${it.kind}`)
}

const defectOf = it => (it.what === 'Invalid' ? `invalid ${it.entry} ${it.entries}` : 'unreadable')
const CANCELS = { cancels: 'lsp', mcp: 'mcp', 'no-cancels': null }

/** Whether the first of the words is this one; it is passed over then. */
function takes(words, word) {
  return words[0] === word && words.shift() !== undefined
}

/** How many entries a batch may have, by the word `entries=MOST`; where there is no word, any number. */
function mostEntries(word) {
  if (word === undefined) return 2 ** 32 - 1
  return number(matched(/^entries=[1-9][0-9]*$/, word).slice('entries='.length))
}

function settings(framing, order, cancels, content, calls, ...more) {
  oneOf(['frames', 'lines', 'contents'], framing)
  oneOf(['as-answered', 'as-came'], order)
  oneOf(Object.keys(CANCELS), cancels)
  const broken = takes(more, 'broken')
  const nullParams = takes(more, 'nulls')
  const entries = mostEntries(more.shift())
  oneOf([0], more.length)
  const limits = { content: number(content), calls: number(calls) }
  hasBegun = true
  connection?.close()
  connection = undefined
  connection = new Connection({ framing, order, cancels: CANCELS[cancels], broken, nullParams, entries, ...limits })
  return 'ok'
}

/** What is done for each action, once its words are read: so that a line that can't be read does nothing. */
const ACTIONS = {
  feed: [[bytes], it => { connection.feed(it) }],
  end: [[it => oneOf(['closed', 'failed'], it)], how => { connection.end(how === 'failed') }],
  next: [[], () => eventLine(connection.nextEvent())],
  call: [[number, text, orNone], (...given) => `key ${connection.call(...given)}`],
  notify: [[text, orNone], (...given) => { connection.notify(...given) }],
  withdraw: [[number], key => { connection.withdraw(key) }],
  answer: [[number, orNone], (...given) => { connection.answer(...given) }],
  fail: [[number, code, text, orNone], (...given) => { connection.fail(...given) }],
  cancel: [[number], it => { connection.cancel(it) }],
  take: [[number], most => `bytes ${hex(connection.take(Number(most)))}`],
  pending: [[], () => `pending ${connection.pending}`],
  is_done: [[], () => String(connection.isDone)],
  fault_place: [[], () => (connection.faultOffset === undefined ? 'none' : `place ${connection.faultOffset}`)],
  report: [[], () => `report ${Object.values(connection.counts()).join(' ')}`]
}

function read(name, words) {
  if (name === 'settings' && words.length >= 5) return () => settings(...words)
  if (name === 'batch' && words.length % 2 === 1) {
    const of = number(words[0])
    const calls = []
    for (let i = 1; i < words.length; i += 2) calls.push([text(words[i]), orNone(words[i + 1])])
    return () => `key ${connection.callBatch(of, calls)}`
  }
  const [forms, act] = Object.hasOwn(ACTIONS, name) ? ACTIONS[name] : []
  if (forms?.length !== words.length) throw new Unreadable(name)
  const given = words.map((it, at) => forms[at](it))
  return () => act(...given)
}

function play(line) {
  const [name, ...words] = line.split(' ')
  const act = read(name, words)
  if (name !== 'settings' && !hasBegun) throw new Unreadable(line)
  if (name !== 'settings' && connection === undefined) return 'refused settings'
  try {
    return act() ?? 'ok'
  } catch (error) {
    if (error instanceof Refused) return `refused ${WHY[error.code]}`
    throw error
  }
}

const lines = fs.readFileSync(0, 'latin1').split('\n')
if (lines.pop() !== '') process.exit(2)
let status = 0
try {
  for (const line of lines) said.push(play(line))
} catch (error) {
  if (!(error instanceof Unreadable)) throw error
  status = 2
}
fs.writeSync(1, said.map(it => `${it}\n`).join(''))
process.exitCode = status
