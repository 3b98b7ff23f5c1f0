'use strict'
// URIs of resources with parts, by the table that bindings/python has too: none leads out of a folder.

const assert = require('node:assert/strict')
const { test } = require('node:test')
const fs = require('node:fs')
const os = require('node:os')
const path = require('node:path')
const { ToolServer } = require('../lib/mcp')
const { Template } = require('../lib/mcp/templates')
const { patience } = require('./helping')
const { rows, talking } = require('./tool_table')

const { names, paths, others } = rows('templates')
const found = (template, uri) => new Template(template).partsOf(uri) ?? null

test('the parts of URIs', () => {
  assert.ok(names.length >= 40)
  const all = [
    ...names.map(([uri, name]) => ['doc:///{name}', uri, name && { name }]),
    ...paths.map(([uri, part]) => ['doc:///{+path}', uri, part && { path: part }]), ...others
  ]
  for (const [template, uri, parts] of all) assert.deepEqual(found(template, uri), parts, `${template} ${uri}`)
})

test('a server of a folder, which opens what it is asked for', async () => {
  const room = fs.mkdtempSync(path.join(os.tmpdir(), 'folder-'))
  const folder = path.join(room, 'docs')
  fs.mkdirSync(folder)
  fs.writeFileSync(path.join(folder, 'a.txt'), 'inside')
  fs.writeFileSync(path.join(room, 'secret'), 'outside')
  const opened = name => {
    try {
      return fs.readFileSync(path.join(folder, name), 'utf8')
    } catch {
      return 'none'
    }
  }
  const server = new ToolServer({ name: 'docs' })
  server.registerResource('doc', 'doc:///{name}', {}, (uri, { name }) => opened(name))
  server.registerResource('path', 'path:///{+name}', {}, (uri, { name }) => opened(name))
  // (half of a pair is no JSON, so no message has it)
  const tries = [...names.filter(([uri]) => !uri.includes('\ud800')), ...paths.map(([uri, part]) => [uri.replace('doc:', 'path:'), part])]
  await talking(server, async talk => {
    for (const [uri, part] of tries) {
      const { error, result } = await talk.ask('resources/read', { uri })
      if (part === null) assert.deepEqual(error, { code: -32002, message: 'Resource not found', data: { uri } })
      else assert.equal(result.contents[0].text, part === 'a.txt' ? 'inside' : 'none', uri)
    }
  }, { version: '2025-06-18' })
  fs.rmSync(room, { recursive: true })
})

test('parts that can not be told apart', () => {
  for (const [uri, said] of [
    ['a://{x}/{x}', 'two parts of one name'], ['a://{+x}/{+y}', 'two paths'], ['a://{x}-{+y}', 'without a slash between'],
    ['a://{x', 'parts are {name}, or {+name}'], ['a://{?x}', 'parts are'], ['a://{x*}', 'parts are'], ['a://{}', 'parts are']
  ]) {
    assert.throws(() => new ToolServer({ name: 's' }).registerResource('r', uri, {}, () => ''), error => (
      error instanceof TypeError && error.message.includes(said) && error.message.includes(uri)
    ), uri)
  }
})

test('a million characters that match no cut of a template', () => {
  for (const [template, uri] of [
    ['a://{x}-{y}-{z}', `a://${'-'.repeat(1_000_000)}/`], ['a://{x}-{y}-{z}!', `a://${'-'.repeat(1_000_000)}`],
    ['a://{x}{y}{z}!', `a://${'-'.repeat(1_000_000)}`], ['a://{+x}/{y}/{z}!', `a://${'/a'.repeat(500_000)}`],
    ['a://{x}/b', `a://${'%41'.repeat(300_000)}/c`]
  ]) {
    const begin = process.cpuUsage().user
    assert.equal(found(template, uri), null)
    assert.ok(process.cpuUsage().user - begin < patience(2_000_000), template) // (the square of them would take minutes)
  }
})

test('names of JavaScript as parts', () => {
  assert.deepEqual(found('a://{constructor}/{__proto__}', 'a://x/y'), Object.fromEntries([['constructor', 'x'], ['__proto__', 'y']]))
})
