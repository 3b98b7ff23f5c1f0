'use strict'
// The four versions of MCP: what each has of what the newest one has, by the table that bindings/python has too, and that
// the tables here say what spec/mcp.json does.

const assert = require('node:assert/strict')
const { test } = require('node:test')
const fs = require('node:fs')
const path = require('node:path')
const { InMemoryTransport, ToolClient, ToolServer, UnknownVersion, VERSIONS, completable, text } = require('../lib/mcp')
const { SINCE } = require('../lib/mcp/about')
const { TEXTS, rows, talking } = require('./tool_table')

const { since, initialized, answers } = rows('versions')
const icons = initialized.serverInfo.icons
const OLDEST_FIRST = [...VERSIONS].reverse()

/** What a version has of a message of the newest one. */
function older(message, version) {
  const made = structuredClone(message)
  for (const [place, first] of Object.entries(since)) {
    if (version >= first) continue
    const outer = place.split('.')
    const name = outer.pop()
    const inner = outer.reduce((it, part) => it?.[part], made)
    for (const it of Array.isArray(inner) ? inner : [inner]) if (it) delete it[name]
  }
  return made
}

function makeServer() {
  const shown = { title: 'T', icons }
  const about = { name: 's', version: '1', description: 'About', websiteUrl: 'https://example.com', ...shown }
  const server = new ToolServer(about, { instructions: 'I' })
  const outputSchema = { type: 'object', properties: { result: { type: 'integer' } }, required: ['result'] }
  const config = { description: 'D', inputSchema: TEXTS, outputSchema, annotations: { readOnlyHint: true }, ...shown }
  server.registerTool('count', config, given => {
    const result = given.text.split(/\s+/).length
    return { content: [text(result)], structuredContent: { result } }
  })
  server.registerResource('one', 'a://1', { mimeType: 'a/b', ...shown }, () => '1')
  server.registerResource('some', 'a://x/{y}', shown, (uri, { y }) => y)
  const argsSchema = {
    type: 'object', properties: { name: completable({ type: 'string' }, value => [`${value}!`]) }, required: ['name']
  }
  server.registerPrompt('hello', { argsSchema, ...shown }, ({ name }) => `Hello ${name}`)
  return server
}

for (const version of VERSIONS) {
  test(`each request of ${version}, and its whole answer`, () => talking(makeServer(), async talk => {
    assert.deepEqual(talk.begun.result, { protocolVersion: version, ...older(initialized, version) })
    for (const [method, params, answer] of answers) {
      assert.deepEqual((await talk.ask(method, params ?? undefined)).result, older(answer, version), method)
    }
  }, { version }))
}

test('a client and a server agree on the version that the client asks for, or on the server\'s', async () => {
  const agreed = async (asked, has) => {
    const [one, other] = InMemoryTransport.createLinkedPair()
    await new ToolServer({ name: 's' }, { versions: has }).connect(other)
    const client = new ToolClient({ name: 'c' }, { versions: asked })
    await client.connect(one)
    await client.close()
    return client.protocolVersion
  }
  for (const asked of VERSIONS) for (const has of VERSIONS) assert.equal(await agreed([asked, ...VERSIONS], [has]), has)
  await assert.rejects(agreed(['2025-06-18'], ['2024-11-05']), UnknownVersion)
  for (const bad of [['2020-01-01'], []]) assert.throws(() => new ToolServer({ name: 's' }, { versions: bad }), RangeError)
})

test('what a client says of itself', async () => {
  const shown = { title: 'T', description: 'D', icons, websiteUrl: 'https://example.com' }
  const of = { '2024-11-05': {}, '2025-03-26': {}, '2025-06-18': { title: 'T' }, '2025-11-25': shown }
  for (const version of VERSIONS) {
    const [one, other] = InMemoryTransport.createLinkedPair()
    let bytes = ''
    other.input.on('data', it => { bytes += it })
    const client = new ToolClient({ name: 'c', version: '2', ...shown }, { versions: [version] })
    await new ToolServer({ name: 's' }).connect(other)
    await client.connect(one)
    await client.close()
    assert.deepEqual(JSON.parse(bytes.split('\n')[0]).params.clientInfo, { name: 'c', version: '2', ...of[version] })
  }
})

test('members since versions, and methods, as spec/mcp.json has them', async () => {
  const { versions } = JSON.parse(fs.readFileSync(path.join(__dirname, '..', '..', '..', 'spec', 'mcp.json'), 'utf8'))
  assert.deepEqual(Object.keys(versions).sort(), OLDEST_FIRST)
  const structure = {}
  const methods = {}
  const members = name => (
    [...(structure[name].extends ?? []).flatMap(members), ...Object.keys(structure[name].members)].map(it => it.replace('?', ''))
  )
  for (const version of OLDEST_FIRST) {
    Object.assign(structure, versions[version].structures)
    Object.assign(methods, versions[version].methods)
    const told = ['Tool', 'Resource', 'ResourceTemplate', 'Prompt'].flatMap(members)
    const program = members('Implementation')
    for (const [name, first] of Object.entries(SINCE)) {
      const has = name === 'websiteUrl' ? program : told
      // (spec/mcp.json has no `_meta` of these; the table of resources and prompts has annotations since 2024)
      if (name === '_meta' || name === 'annotations') continue
      assert.equal(has.includes(name), version >= first, `${name} ${version}`)
    }
    assert.equal(members('Tool').includes('annotations'), version >= SINCE.annotations)
    const requests = Object.entries(methods).filter(([, it]) => it.to !== 'client' && it.kind === 'request').map(it => it[0])
    await talking(makeServer(), async talk => {
      for (const it of requests.filter(name => !name.startsWith('tasks/') && name !== 'initialize')) {
        assert.notEqual((await talk.ask(it, {})).error?.code, -32601, it)
      }
    }, { version })
  }
})
