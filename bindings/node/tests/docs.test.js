'use strict'
// What docs/node.md and the package's README show, run as it stands there.

const assert = require('node:assert/strict')
const { test } = require('node:test')
const fs = require('node:fs')
const os = require('node:os')
const path = require('node:path')
const { spawnSync } = require('node:child_process')

const PACKAGE = path.dirname(__dirname)
const TOP = path.join(PACKAGE, '..', '..')
const PAGE = path.join(TOP, 'docs', 'node.md')
const { version } = require('../package.json')
const { patience } = require('./helping')
const README = path.join(PACKAGE, 'README.md')

const blocksOf = file => [...fs.readFileSync(file, 'utf8').matchAll(/^```(\w*)\n(.*?)^```$/gms)].map(([, kind, text]) => ({ kind, text }))

/** A folder in which the package is installed, and whose `node` is this one. */
function room() {
  const folder = fs.mkdtempSync(path.join(os.tmpdir(), 'docs-'))
  fs.mkdirSync(path.join(folder, 'node_modules'))
  fs.symlinkSync(PACKAGE, path.join(folder, 'node_modules', 'bullmyrtle'))
  fs.mkdirSync(path.join(folder, 'bin'))
  fs.symlinkSync(process.execPath, path.join(folder, 'bin', 'node'))
  return folder
}

function run(folder, text) {
  const env = { ...process.env, PATH: `${path.join(folder, 'bin')}:${process.env.PATH}`, NO_COLOR: '1' }
  return spawnSync('sh', ['-c', text], { cwd: folder, env, encoding: 'utf8', timeout: patience(240_000) }).stdout
}

/** Runs the blocks of a page for the shell, and gives how many there are. */
function runBlocks(file) {
  const folder = room()
  const blocks = blocksOf(file)
  let ran = 0
  blocks.forEach(({ kind, text }, at) => {
    if (kind === 'js') {
      const [, name] = /^\/\/ (\S+\.mjs)\n/.exec(text)
      fs.writeFileSync(path.join(folder, name), text)
    }
    if (kind !== 'sh') return
    assert.equal(blocks[at + 1].kind, 'out', text)
    assert.equal(run(folder, text), blocks[at + 1].text, text)
    ran++
  })
  fs.rmSync(folder, { recursive: true })
  return ran
}

for (const [name, file, fewest] of [['the page', PAGE, 6], ['the README', README, 1]]) {
  test(`each block of ${name}`, () => {
    assert.ok(runBlocks(file) >= fewest)
  })
}

const hasCompiler = spawnSync('tsc', ['--version']).status === 0
test('what the page shows in TypeScript', { skip: hasCompiler ? false : 'tsc, which is not here' }, () => {
  const folder = room()
  const shown = blocksOf(PAGE).filter(it => it.kind === 'ts')
  assert.equal(shown.length, 1)
  const declared = 'declare const process: { stdin: import("bullmyrtle").InputStream, stdout: import("bullmyrtle").OutputStream }\n'
  fs.writeFileSync(path.join(folder, 'shown.mts'), declared + shown[0].text)
  const words = ['--strict', '--noEmit', '--module', 'node16', '--moduleResolution', 'node16', '--target', 'es2022', 'shown.mts']
  const { status, stdout } = spawnSync('tsc', words, { cwd: folder, encoding: 'utf8' })
  fs.rmSync(folder, { recursive: true })
  assert.equal(status, 0, stdout)
})

const hasNpm = spawnSync('npm', ['--version']).status === 0
test('the package that npm packs is whole, and installs without a network', { skip: hasNpm ? false : 'npm, which is not here' }, () => {
  const folder = fs.mkdtempSync(path.join(os.tmpdir(), 'pack-'))
  const copy = path.join(folder, 'repository')
  for (const it of ['bindings/node', `release/bullmyrtle-${process.platform}-${process.arch}.node`]) fs.cpSync(path.join(TOP, it), path.join(copy, it), { recursive: true })
  const env = { ...process.env, npm_config_cache: path.join(folder, 'cache'), npm_config_update_notifier: 'false', HOME: folder }
  const npm = (at, ...words) => spawnSync('npm', words, { cwd: at, env, encoding: 'utf8', timeout: patience(240_000) })
  const packed = npm(path.join(copy, 'bindings/node'), 'pack', '--pack-destination', folder)
  assert.equal(packed.status, 0, packed.stderr)
  const user = path.join(folder, 'user')
  fs.mkdirSync(user)
  fs.writeFileSync(path.join(user, 'package.json'), '{"name":"user","private":true}')
  const installed = npm(user, 'install', '--offline', '--no-audit', '--no-fund', path.join(folder, `bullmyrtle-${version}.tgz`))
  assert.equal(installed.status, 0, installed.stderr)
  fs.rmSync(copy, { recursive: true })
  const program = 'const { Connection } = require("bullmyrtle"); console.log(new Connection().pending, Object.keys(require("bullmyrtle/testing")).join(), require("bullmyrtle/lsp").HoverRequest.method)'
  const { stdout, stderr } = spawnSync(process.execPath, ['-e', program], { cwd: user, encoding: 'utf8' })
  fs.rmSync(folder, { recursive: true })
  assert.equal(stdout, '0 joined,carry textDocument/hover\n', stderr)
})

test('lines of the pages are short', () => {
  for (const file of [PAGE, README]) {
    const prose = fs.readFileSync(file, 'utf8').replace(/^```.*?^```$/gms, '')
    assert.deepEqual(prose.split('\n').filter(it => it.length > 120 && !it.startsWith('|')), [])
  }
})
