'use strict'
// The package where there is no addon: what it loads in its place, and what it says of files that it can't load.

const assert = require('node:assert/strict')
const { test } = require('node:test')
const fs = require('node:fs')
const os = require('node:os')
const path = require('node:path')
const { spawnSync } = require('node:child_process')

const LIB = path.join(__dirname, '..', 'lib')
const BUILT = path.join(__dirname, '..', '..', '..', 'out', 'ports', 'wasm32', 'bullmyrtle.wasm')
const WASM = [process.env.BULLMYRTLE_ADDON, BUILT].find(it => it?.endsWith('.wasm') && fs.existsSync(it))
const skip = WASM === undefined ? 'bullmyrtle.wasm, which bin/build-ports makes' : false
const ADDON = `bullmyrtle-${process.platform}-${process.arch}.node`
const LINE = '{"jsonrpc":"2.0","method":"m","params":["é"],"id":1}\\n'

/** Runs a program over a package that has these files beside its code. */
function ran(files, program, env = {}, options = []) {
  const room = fs.mkdtempSync(path.join(os.tmpdir(), 'wasm-'))
  const folder = path.join(room, 'a', 'b', 'node_modules', 'bullmyrtle')
  fs.cpSync(LIB, path.join(folder, 'lib'), { recursive: true })
  fs.mkdirSync(path.join(folder, 'prebuilt'))
  for (const [name, it] of Object.entries(files)) fs.writeFileSync(path.join(folder, 'prebuilt', name), it)
  const { BULLMYRTLE_ADDON, ...own } = process.env
  const words = [...options, '-e', `const { Connection } = require(${JSON.stringify(path.join(folder, 'lib', 'index.js'))})\n${program}`]
  const ended = spawnSync(process.execPath, words, { env: { ...own, ...env }, encoding: 'utf8' })
  fs.rmSync(room, { recursive: true })
  return ended
}

const wasm = () => fs.readFileSync(WASM)
const ANSWER = `
  const connection = new Connection({ framing: 'lines' })
  const [call] = connection.fed(Buffer.from('${LINE}'))
  connection.answer(call.number, call.params)
  console.log(connection.take().toString())
`
const ANSWERED = '{"id":1,"jsonrpc":"2.0","result":["é"]}\n\n'

test('without an addon the module is loaded', { skip }, () => {
  assert.equal(ran({ 'bullmyrtle.wasm': wasm() }, ANSWER).stdout, ANSWERED)
})

test('the variable names the module too', { skip }, () => {
  assert.equal(ran({}, ANSWER, { BULLMYRTLE_ADDON: WASM }).stdout, ANSWERED)
})

test('an addon that is there and damaged is refused by its name, and nothing stands in for it', { skip }, () => {
  const { status, stderr } = ran({ 'bullmyrtle.wasm': wasm(), [ADDON]: 'none' }, ANSWER)
  assert.equal(status, 1)
  assert.ok(stderr.includes(ADDON), stderr)
})

test('a module that is cut, or another one, is refused by its name', { skip }, () => {
  for (const bad of [wasm().subarray(0, 1000), Buffer.from('none'), wasm().subarray(0, 8)]) {
    const { status, stderr } = ran({ 'bullmyrtle.wasm': bad }, ANSWER)
    assert.equal(status, 1)
    assert.match(stderr, /bullmyrtle can't load \S+bullmyrtle\.wasm: /)
  }
})

test('without any file, the platform and the files are named', () => {
  const { status, stderr } = ran({}, ANSWER)
  assert.equal(status, 1)
  assert.match(stderr, new RegExp(`bullmyrtle has no addon for ${process.platform}-${process.arch}: there are addons for`))
  assert.ok(stderr.includes(ADDON) && stderr.includes('bullmyrtle.wasm'), stderr)
})

test('a call that runs out of stack ends the module, or changes nothing', { skip }, () => {
  const { stdout, stderr } = ran({ 'bullmyrtle.wasm': wasm() }, `
    const connection = new Connection({ framing: 'lines' })
    let count = 0
    const deep = () => {
      if (connection.fed(Buffer.from('${LINE}')).length !== 1) throw new Error('no call')
      count++
      deep()
    }
    let code
    try { deep() } catch (error) { code = error.constructor.name }
    let after
    try { after = connection.counts().calls === count || connection.counts().calls === count + 1 } catch (error) { after = error.code }
    console.log(code, after)
  `)
  assert.match(stdout, /^RangeError (true|ERR_BULLMYRTLE_STOPPED)$/m, stderr)
})

test('a connection that is dropped leaves its memory to others', { skip }, () => {
  const { stdout, stderr } = ran({ 'bullmyrtle.wasm': wasm() }, `
    const params = JSON.stringify(['x'.repeat(100_000)]) // (which waits to be taken)
    const resident = () => process.memoryUsage.rss()
    for (let i = 0; i < 20; i++) new Connection().notify('m', params)
    ;(async () => {
      const before = resident()
      for (let i = 0; i < 2_000; i++) {
        new Connection().notify('m', params)
        if (i % 20 === 0) { gc(); await new Promise(resolve => setTimeout(resolve, 0)) }
      }
      gc()
      console.log(resident() - before < 80 * 2 ** 20)
    })()
  `, {}, ['--expose-gc'])
  assert.equal(stdout, 'true\n', stderr)
})
