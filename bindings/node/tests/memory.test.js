'use strict'
// Memory: connections that are dropped are collected with all that they hold, and idle ones hold little.

const assert = require('node:assert/strict')
const { test } = require('node:test')
const path = require('node:path')
const { execFile } = require('node:child_process')
const { promisify } = require('node:util')
const { patience } = require('./helping')

const PROGRAM = path.join(__dirname, 'memory.js')

// (what is young has as much room from the beginning as it ever gets, so that only what is kept makes more resident)
const OPTIONS = ['--expose-gc', '--min-semi-space-size=4', '--max-semi-space-size=4']

async function measured(what) {
  const { stdout } = await promisify(execFile)(process.execPath, [...OPTIONS, PROGRAM, what], { timeout: patience(300_000) })
  return JSON.parse(stdout)
}

for (const what of ['lower', 'upper', 'busy', 'waiting']) {
  test(`10,000 connections that are dropped: ${what}`, { timeout: patience(300_000) }, async () => {
    const { early, late } = await measured(what)
    assert.ok(late <= early * 1.1, `${early} bytes were resident after 2,000, and ${late} after 10,000`)
  })
}

test('10,000 idle connections', { timeout: patience(300_000) }, async () => {
  const { each } = await measured('idle')
  assert.ok(each <= 20 * 1024, `${each} bytes each`)
})
