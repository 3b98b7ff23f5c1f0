'use strict'
// The addon of this platform, or where there is none the same in WebAssembly.

const fs = require('node:fs')
const path = require('node:path')
const { Addon } = require('./wasm')

// (Node.js's types don't have it)
const { WebAssembly } = /** @type {any} */ (globalThis)

const PLATFORMS = ['linux-x64', 'linux-arm64', 'darwin-x64', 'darwin-arm64', 'win32-x64']
const HERE = `${process.platform}-${process.arch}`
const WASM = 'bullmyrtle.wasm'

/** Where a file may lie: in the package, or in the repository, as it is released or built. */
function places(name, port) {
  const repository = path.join(__dirname, '..', '..', '..')
  return [
    path.join(__dirname, '..', 'prebuilt', name), path.join(repository, 'release', name),
    path.join(repository, 'out', 'ports', port, name)
  ]
}

/** The file that the variable names, the addon's, or that for any platform. */
function file() {
  if (process.env.BULLMYRTLE_ADDON) return path.resolve(process.env.BULLMYRTLE_ADDON)
  const addons = PLATFORMS.includes(HERE) ? places(`bullmyrtle-${HERE}.node`, HERE) : []
  const tried = [...addons, ...places(WASM, 'wasm32')]
  const found = tried.find(it => fs.existsSync(it))
  if (found !== undefined) return found
  const known = `there are addons for ${PLATFORMS.join(', ')}, and ${WASM} for any platform`
  throw new Error(`bullmyrtle has no addon for ${HERE}: ${known}; looked for ${tried.join(', ')}`)
}

/** The module in a file, whatever is wrong with which is told by the file's name. */
function moduleIn(found) {
  try {
    return new Addon(new WebAssembly.Instance(new WebAssembly.Module(fs.readFileSync(found))).exports)
  } catch (error) {
    throw Object.assign(new Error(`bullmyrtle can't load ${found}: ${error.message}`), { code: error.code, cause: error })
  }
}

function loaded() {
  const found = file()
  return found.endsWith('.wasm') ? moduleIn(found) : require(found)
}

module.exports = { addon: loaded() }
