'use strict'
// Loads bullmyrtle.wasm, and then the package over it. A browser compiles as large a module only beside its main
// thread, so all begins with an await.

const { Addon } = require('../lib/wasm')

/** The module of what was passed. */
async function moduleOf(source) {
  const given = await source
  if (given instanceof WebAssembly.Module) return given
  if (given instanceof ArrayBuffer || ArrayBuffer.isView(given)) return WebAssembly.compile(given)
  const response = given instanceof Response ? given : await fetch(given)
  if (!response.ok) throw new Error(`bullmyrtle.wasm can't be had: ${response.url} gave ${response.status}`)
  const isNamed = response.headers.get('content-type')?.startsWith('application/wasm')
  return isNamed ? WebAssembly.compileStreaming(response) : WebAssembly.compile(await response.arrayBuffer())
}

/** What the package exports as `load`: it gives what `packageOver` makes of the addon. `file` is where the module lies. */
function loading(packageOver, file) {
  let made
  const start = async source => {
    const { exports } = await WebAssembly.instantiate(await moduleOf(source), {})
    return packageOver(new Addon(exports))
  }
  // (it is loaded once for all callers; where that failed, the next call tries again)
  return (source = file) => {
    made ??= start(source).catch(error => {
      made = undefined
      throw error
    })
    return made
  }
}

module.exports = { loading }
