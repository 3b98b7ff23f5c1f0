'use strict'
// Loaded before the package's tests: refuses the request for memory that the variable REFUSE_NTH counts to, from when it
// is set, and then sets it to the word `refused`, as bindings/node/tests/refused_memory.c does.

const { Instance } = WebAssembly
let left = 0

function refuses() {
  const word = process.env.REFUSE_NTH
  if (word === undefined) left = 0
  else if (/^\d/.test(word)) {
    left = Number(word)
    process.env.REFUSE_NTH = 'counting'
  }
  if (left === 0 || --left) return 0
  process.env.REFUSE_NTH = 'refused'
  return 1
}

/** @type {any} */
const refusing = function (module) { return new Instance(module, { host: { refuses } }) }
WebAssembly.Instance = refusing
