// usage: node run.mjs PROGRAM.wasm WORD ..   runs a program of C in WebAssembly over this process.
import { readFileSync, readSync, writeSync } from 'node:fs'
import { run } from './program.mjs'

const [file, ...words] = process.argv.slice(2)

function read(bytes) {
  try {
    return readSync(0, bytes)
  } catch (error) {
    if (error.code === 'EOF') return 0
    throw error
  }
}

function write(descriptor, bytes) {
  for (let at = 0; at < bytes.length;) at += writeSync(descriptor, bytes, at)
}

const variable = name => process.env[name]
process.exitCode = run(new WebAssembly.Module(readFileSync(file)), words, { read, write, variable })
