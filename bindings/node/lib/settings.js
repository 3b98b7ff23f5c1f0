'use strict'
// What a connection is made with, of the options that it is given.

const { CANCELS } = require('./native')

// Why so much: docs/decisions/library_and_bindings.md#nodejs-bindingsnode.
const PAUSE_OVER = 1 << 24
const STALLED = 30_000
/** How each protocol's messages are framed, where nothing else is asked for. */
const PROTOCOLS = { lsp: 'frames', mcp: 'lines' }

function oneOf(names, value, name) {
  if (!names.includes(value)) throw new TypeError(`${name} has to be ${names.map(it => `'${it}'`).join(' or ')}`)
  return value
}

function settingsOf(options, isBytes) {
  const protocol = oneOf(Object.keys(PROTOCOLS), options.protocol ?? 'lsp', 'protocol')
  const asked = oneOf(['frames', 'lines'], options.framing ?? PROTOCOLS[protocol], 'framing')
  return {
    framing: isBytes ? asked : 'contents',
    order: oneOf(['as-answered', 'as-came'], options.order ?? 'as-answered', 'order'),
    cancels: CANCELS.indexOf(protocol),
    content: options.content ?? 0,
    calls: options.calls ?? 0,
    pauseOver: options.pauseOver ?? PAUSE_OVER,
    stalled: options.stalled ?? STALLED
  }
}

module.exports = { settingsOf }
