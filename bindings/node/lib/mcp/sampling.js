'use strict'
// Questions to a host's model, which may use tools in its answer (client/sampling of 2025-11-25).

const { isObject } = require('./checks')
const { partsOf } = require('./content')
const { cut } = require('./shown')

/** The parts of a message that are of a type; a message has one part, or a list of them. */
function partsIn(message, type) {
  const content = message?.content
  return (Array.isArray(content) ? content : [content]).filter(it => isObject(it) && it.type === type)
}

/** The tools that a model asks for in its message: each has an `id`, a `name` and the arguments as `input`. */
const toolUses = message => partsIn(message, 'tool_use')

/** What a tool gave that a model asked for, as a part of the next message. */
function toolResult(use, value, { isError = false } = {}) {
  const made = { type: 'tool_result', toolUseId: use.id, content: partsOf(value, '2025-11-25') }
  return isError ? { ...made, isError } : made
}

const named = id => `'${cut(String(id), 60)}'`

/** What is wrong with the turns in which tools are used: each use has its result in the next message. */
function turnFault(messages) {
  let owed = []
  for (const [at, it] of messages.entries()) {
    const results = partsIn(it, 'tool_result')
    if (results.length && Array.isArray(it.content) && results.length < it.content.length) {
      return `messages[${at}] has results of tools beside other content`
    }
    const found = results.map(part => part.toolUseId)
    const lacking = owed.find(use => !found.includes(use))
    if (lacking !== undefined) return `messages[${at}] lacks the result of the tool use ${named(lacking)}`
    const unasked = found.find(result => !owed.includes(result))
    if (unasked !== undefined) {
      return `messages[${at}] has the result of ${named(unasked)}, which no use before it asks for`
    }
    owed = toolUses(it).map(part => part.id)
  }
  return owed.length ? `messages lacks the result of the tool use ${named(owed[0])}` : undefined
}

module.exports = { toolResult, toolUses, turnFault }
