'use strict'
// Calls of a server's own functions, and what becomes of what they give or throw.

const { types: { isUint8Array } } = require('node:util')
const { ConnectionError } = require('../errors')
const { messageOf, responseOf } = require('../thrown')
const { isObject } = require('./checks')
const { Part, contentsOf, jsonOf, partIn, partsOf, text } = require('./content')
const { ErrorCode, InvalidResult, ToolError, invalidParams } = require('./faults')
const { RESULTS, faultIn } = require('./results')
const { wellFormed } = require('./shown')

const STRUCTURED = '2025-06-18'
/** Since this version a model sees wrong arguments, and may try others. */
const SHOWS_ARGUMENTS = '2025-11-25'
const LATE = Symbol('late')
/** What is thrown with a text for the other side. */
const MEANT = [ToolError, InvalidResult, ConnectionError]

const plain = value => JSON.parse(jsonOf(value))
const hasOnly = (value, names) => isObject(value) && Object.keys(value).every(it => names.includes(it))

/** The function's value for arguments; one that was registered without a schema of these gets `extra` alone. */
async function valueOf({ input, callback, takesArguments }, given, extra) {
  const args = await input.read(given, 'arguments', invalidParams)
  return takesArguments ? callback(args, extra) : callback(extra)
}

// Tools

async function callTool(tool, given, extra, session) {
  try {
    const value = await limited(valueOf(tool, given, extra), tool.timeout)
    if (value !== LATE) return await resultOf(tool, value, session.version)
    extra.cancel()
    session.logError(`the tool ${tool.name} took longer than ${tool.timeout / 1000} seconds`)
    return errorResult(`The tool took longer than ${tool.timeout / 1000} seconds`)
  } catch (error) {
    return failed(tool.name, error, session, extra)
  }
}

/** What a promise gives, or LATE. */
async function limited(promise, milliseconds) {
  if (milliseconds === undefined) return promise
  let timer
  const late = new Promise(resolve => { timer = setTimeout(resolve, milliseconds, LATE) })
  return Promise.race([promise, late]).finally(() => clearTimeout(timer))
}

const errorResult = words => ({ content: [{ ...text(words) }], isError: true })

/** What a tool that threw gives: an error that the model may see. */
function failed(name, error, session, extra) {
  const response = responseOf(error)
  if (response?.code === ErrorCode.InvalidParams && session.version < SHOWS_ARGUMENTS) throw error
  if (response?.code === ErrorCode.UrlElicitationRequired && session.clientHas('elicitation.url') !== undefined) {
    for (const it of response.data?.elicitations ?? []) session.elicitations.add(it.elicitationId)
    throw error
  }
  const message = messageOf(error)
  const isMeant = isForHost(error)
  if (!isMeant && !extra.isCancelled) session.logError(`the tool ${name} threw ${read(() => error.stack) ?? message}`)
  if (isMeant) return errorResult(message ?? '')
  if (session.hidesErrors) return errorResult('the tool failed')
  const kind = read(() => error.name)
  return errorResult([kind === 'Error' ? undefined : kind, message ?? 'the tool failed'].filter(Boolean).join(': '))
}

/** A text of what was thrown, which may be anything: also what throws in turn once it is looked at. */
function read(look) {
  try {
    const found = look()
    return typeof found === 'string' ? found : undefined
  } catch {
    return undefined
  }
}

function isA(value, kind) {
  try {
    return value instanceof kind
  } catch { // (a revoked proxy)
    return false
  }
}

/** Whether what was thrown has a text for the other side. */
const isForHost = error => responseOf(error) !== undefined || MEANT.some(it => isA(error, it))

async function resultOf(tool, value, version) {
  if (isResult(value)) return resultByHand(tool, value, version)
  if (isUint8Array(value)) throw new TypeError('bytes are no result: give image(..), audio(..) or embeddedResource(..)')
  const structured = tool.output === undefined ? objectOf(value) : await structuredOf(tool, value)
  // (a structured value is there as a text too, for hosts that know nothing of it)
  const content = partsOf(structured ?? value, version)
  return structured === undefined || version < STRUCTURED ? { content } : { content, structuredContent: structured }
}

/** An object as JSON has it; undefined for what is none there, as a Date, and for a part. */
function objectOf(value) {
  const made = isObject(value) && !(value instanceof Part) ? plain(value) : undefined
  return isObject(made) ? made : undefined
}

const structuredOf = (tool, value) => tool.output.read(plain(value), 'the result', it => new TypeError(it))

/** Whether a value is a result as the protocol has it, and no value of the program's. */
function isResult(value) {
  if (!hasOnly(value, ['content', 'structuredContent', 'isError', '_meta'])) return false
  return Array.isArray(value.content) || (value.content === undefined && isObject(value.structuredContent))
}

async function resultByHand(tool, { content, structuredContent, isError, _meta }, version) {
  const structured = tool.output !== undefined && !isError
    ? await structuredOf(tool, structuredContent) : structuredContent && plain(structuredContent)
  const given = content ?? [text(jsonOf(structured))]
  const parts = given.flatMap(it => (isObject(it) ? [partIn(it, version)] : partsOf(it, version)))
  const made = { content: parts }
  if (structured !== undefined && version >= STRUCTURED) made.structuredContent = structured
  if (isError) made.isError = true
  if (_meta !== undefined) made._meta = _meta
  return rightOf('tools/call', plain(made))
}

/** A result that the program has made by hand. Throws a TypeError, with the place, if it isn't one of its method's. */
function rightOf(method, result) {
  const fault = faultIn(RESULTS, method, result, 'the result')
  if (fault !== undefined) throw new TypeError(fault)
  return result
}

// Resources and prompts

/** The result of reading a resource. */
async function readResource({ callback, about }, uri, parts, extra) {
  const url = new URL(uri)
  const value = await (parts === undefined ? callback(url, extra) : callback(url, parts, extra))
  const isWhole = hasOnly(value, ['contents', '_meta']) && Array.isArray(value.contents)
  if (isWhole) return rightOf('resources/read', plain(value))
  return { contents: [contentsOf(uri, value, about.mimeType)] }
}

async function getPrompt(prompt, given, extra, version) {
  const value = await valueOf(prompt, given, extra)
  const isWhole = hasOnly(value, ['messages', 'description', '_meta']) && Array.isArray(value.messages)
  const found = isWhole ? value : { messages: Array.isArray(value) ? value : [value] }
  const { description = prompt.about.description } = found
  const messages = found.messages.map(it => messageIn(it, version))
  return rightOf('prompts/get', plain({ ...found, description, messages }))
}

/** A message of a prompt's: a text or a part is the user's. */
function messageIn(given, version) {
  const message = typeof given === 'string' || given instanceof Part ? { role: 'user', content: given } : given
  const { content } = Object(message)
  const part = typeof content === 'string' ? text(content) : content
  return { ...message, content: isObject(part) ? partIn(part, version) : part }
}

/** What completes an argument: at most so many values are told. */
const MOST_VALUES = 100

async function complete(callback, value, others) {
  const found = Array.from((await callback(value, { arguments: others })) ?? [], it => wellFormed(String(it)))
  const values = found.slice(0, MOST_VALUES)
  return { completion: { values, total: found.length, hasMore: found.length > values.length } }
}

module.exports = { callTool, complete, getPrompt, isForHost, readResource }
