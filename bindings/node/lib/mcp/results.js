'use strict'
// What the other side's results must be, as far as they are read here (schema.ts of 2025-11-25).

const { faultOf } = require('./checks')
const { InvalidResult } = require('./faults')
const { Schema } = require('./schema')

const TEXT = { type: 'string' }
const OBJECT = { type: 'object' }
const NUMBER = { type: 'number' }
const BOOLEAN = { type: 'boolean' }
const array = items => ({ type: 'array', items })

// (there are servers that write null for what they leave out, and nothing is lost by that)
const orNull = it => ({ anyOf: [it, { type: 'null' }] })

function object(required, optional = {}) {
  const others = Object.fromEntries(Object.entries(optional).map(([name, it]) => [name, orNull(it)]))
  return { type: 'object', properties: { ...required, ...others }, required: Object.keys(required) }
}

const page = (name, item) => object({ [name]: array(item) }, { nextCursor: TEXT })

const NAMED = { name: TEXT }
const ABOUT = { title: TEXT, description: TEXT }
const ICON = object({ src: TEXT }, { mimeType: TEXT, sizes: array(TEXT), theme: TEXT })
const SHOWN = { ...ABOUT, icons: array(ICON) }
// (a text, or bytes in base64)
const CONTENTS = {
  ...object({ uri: TEXT }, { mimeType: TEXT }), anyOf: [object({ text: TEXT }), object({ blob: TEXT })]
}
const PARTS = {
  text: { text: TEXT },
  image: { data: TEXT, mimeType: TEXT },
  audio: { data: TEXT, mimeType: TEXT },
  resource: { resource: CONTENTS },
  resource_link: { uri: TEXT, ...NAMED }
}
const OF_PARTS = Object.entries(PARTS).map(([name, it]) => object({ type: { const: name }, ...it }))
// (a later version may have other types: nothing is known of these)
const OTHER_PART = object({ type: { allOf: [TEXT, { not: { enum: Object.keys(PARTS) } }] } })
const PART = { anyOf: [...OF_PARTS, OTHER_PART] }
const TOOL_PARTS = [
  object({ type: { const: 'tool_use' }, id: TEXT, name: TEXT, input: OBJECT }),
  object({ type: { const: 'tool_result' }, toolUseId: TEXT, content: array(PART) }, { isError: BOOLEAN })
]
const OTHER_THAN_TOOLS = {
  allOf: [PART, { properties: { type: { not: { enum: ['tool_use', 'tool_result'] } } } }]
}
const SAMPLED_PART = { anyOf: [...TOOL_PARTS, OTHER_THAN_TOOLS] }
const ROLE = { enum: ['user', 'assistant'] }
const ARGUMENT = object(NAMED, { ...ABOUT, required: BOOLEAN })
const MESSAGE = object({ role: ROLE, content: PART })
const SERVER = object({ ...NAMED, version: TEXT }, { ...SHOWN, websiteUrl: TEXT })
const TOOL = object({ ...NAMED, inputSchema: OBJECT }, { ...SHOWN, outputSchema: OBJECT, annotations: OBJECT })
const RESOURCE = object({ uri: TEXT, ...NAMED }, { ...SHOWN, mimeType: TEXT, size: NUMBER })
const TEMPLATE = object({ uriTemplate: TEXT, ...NAMED }, { ...SHOWN, mimeType: TEXT })
const PROMPT = object(NAMED, { ...SHOWN, arguments: array(ARGUMENT) })
const COMPLETION = object({ values: array(TEXT) }, { total: NUMBER, hasMore: BOOLEAN })

const STATUS = { enum: ['working', 'input_required', 'completed', 'failed', 'cancelled'] }
const TASK = object(
  { taskId: TEXT, status: STATUS, createdAt: TEXT },
  { lastUpdatedAt: TEXT, statusMessage: TEXT, ttl: NUMBER, pollInterval: NUMBER }
)
const CALLED = object({}, { content: array(PART), structuredContent: OBJECT, isError: BOOLEAN, _meta: OBJECT })

const RESULTS = {
  // what a server answers
  'initialize': object({ protocolVersion: TEXT, capabilities: OBJECT, serverInfo: SERVER }, { instructions: TEXT }),
  'tools/list': page('tools', TOOL),
  'tools/call': CALLED,
  'tools/call as a task': object({ task: TASK }),
  'tasks/get': TASK,
  'tasks/result': CALLED,
  'tasks/list': page('tasks', TASK),
  'tasks/cancel': TASK,
  'resources/list': page('resources', RESOURCE),
  'resources/templates/list': page('resourceTemplates', TEMPLATE),
  'resources/read': object({ contents: array(CONTENTS) }),
  'resources/subscribe': OBJECT,
  'resources/unsubscribe': OBJECT,
  'prompts/list': page('prompts', PROMPT),
  'prompts/get': object({ messages: array(MESSAGE) }, { description: TEXT }),
  'completion/complete': object({ completion: COMPLETION }),
  'logging/setLevel': OBJECT,
  'ping': OBJECT,
  // what a host answers
  'sampling/createMessage': object(
    { role: ROLE, content: { anyOf: [SAMPLED_PART, array(SAMPLED_PART)] }, model: TEXT }, { stopReason: TEXT }
  ),
  'elicitation/create': object({ action: { enum: ['accept', 'decline', 'cancel'] } }, { content: OBJECT }),
  'roots/list': object({ roots: array(object({ uri: TEXT }, { name: TEXT })) })
}

/** Params of what a server asks a host, as far as they are looked at before its functions get them. */
const QUESTIONS = {
  'sampling/createMessage': object(
    { messages: array(OBJECT) }, { tools: array(TOOL), toolChoice: object({}, { mode: TEXT }) }
  ),
  'elicitation/create': {
    anyOf: [
      object({ mode: { const: 'url' }, message: TEXT, url: TEXT, elicitationId: TEXT }),
      object({ message: TEXT }, { mode: { const: 'form' }, requestedSchema: OBJECT })
    ]
  }
}

const checks = new Map()

/** What is wrong with a value, by the schema of a table of these; undefined if nothing is. */
function faultIn(table, method, value, place) {
  const schema = table[method]
  if (!checks.has(schema)) checks.set(schema, new Schema(schema, method).check)
  return faultOf(checks.get(schema), value, place)
}

/** The result of a request. Throws an InvalidResult, with the place, if it isn't one of this method's. */
function checked(method, result) {
  const fault = faultIn(RESULTS, method, result, 'result')
  if (fault !== undefined) throw new InvalidResult(`${method}: ${fault}`)
  return result
}

module.exports = { QUESTIONS, RESULTS, checked, faultIn }
