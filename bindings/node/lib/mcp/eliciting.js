'use strict'
// What a host's user is asked for: forms, and pages that are opened.

const { randomUUID } = require('node:crypto')
const { faultOf, isObject } = require('./checks')
const { InvalidResult, ToolError } = require('./faults')
const { checked } = require('./results')
const { Schema } = require('./schema')
const { shown } = require('./shown')

const PLAIN = ['string', 'number', 'integer', 'boolean']
const CHOICES_WITH_TITLES = '2025-11-25'

/** A form's schema as a version has it. Throws a TypeError for what no user can be asked for. */
function formIn(schema, version) {
  if (!isObject(schema.properties)) return schema
  const fields = Object.entries(schema.properties).map(([name, it]) => [name, fieldIn(name, it, version)])
  return { ...schema, properties: Object.fromEntries(fields) }
}

function fieldIn(name, field, version) {
  if (isChoiceOfSeveral(field)) {
    if (version >= CHOICES_WITH_TITLES) return field
    throw new ToolError(`${shown(name)}: the host's version has no choice of several`)
  }
  if (!PLAIN.includes(field?.type)) {
    throw new TypeError(`${shown(name)} can't be asked for: a user gives texts, numbers, booleans and choices of these`)
  }
  if (!Array.isArray(field.oneOf) || version >= CHOICES_WITH_TITLES) return field
  const { oneOf, ...made } = field
  return { ...made, enum: oneOf.map(it => it.const), enumNames: oneOf.map(it => it.title) }
}

function isChoiceOfSeveral(field) {
  const items = field?.type === 'array' ? field.items : undefined
  return isObject(items) && (Array.isArray(items.anyOf) || (items.type === 'string' && Array.isArray(items.enum)))
}

/** What a user said. Throws an InvalidResult if the content isn't as the schema of the form has it. */
function elicited(result, form) {
  const { action, content } = checked('elicitation/create', result)
  if (action !== 'accept' || form === undefined) return { action, content: content ?? undefined }
  const fault = faultOf(new Schema(form, 'requestedSchema').check, content ?? {}, 'result.content')
  if (fault !== undefined) throw new InvalidResult(`elicitation/create: ${fault}`)
  return { action, content: content ?? {} }
}

/** The params that ask a user to open a page, since version 2025-11-25. */
function pageOf({ message, url, elicitationId = randomUUID() }) {
  if (!/^https?:\/\//.test(url)) throw new TypeError(`a page's URL begins with https://, got ${shown(url)}`)
  return { mode: 'url', message, url, elicitationId }
}

module.exports = { elicited, formIn, pageOf }
