'use strict'
// What tools, prompts and resources give: texts, images, sounds, links, and values with a structure.

const { types: { isUint8Array } } = require('node:util')
const { iconsOf, known, present } = require('./about')
const { wellFormed } = require('./shown')

/** A part of what a tool gives. One that is written by hand is an object of the same members. */
class Part {
  constructor(members) {
    Object.assign(this, members)
  }
}

const base64 = data => (typeof data === 'string' ? data : Buffer.from(data).toString('base64'))
const text = words => new Part({ type: 'text', text: wellFormed(String(words)) })

function media(type, data, mimeType) {
  if (typeof mimeType !== 'string') throw new TypeError(`the ${type}'s type isn't known: give it, as '${type}/..'`)
  if (typeof data !== 'string' && !isUint8Array(data)) throw new TypeError(`the ${type} is bytes, or their base64`)
  return new Part({ type, data: base64(data), mimeType })
}

/** An image, of bytes or their base64. */
const image = (data, mimeType) => media('image', data, mimeType)
/** A sound, since version 2025-03-26; before, a text tells of it. */
const audio = (data, mimeType) => media('audio', data, mimeType)

/** A link to a resource, since version 2025-06-18; before, a text with its URI. */
function resourceLink({ uri, name, title, description, mimeType, icons }) {
  return new Part(present({ type: 'resource_link', uri, name, title, description, mimeType, icons: iconsOf(icons) }))
}

/** A resource that is in the result itself: a text, or bytes. */
const embeddedResource = (uri, contents, mimeType) => (
  new Part({ type: 'resource', resource: contentsOf(uri, contents, mimeType) })
)

/** A part as the agreed version of the protocol has it. */
function partIn(part, version) {
  const { type } = part
  if (type === 'audio' && version < '2025-03-26') {
    const size = Buffer.from(String(part.data), 'base64').length
    return { type: 'text', text: `(audio of type ${part.mimeType}, ${size} bytes)` }
  }
  if (type !== 'resource_link') return { ...part }
  return version < '2025-06-18' ? { type: 'text', text: `${part.name}: ${part.uri}` } : known(part, version)
}

/** A value as JSON has it. Throws a TypeError if it has no JSON. */
function jsonOf(value) {
  const made = JSON.stringify(value)
  if (made === undefined) throw new TypeError(`the result isn't JSON, but ${typeof value}`)
  return made
}

/** The parts of what a tool gave. */
function partsOf(value, version) {
  if (value === undefined || value === null) return []
  if (value instanceof Part) return [partIn(value, version)]
  if (typeof value === 'string') return [partIn(text(value), version)]
  if (Array.isArray(value) && value.some(it => it instanceof Part)) return value.flatMap(it => partsOf(it, version))
  return [partIn(text(jsonOf(value)), version)]
}

/** A resource's contents: a text, bytes, or a value as the text of its JSON. */
function contentsOf(uri, value, mimeType) {
  if (isUint8Array(value)) return { uri, mimeType: mimeType ?? 'application/octet-stream', blob: base64(value) }
  if (typeof value === 'string') return { uri, mimeType: mimeType ?? 'text/plain', text: wellFormed(value) }
  return { uri, mimeType: mimeType ?? 'application/json', text: jsonOf(value) }
}

module.exports = { Part, audio, contentsOf, embeddedResource, image, jsonOf, partIn, partsOf, resourceLink, text }
