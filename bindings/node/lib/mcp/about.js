'use strict'
// What servers, hosts, tools, resources and prompts say of themselves, and since which version.

const { shown, cut } = require('./shown')

/** The versions of the protocol that are known, the newest first. */
const VERSIONS = ['2025-11-25', '2025-06-18', '2025-03-26', '2024-11-05']

/** The version that has a member first. Members that aren't here are in all versions. */
const SINCE = {
  annotations: '2025-03-26',
  title: '2025-06-18',
  outputSchema: '2025-06-18',
  _meta: '2025-06-18',
  icons: '2025-11-25',
  execution: '2025-11-25',
  websiteUrl: '2025-11-25'
}
const DESCRIPTION_OF_A_PROGRAM = '2025-11-25'
const NAME = /^[A-Za-z0-9_.-]{1,128}$/

/** The members that have a value. */
function present(members) {
  return Object.fromEntries(Object.entries(members).filter(([, it]) => it !== undefined))
}

/** The members that a version has. */
function known(members, version) {
  // (resources had annotations before tools did)
  const isThere = name => (SINCE[name] ?? '') <= version || (name === 'annotations' && !('inputSchema' in members))
  return Object.fromEntries(Object.entries(members).filter(([name]) => isThere(name)))
}

/** The members of a server or a host that a version has. */
function program(members, version) {
  const { description, ...made } = known(members, version)
  return description === undefined || version < DESCRIPTION_OF_A_PROGRAM ? made : { ...made, description }
}

/**
 * What a server or a host says of itself, of what the program gave.
 * @param {import('../../types/mcp').ServerInfo} about
 */
function programOf({ name, version = '0', title, description, icons, websiteUrl }) {
  if (typeof name !== 'string') throw new TypeError(`the name must be a string, got ${shown(name)}`)
  return present({ name, version: String(version), title, description, icons: iconsOf(icons), websiteUrl })
}

/** Icons as they are told. Throws a TypeError for those that hosts refuse, since they would run code or read files. */
function iconsOf(icons) {
  return icons?.map(({ src, mimeType, sizes, theme }) => {
    if (!/^(https?:\/\/|data:)/.test(src)) {
      throw new TypeError(`an icon's src begins with https: or data:, got ${shown(src)}`)
    }
    if (theme !== undefined && theme !== 'light' && theme !== 'dark') {
      throw new TypeError(`an icon's theme is "light" or "dark", got ${shown(theme)}`)
    }
    return present({ src, mimeType, sizes, theme })
  })
}

/** Warns of a name that some hosts refuse. */
function checkToolName(name) {
  if (typeof name !== 'string') throw new TypeError(`a tool's name must be a string, got ${shown(name)}`)
  if (NAME.test(name)) return
  const words = '1 to 128 letters, digits, and _ - . are what hosts take'
  process.emitWarning(`the tool's name ${shown(cut(name, 140))}: ${words}`)
}

/** The levels of log messages, the least urgent first. */
const LEVELS = ['debug', 'info', 'notice', 'warning', 'error', 'critical', 'alert', 'emergency']

function checkLevel(level) {
  if (!LEVELS.includes(level)) throw new TypeError(`a level is one of ${LEVELS.join(', ')}: ${shown(level)}`)
}

module.exports = {
  LEVELS, SINCE, VERSIONS, checkLevel, checkToolName, iconsOf, known, present, program, programOf
}
