'use strict'
// How a tool server is reached over HTTP: settings, with their bounds. Times are milliseconds.

const { shown } = require('../shown')
const { MemoryEvents } = require('./events')

const ANSWERS = ['auto', 'json', 'stream']
const COUNTS = ['body', 'sessions', 'streams', 'sessionStreams', 'unread']
const TIMES = ['retry', 'bodyTimeout', 'sessionTimeout', 'unreadTimeout', 'ping']

const DEFAULTS = {
  stateless: false, answers: 'auto', path: undefined, origins: undefined, hosts: undefined, bearer: undefined,
  events: () => new MemoryEvents(), poll: undefined, retry: 1_000,
  body: 4 << 20, bodyTimeout: 30_000, sessions: 1_000, sessionTimeout: 1_800_000,
  streams: 1_000, sessionStreams: 100, unread: 1 << 20, unreadTimeout: 30_000, ping: 15_000
}

/** The settings, with those that were left out. Throws for one that there isn't, and for a value that none can be. */
function settingsOf(given) {
  const odd = Object.keys(given).find(it => !Object.hasOwn(DEFAULTS, it))
  if (odd !== undefined) throw new TypeError(`there is no setting ${odd}: they are ${Object.keys(DEFAULTS).join(', ')}`)
  const settings = { ...DEFAULTS, ...Object.fromEntries(Object.entries(given).filter(([, it]) => it !== undefined)) }
  const { answers, path, origins, hosts } = settings
  if (!ANSWERS.includes(answers)) throw new RangeError(`answers is one of ${ANSWERS.join(', ')}: ${shown(answers)}`)
  if (path !== undefined && !String(path).startsWith('/')) throw new RangeError(`a path begins with a slash: ${shown(path)}`)
  for (const it of [origins, hosts]) {
    if (it !== undefined && !Array.isArray(it)) throw new TypeError('origins and hosts are lists of texts')
  }
  const low = [...COUNTS, ...TIMES].find(it => !(settings[it] >= (COUNTS.includes(it) ? 1 : 0)))
  if (low !== undefined) throw new RangeError(`${low} can't be ${shown(settings[low])}`)
  return settings
}

module.exports = { settingsOf }
