'use strict'
// What is said, until it crosses to the addon, together with what else is said in one turn. Texts are JSON, which has
// no line feed.

const { native, CODES, OK, SAY, ALONE, BEFORE_SAYINGS, SAYING, MOST_SAYINGS } = require('./native')

const NOTHING = Buffer.alloc(0)
const KEY = 2 // where the key of a call stands that is said alone
const FEW = 64 // an array of more sayings isn't kept

/** So many units cross together, and a text of more alone: a string of 2^29 units is longer than there can be. */
const MOST_UNITS = 1 << 27

/** Names and messages that can't cross with others: texts are cut at line feeds, and surrogates may be halves. */
const UNUSUAL = /[\n\ud800-\udfff]/
const goesAlone = (name, json) => UNUSUAL.test(name) || json?.length > MOST_UNITS

class Crossing {
  /** How many sayings there are. */
  count = 0
  /** What writes them. */
  writing
  #state
  #hearer
  #said = []
  #texts = ''
  #made = [] // places of calls and notifications among it, and who waits for these

  /** The hearer gets refusals of what nobody waits for. */
  constructor(state, hearer) {
    this.#state = state
    this.#hearer = hearer
  }

  answer(number, json) {
    if (json.length > MOST_UNITS) return this.#sayOf(SAY.answer, number, 0, json)
    this.#push(SAY.answer, number, 0)
    this.#texts += `${json}\n`
  }

  close(number) {
    this.#push(SAY.close, number, 0)
  }

  cancel(number) {
    this.#push(SAY.cancel, number, 0)
  }

  withdraw(key) {
    this.#push(SAY.withdraw, key, 0)
  }

  fail(number, code, message, json) {
    if (goesAlone(message, json)) return this.#sayOf(SAY.fail, number, code, message, json)
    this.#push(json === undefined ? SAY.fail | ALONE : SAY.fail, number, code)
    this.#text(message)
    if (json !== undefined) this.#text(json)
  }

  /** `call` has sent(key) and refused(code). */
  call(method, json, call) {
    this.#send(SAY.call, method, json, call)
  }

  /** `note` has sent() and refused(code), or is absent. */
  notify(method, json, note) {
    this.#send(SAY.notify, method, json, note)
  }

  #send(kind, method, json, who) {
    if (goesAlone(method, json)) {
      const code = this.#sayAlone(kind, 0, 0, method, json)
      return code === OK ? who?.sent(native.says[KEY]) : who?.refused(CODES[code])
    }
    this.#push(json === undefined ? kind | ALONE : kind, 0, 0)
    if (who !== undefined) this.#made.push(this.count - 1, who)
    this.#text(method)
    if (json !== undefined) this.#text(json)
  }

  /** Calls several times in one message: the first key, or a refusal's name. */
  callBatch(calls) {
    this.cross(NOTHING)
    const parts = calls.flat().map(it => (it === undefined ? NOTHING : Buffer.from(it)))
    const lengths = Uint32Array.from(parts.map(it => it.length))
    const code = native.callBatch(this.#state.handle, 0, Buffer.concat(parts), lengths)
    this.writing.schedule()
    return code === OK ? native.says[KEY] : CODES[code]
  }

  /** Says something of a call that came, alone. */
  #sayOf(kind, number, code, first, second) {
    const refused = this.#sayAlone(kind, number, code, first, second)
    if (refused !== OK) this.#hearer.refused(kind, number, CODES[refused])
  }

  #sayAlone(kind, number, code, first, second) {
    this.cross(NOTHING)
    const texts = [first, second].map(it => (it === undefined ? NOTHING : Buffer.from(it)))
    this.writing.schedule()
    return native.sayOne(this.#state.handle, kind, number, code, ...texts)
  }

  #push(kind, number, code) {
    if (this.count === MOST_SAYINGS || this.#texts.length > MOST_UNITS) this.cross(NOTHING)
    const at = this.count++ * SAYING
    const said = this.#said
    said[at] = kind
    said[at + 1] = number
    said[at + 2] = code
    if (!this.#state.isHeld && !this.#state.isScheduled) this.writing.schedule()
  }

  #text(it) {
    this.#texts += `${it}\n`
  }

  /** Hands over what was said, takes bytes to a room, and gives how many. */
  cross(out) {
    const { says } = native
    const count = this.count
    const said = this.#said
    const texts = this.#texts
    for (let i = 0; i < count * SAYING; i++) says[BEFORE_SAYINGS + i] = said[i]
    this.count = 0
    this.#texts = ''
    const taken = native.say(this.#state.handle, count, texts, texts.length, out)
    if (count === 0) return taken
    const refusals = says[0] === 0 ? undefined : this.#refusals(count)
    const made = this.#made
    if (made.length) this.#made = []
    if (count > FEW) this.#said = [] // (before those who wait say more)
    for (let i = 0; i < made.length; i += 2) {
      const at = BEFORE_SAYINGS + made[i] * SAYING
      if (says[at] === OK) made[i + 1].sent(says[at + 1])
      else made[i + 1].refused(CODES[says[at]])
    }
    refusals?.forEach(it => this.#hearer.refused(...it))
    return taken
  }

  /** What was refused that isn't a call or a notification, which have who waits for them: kind, number, why. */
  #refusals(count) {
    const found = []
    for (let i = 0; i < count; i++) {
      const code = native.says[BEFORE_SAYINGS + i * SAYING]
      const kind = this.#said[i * SAYING] & (ALONE - 1)
      if (code === OK || kind === SAY.call || kind === SAY.notify) continue
      found.push([kind, this.#said[i * SAYING + 1], CODES[code]])
    }
    return found
  }
}

module.exports = { Crossing }
