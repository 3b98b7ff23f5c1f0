'use strict'
const { CODES, OK } = require('./native')

const TEXTS = {
  NoMemory: 'memory was refused; the same may be tried again',
  NotOpen: 'no call of this number is open',
  NotWaiting: 'no call of this key waits, or it is withdrawn already, or cancels are off',
  InputOver: 'the input is over',
  NotJson: 'this is no JSON of at most 120 levels, or params are neither an array nor an object',
  NotText: "a method's name or an error's message has half a surrogate pair, or isn't UTF-8",
  BadSettings: 'there are no such settings',
  Empty: 'a batch of no calls',
  Full: 'the keys are used up'
}

/** What the connection refuses. It has changed nothing. `code` is its name, such as 'NotOpen'. */
class Refused extends Error {
  constructor(code) {
    super(TEXTS[CODES[code]])
    this.code = CODES[code]
  }
  get name() { return 'Refused' }
}

function check(code) {
  if (code !== OK) throw new Refused(code)
}

module.exports = { Refused, check, TEXTS }
