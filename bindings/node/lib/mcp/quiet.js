'use strict'

/** A promise for which nobody has to wait: where the other side has ended, its rejection doesn't end the process. */
function quiet(promise) {
  promise.catch(() => {})
  return promise
}

module.exports = { quiet }
