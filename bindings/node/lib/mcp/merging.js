'use strict'
const { isObject } = require('./checks')

/** Two objects, and the objects in them; where both have something else, the other's stands. */
function merged(one, other = {}) {
  const made = { ...one }
  for (const [name, it] of Object.entries(other)) {
    made[name] = isObject(made[name]) && isObject(it) ? merged(made[name], it) : it
  }
  return made
}

module.exports = { merged }
