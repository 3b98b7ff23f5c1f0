'use strict'
// Semantic tokens, as LSP encodes them: five numbers for each, of which two are told from the token before.

const SIZE = 5

const sameFrom = (one, other, most) => {
  let count = 0
  while (count < most && one(count) === other(count)) count++
  return count
}

/** What turns one sequence of numbers into another: no edit, or one. */
class SemanticTokensDiff {
  #before
  #after

  constructor(before, after) {
    this.#before = before
    this.#after = after
  }

  computeDiff() {
    const [before, after] = [this.#before, this.#after]
    const most = Math.min(before.length, after.length)
    const start = sameFrom(at => before[at], at => after[at], most)
    const end = sameFrom(at => before[before.length - 1 - at], at => after[after.length - 1 - at], most - start)
    const deleteCount = before.length - end - start
    const data = after.slice(start, after.length - end)
    if (deleteCount === 0 && data.length === 0) return []
    return [data.length ? { start, deleteCount, data } : { start, deleteCount }]
  }
}

/** The data of tokens, which may be pushed in any order. */
function encoded(tokens) {
  const inOrder = [...tokens].sort((one, other) => one[0] - other[0] || one[1] - other[1])
  const data = new Array(inOrder.length * SIZE)
  let [lastLine, lastChar] = [0, 0]
  inOrder.forEach(([line, char, length, type, modifiers], at) => {
    const numbers = [line - lastLine, line === lastLine ? char - lastChar : char, length, type, modifiers]
    for (let i = 0; i < SIZE; i++) data[at * SIZE + i] = numbers[i]
    lastLine = line
    lastChar = char
  })
  return data
}

let builders = 0

class SemanticTokensBuilder {
  #id = ++builders
  #tokens = []
  #before

  get id() { return String(this.#id) }

  push(line, char, length, tokenType, tokenModifiers) {
    this.#tokens.push([line, char, length, tokenType, tokenModifiers])
  }

  /** Begins anew; what was built before is what the next edits are told from, if this is its id. */
  previousResult(id) {
    this.#before = this.id === id ? encoded(this.#tokens) : undefined
    this.#tokens = []
    this.#id = ++builders
  }

  build() {
    this.#before = undefined
    return { resultId: this.id, data: encoded(this.#tokens) }
  }

  canBuildEdits() {
    return this.#before !== undefined
  }

  buildEdits() {
    if (this.#before === undefined) return this.build()
    return { resultId: this.id, edits: new SemanticTokensDiff(this.#before, encoded(this.#tokens)).computeDiff() }
  }
}

module.exports = { SemanticTokensBuilder, SemanticTokensDiff }
