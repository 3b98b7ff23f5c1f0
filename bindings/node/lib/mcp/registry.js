'use strict'
// What a server has of one kind, in the order in which it was registered.

class Registry {
  #noun
  #items = new Map()
  #changed

  /** `changed` is called when what hosts may see has changed. */
  constructor(noun, changed) {
    this.#noun = noun
    this.#changed = changed
  }

  /**
   * Adds what `make` makes of a configuration, and gives what changes it later. Throws if there is one of this name.
   * @param {string} name @param {object} config @param {(config: any) => any} make
   */
  add(name, config, make) {
    if (this.#items.has(name)) throw new Error(`there is a ${this.#noun} '${name}' already`)
    const item = { enabled: true, config, made: make(config) }
    this.#items.set(name, item)
    this.#changed()
    return new Registered(item, () => this.#changed(), make, () => {
      if (this.#items.get(name) !== item) return
      this.#items.delete(name)
      this.#changed()
    })
  }

  /** The one of a name, if it isn't disabled. */
  get(name) {
    const item = this.#items.get(name)
    return item?.enabled ? item.made : undefined
  }

  /** Whether one was ever there: hosts are told at the beginning. */
  get isEmpty() {
    return this.#items.size === 0
  }

  /** All that aren't disabled. */
  all() {
    return [...this.#items.values()].filter(it => it.enabled).map(it => it.made)
  }
}

/** One that is registered. */
class Registered {
  #item
  #changed
  #make
  #remove

  constructor(item, changed, make, remove) {
    this.#item = item
    this.#changed = changed
    this.#make = make
    this.#remove = remove
  }

  get enabled() {
    return this.#item.enabled
  }

  enable() {
    this.#set(true)
  }

  /** Hosts see it no more, until it is enabled again. */
  disable() {
    this.#set(false)
  }

  #set(isEnabled) {
    if (this.#item.enabled === isEnabled) return
    this.#item.enabled = isEnabled
    this.#changed()
  }

  /** Changes some of what it was registered with. */
  update(changes) {
    const config = { ...this.#item.config, ...changes }
    Object.assign(this.#item, { made: this.#make(config), config })
    this.#changed()
  }

  remove() {
    this.#remove()
  }
}

module.exports = { Registry }
