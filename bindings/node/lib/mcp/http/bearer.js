'use strict'
// Who may call a tool server over HTTP, by a bearer's token; and where such a token comes from (RFC 9728).

const { Refusal } = require('./head')

const WELL_KNOWN = '/.well-known/oauth-protected-resource'
const TOKEN = /^bearer +([A-Za-z0-9._~+/-]+=*)$/i
const NEEDED = 'Unauthorized: a bearer token is needed'

/** What a check throws for a token that is good, but lacks a scope. */
class NotEnough extends Error {
  /** With the scopes that are needed, and a blank between two. */
  constructor(scope) {
    super(scope)
    this.scope = scope
  }
}

class Bearer {
  #check
  #url
  #scope
  metadata

  /**
   * `check` gets the token, and gives who has it, or a promise of that; undefined, null or false if it isn't good. It has
   * to check that the token was made for this server. `resource` is the server's URL, as its clients have it.
   */
  constructor(check, resource, authorizationServers = [], { scopes = [], metadata = undefined } = {}) {
    if (typeof check !== 'function') throw new TypeError('a check of tokens is a function')
    const { protocol, origin, pathname, hash } = new URL(resource)
    if (!/^https?:$/.test(protocol) || hash) throw new TypeError(`the resource is a URL without a fragment: ${resource}`)
    this.#check = check
    this.#scope = scopes.join(' ')
    this.#url = metadata ?? `${origin}${WELL_KNOWN}${pathname === '/' ? '' : pathname}`
    if (/["\\\x00-\x1f\x7f]/.test(this.#url + this.#scope)) {
      throw new TypeError('a URL or a scope has a character that no header may have')
    }
    const about = { resource, bearer_methods_supported: ['header'] }
    if (authorizationServers.length) about.authorization_servers = [...authorizationServers]
    if (scopes.length) about.scopes_supported = [...scopes]
    this.metadata = JSON.stringify(about)
  }

  #refused(status, words, error, scope) {
    const parts = [error && `error="${error}"`, `resource_metadata="${this.#url}"`, scope && `scope="${scope}"`]
    return new Refusal(status, words, { 'WWW-Authenticate': `Bearer ${parts.filter(Boolean).join(', ')}` })
  }

  /** Who calls. Rejects with a Refusal. */
  async user(head) {
    const token = TOKEN.exec(head.get('authorization') ?? '')?.[1]
    if (token === undefined) throw this.#refused(401, NEEDED, undefined, this.#scope)
    let user
    try {
      user = await this.#check(token)
    } catch (error) {
      if (!(error instanceof NotEnough)) throw error
      throw this.#refused(403, 'Forbidden: the token lacks a scope', 'insufficient_scope', error.scope)
    }
    if (user !== undefined && user !== null && user !== false) return user
    throw this.#refused(401, "Unauthorized: the token isn't valid", 'invalid_token', this.#scope)
  }
}

module.exports = { Bearer, NotEnough, WELL_KNOWN }
