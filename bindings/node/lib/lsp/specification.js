'use strict'
// LSP 3.17 as data: its methods, and the types of its values.

/** @type {any} */
const { methods, structures, unions, enumerations } = require('./specification.json')

/**
 * A method: to which side it is sent ('server', 'client' or 'both'), its kind, the type of its params, the server's
 * capability that tells of it, whether it has partial results; the constant that has its type, and the member of a
 * connection for it, with the names of vscode-languageserver.
 * @typedef {{ to: string, kind: string, params?: any, capability?: string, partial?: boolean, constant?: string,
 *   member?: string }} Method
 */

/** @type {Map<string, Method>} */
const METHODS = new Map(Object.entries(methods))

module.exports = { METHODS, structures, unions, enumerations }
