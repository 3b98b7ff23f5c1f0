'use strict'
// `connection.window` and `connection.workspace`, with the names of vscode-languageserver.

const { Emitter } = require('../events')

const FOLDERS_CHANGED = 'workspace/didChangeWorkspaceFolders'
const isItem = it => it !== null && typeof it === 'object'

function windowOf(remote, progresses) {
  const show = type => (message, ...actions) => remote.ask('window/showMessageRequest', { type, message, actions })
  return {
    showErrorMessage: show(1),
    showWarningMessage: show(2),
    showInformationMessage: show(3),
    showDocument: params => remote.call('window/showDocument', params),
    createWorkDoneProgress: () => progresses.create(),
    attachWorkDoneProgress: token => progresses.attach(token)
  }
}

class Workspace {
  #remote
  #life
  #client
  #folders = new Emitter()
  #isWanted = false
  #isAsked = false

  constructor(remote, life, client, dispatch) {
    this.#remote = remote
    this.#life = life
    this.#client = client
    dispatch.onNotification(FOLDERS_CHANGED, ({ event }) => this.#folders.fire(event), true)
  }

  /** One setting or several: of a section, of an item, or of a list of items. */
  getConfiguration = (about) => {
    const isList = Array.isArray(about)
    const items = isList ? about : [isItem(about) ? about : about === undefined ? {} : { section: about }]
    const asked = this.#remote.call('workspace/configuration', { items })
      .then(found => (isList ? found ?? items.map(() => null) : Array.isArray(found) ? found[0] : found))
    asked.catch(() => {})
    return asked
  }

  applyEdit = (given) => (
    this.#remote.call('workspace/applyEdit', given !== null && 'edit' in given ? given : { edit: given })
  )

  getWorkspaceFolders = () => this.#remote.call('workspace/workspaceFolders')

  /** Tells of folders that come and go. The client is asked to tell of them, if the capabilities didn't. */
  get onDidChangeWorkspaceFolders() {
    this.#isWanted = true
    this.ask()
    return this.#folders.event
  }

  /** Asks for what is wanted, once the session has begun. */
  ask() {
    if (!this.#isWanted || this.#isAsked || !this.#life.isRunning) return
    this.#isAsked = true
    const isTold = this.#life.capabilities.workspace?.workspaceFolders?.changeNotifications
    if (!isTold && this.#life.clientCapabilities.workspace?.workspaceFolders) this.#client.register(FOLDERS_CHANGED)
  }
}

module.exports = { windowOf, Workspace }
