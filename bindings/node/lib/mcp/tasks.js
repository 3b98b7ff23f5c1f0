'use strict'
// Calls of tools that run as tasks: the host is answered at once, and asks for the result later (2025-11-25,
// experimental).

const { randomUUID } = require('node:crypto')
const { CancellationToken } = require('../cancellation')
const { REQUEST_CANCELLED, ErrorCodes, ResponseError } = require('../errors')
const { isObject } = require('./checks')
const { Extra } = require('./extra')
const { invalidParams } = require('./faults')
const { quiet } = require('./quiet')
const { shown } = require('./shown')

/** The member of `_meta` that names the task which a message belongs to. */
const RELATED = 'io.modelcontextprotocol/related-task'
/** How many tasks of a session are kept, so that a host that never asks for one can't fill memory. */
const MOST = 1000
/** How long a host should wait before it asks again, in milliseconds. */
const POLL = 1000
/** What a timer takes: a longer time would be over at once. */
const LONGEST = 2 ** 31 - 1
const SUPPORT = ['forbidden', 'optional', 'required']
const OVER = ['completed', 'failed', 'cancelled']

const cancelled = what => new ResponseError(REQUEST_CANCELLED, `Request cancelled: ${what}`)

/** Params or a result that belong to a task, with its id. */
const related = (it, taskId) => ({ ...it, _meta: { ...it?._meta, [RELATED]: { taskId } } })

/** One call of a tool that goes on after its request was answered. */
class Task {
  // (an id is a secret: a host that knows it gets the result)
  id = randomUUID()
  status = 'working'
  extra
  /** Who waits for its result: the ids of these requests, and what tells them. */
  #waiting = new Set()
  #outcome // its result or its error, once it is over
  #session
  #ttl
  #created = new Date().toISOString()
  #updated = this.#created
  #questions = 0

  /** With the time after which it is forgotten, in milliseconds. */
  constructor(session, ttl) {
    this.#session = session
    this.#ttl = ttl
  }

  get isOver() {
    return OVER.includes(this.status)
  }

  /** The task as the protocol has it. */
  asJson() {
    const times = { createdAt: this.#created, lastUpdatedAt: this.#updated }
    return { taskId: this.id, status: this.status, ttl: this.#ttl, pollInterval: POLL, ...times }
  }

  /** Changes its status, and tells the host. What is over stays as it is. */
  #became(status) {
    if (this.isOver || status === this.status) return
    this.status = status
    this.#updated = new Date().toISOString()
    this.#session.notify('notifications/tasks/status', this.asJson())
  }

  complete(result) {
    if (this.isOver) return
    this.#became(result.isError ? 'failed' : 'completed')
    this.#settle({ result: related(result, this.id) })
  }

  fail(error, status = 'failed') {
    if (this.isOver) return
    this.#became(status)
    this.#settle({ error })
  }

  #settle(outcome) {
    this.#outcome ??= outcome
    for (const it of this.#waiting) it.tell()
    this.extra.end()
  }

  /** Waits for what it gives. A request that is cancelled waits no longer, and leaves it as it is. */
  async result({ requestId, signal }) {
    if (this.#outcome === undefined && !signal.aborted) await this.#over(requestId, signal)
    const { result, error } = this.#outcome ?? { error: cancelled('its host waits no longer') }
    if (result === undefined) throw error
    return result
  }

  async #over(requestId, signal) {
    const waits = { requestId, tell: () => {} }
    this.#waiting.add(waits)
    await new Promise(resolve => {
      waits.tell = () => resolve(undefined)
      signal.addEventListener('abort', waits.tell, { once: true })
    })
    this.#waiting.delete(waits)
  }

  /** The id of the request that waits for its result, of several the first one's. */
  get waitingId() {
    const [first] = this.#waiting
    return first?.requestId
  }

  /** Cancels it, and what runs for it. */
  cancel() {
    this.fail(cancelled('its task was cancelled'), 'cancelled')
    this.extra.cancel()
  }

  /** Its session is over, so that there is nobody to tell. */
  leave() {
    if (!this.isOver) this.status = 'cancelled'
    this.#settle({ error: cancelled('its session is over') })
    this.extra.cancel()
  }

  /** Asks the host, and waits for input until all that it was asked is answered. */
  async asking(ask) {
    this.#questions++
    this.#became('input_required')
    try {
      return await ask()
    } finally {
      if (--this.#questions === 0) this.#became('working')
    }
  }
}

/** What a tool knows that runs as a task: its request is answered already. */
class TaskExtra extends Extra {
  #task

  constructor(session, task, { requestId }, params) {
    super(session, requestId, params, CancellationToken.None)
    this.#task = task
  }

  get taskId() {
    return this.#task.id
  }

  /** What is said goes to whom waits for the result. */
  get streamId() {
    return this.#task.waitingId
  }

  marked(params) {
    return related(params, this.#task.id)
  }

  sendRequest(request) {
    return quiet(this.#task.asking(() => super.sendRequest(request)))
  }
}

/** The tasks of one session, which no other session can ask for. */
class Tasks {
  #session
  #longest
  #tasks = new Map()
  #timers = new Map()

  /** With the time for which a task is kept at most, in milliseconds. */
  constructor(session, longest) {
    this.#session = session
    this.#longest = longest
  }

  /** All that aren't forgotten, the oldest first. */
  all() {
    return [...this.#tasks.values()].map(it => ({ about: it.asJson() }))
  }

  /** The task that params name. */
  found(params) {
    const task = isObject(params) ? this.#tasks.get(params.taskId) : undefined
    if (task === undefined) throw invalidParams("taskId isn't one of a task that there is")
    return task
  }

  /** Begins a call as a task: what its request is answered. `run(extra)` gives the result. */
  start(params, extra, run) {
    if (this.#tasks.size >= MOST) {
      const words = `Too many tasks: ${MOST.toLocaleString('en')} are kept, until their ttl is over`
      throw new ResponseError(ErrorCodes.serverErrorEnd, words)
    }
    const ttl = this.#ttlOf(params.task.ttl)
    const task = new Task(this.#session, ttl)
    task.extra = new TaskExtra(this.#session, task, extra, params)
    this.#tasks.set(task.id, task)
    // (which doesn't keep a process)
    this.#timers.set(task.id, setTimeout(() => this.#forget(task), ttl).unref())
    // (the request is answered first, so that the host knows the task before it hears of it)
    setImmediate(() => { if (!task.isOver) run(task.extra).then(it => task.complete(it), it => task.fail(it)) })
    return { task: task.asJson() }
  }

  #ttlOf(asked) {
    if (asked === undefined || asked === null) return this.#longest
    if (typeof asked !== 'number' || !(asked >= 0)) throw invalidParams('task.ttl must be a number of milliseconds')
    return Math.min(asked, this.#longest)
  }

  #forget(task) {
    task.cancel()
    this.#tasks.delete(task.id)
    this.#timers.delete(task.id)
  }

  cancel(params) {
    const task = this.found(params)
    if (task.isOver) throw invalidParams(`the task is ${task.status} already`)
    task.cancel()
    return task.asJson()
  }

  /** The session is over: nothing is kept, and nothing goes on. */
  end() {
    for (const it of this.#timers.values()) clearTimeout(it)
    for (const it of this.#tasks.values()) it.leave()
    this.#timers.clear()
    this.#tasks.clear()
  }
}

/** Whether a tool may be called as a task, as it was registered with `execution`. */
function taskSupportOf(execution = {}) {
  const { taskSupport = 'forbidden' } = Object(execution)
  if (isObject(execution) && SUPPORT.includes(taskSupport)) return taskSupport
  throw new TypeError(`a tool's execution is { taskSupport: one of ${SUPPORT.join(', ')} }, got ${shown(execution)}`)
}

/** For how many milliseconds a task is kept at most. */
function checkTtl(ttl) {
  if (typeof ttl === 'number' && ttl > 0 && ttl <= LONGEST) return ttl
  throw new RangeError(`taskTtl is a number of milliseconds up to ${LONGEST}, got ${shown(ttl)}`)
}

module.exports = { OVER, Tasks, checkTtl, taskSupportOf }
