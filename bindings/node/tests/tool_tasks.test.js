'use strict'
// Tools that are called as tasks (basic/utilities/tasks of 2025-11-25, experimental).

const assert = require('node:assert/strict')
const { spawnSync } = require('node:child_process')
const { test } = require('node:test')
const { InMemoryTransport, InvalidResult, ToolClient, ToolServer, UrlElicitationRequired } = require('../lib/mcp')
const { Log, bullmyrtle, patience, rejectsWith, sleep, until } = require('./helping')
const { talking } = require('./tool_table')
const { Web, served } = require('./web')

const RELATED = 'io.modelcontextprotocol/related-task'
const STATUS = 'notifications/tasks/status'
const LATEST = '2025-11-25'
const TEXT = { type: 'object', properties: { text: { type: 'string' } }, required: ['text'] }
const PAGE = { message: 'a', url: 'https://example.com', elicitationId: '1' }
const MODEL = { role: 'assistant', model: 'm', content: { type: 'text', text: 't' } }
const OPTIONAL = { taskSupport: 'optional' }

/** A server with tasks, what its tools wait for, and what they told at their ends. */
function tasks(options) {
  const log = new Log()
  const server = new ToolServer({ name: 'tasks' }, { logger: log, grace: 50, ...options })
  const made = { server, log, ended: [], begun: [], extras: [] }
  const register = (name, config, callback) => server.registerTool(name, { execution: OPTIONAL, ...config }, callback)
  register('waits', {}, extra => new Promise((resolve, reject) => {
    made.begun.push(resolve)
    made.extras.push(extra)
    extra.signal.addEventListener('abort', () => {
      made.ended.push('waits')
      reject(new Error('aborted'))
    })
  }))
  // (one that forgets its signal, and gives or throws something once it is over)
  register('forgets', { execution: { taskSupport: 'required' } }, extra => new Promise((resolve, reject) => {
    made.begun.push({ resolve, reject })
    made.extras.push(extra)
  }))
  register('plain', { inputSchema: TEXT }, ({ text }) => text.length)
  register('asks', {}, async extra => {
    extra.reportProgress(1)
    extra.log('info', 'asking')
    await extra.sendNotification({ method: 'mine' })
    return (await extra.createMessage({ messages: '?' })).content.text
  })
  register('asks_twice', {}, async extra => {
    const all = await Promise.all(['a', 'b'].map(messages => extra.createMessage({ messages })))
    return all.map(it => it.content.text).join(' ')
  })
  register('late', { timeout: 20 }, () => new Promise(() => {}))
  register('throws', { inputSchema: TEXT }, ({ text }) => {
    if (text === 'page') throw new UrlElicitationRequired([PAGE])
    if (text === 'undefined') throw undefined
    if (text === 'revoked') {
      const { proxy, revoke } = Proxy.revocable({}, {})
      revoke()
      throw proxy
    }
    throw new RangeError(text)
  })
  register('never', { execution: undefined }, () => 'never')
  register('cycle', {}, () => {
    /** @type {any} */
    const it = {}
    it.it = it
    return it
  })
  return made
}

let last = 0
/** Sends a request, without a wait; gives its id. */
function say(talk, method, params) {
  const id = `q${++last}`
  talk.input.write(`${JSON.stringify({ jsonrpc: '2.0', id, method, params })}\n`)
  return id
}
const answerOf = (talk, id) => talk.written.find(it => it.id === id && !('method' in it))

/** A request's answer, whatever comes before. */
async function ask(talk, method, params) {
  const id = say(talk, method, params)
  await until(() => answerOf(talk, id))
  return answerOf(talk, id)
}

/** Begins a task by messages, and gives it. */
async function start(talk, name, { ttl, ...more } = {}) {
  const answer = await ask(talk, 'tools/call', { name, task: ttl === undefined ? {} : { ttl }, ...more })
  return answer.result.task
}
const asked = (talk, method, task) => ask(talk, `tasks/${method}`, { taskId: task.taskId })
const told = (talk, method = STATUS) => talk.written.filter(it => it.method === method).map(it => it.params)
const textOf = answer => answer.result.content.map(it => it.text).join()

/** A test of a session with a server of these tools. */
const session = (name, act, { options = {}, ...of } = {}) => test(name, async () => {
  const made = tasks(options)
  await talking(made.server, talk => act(talk, made), { version: LATEST, ...of })
})

session('a whole one', async (talk, { begun, extras, log }) => {
  const task = await start(talk, 'waits')
  assert.deepEqual([task.status, task.ttl], ['working', 3_600_000])
  assert.match(task.createdAt, /^\d{4}-\d\d-\d\dT\d\d:\d\d:\d\d\.\d{3}Z$/)
  assert.equal(typeof task.pollInterval, 'number')
  assert.deepEqual((await asked(talk, 'get', task)).result, task)
  assert.deepEqual((await ask(talk, 'tasks/list')).result, { tasks: [task] })
  await until(() => begun.length)
  assert.equal(extras[0].taskId, task.taskId)
  // (who asks for the result before it is there waits)
  const waiting = say(talk, 'tasks/result', { taskId: task.taskId })
  await ask(talk, 'ping')
  assert.equal(answerOf(talk, waiting), undefined)
  begun[0]('done')
  await until(() => answerOf(talk, waiting))
  const result = { content: [{ type: 'text', text: 'done' }], _meta: { [RELATED]: { taskId: task.taskId } } }
  assert.deepEqual(answerOf(talk, waiting).result, result)
  const after = (await asked(talk, 'get', task)).result
  assert.deepEqual({ ...after, lastUpdatedAt: task.lastUpdatedAt }, { ...task, status: 'completed' })
  assert.deepEqual(told(talk), [after])
  assert.deepEqual((await asked(talk, 'result', task)).result, result) // (as often as it is asked for)
  assert.deepEqual(log.errors, [])
})

for (const version of ['2025-06-18', LATEST]) {
  session(`what a tool supports, in ${version}`, async (talk, { begun }) => {
    const isNew = version === LATEST
    const { tools } = (await ask(talk, 'tools/list')).result
    const of = name => tools.find(it => it.name === name).execution
    assert.deepEqual(of('plain'), isNew ? OPTIONAL : undefined)
    assert.deepEqual([of('forgets'), of('never')], [isNew ? { taskSupport: 'required' } : undefined, undefined])
    const kinds = [
      ['plain', false, 'result'], ['plain', true, isNew ? 'task' : 'result'],
      ['never', false, 'result'], ['never', true, isNew ? 'never can\'t be called as a task' : 'result']
    ]
    if (isNew) kinds.push(['forgets', false, 'forgets can be called as a task only'])
    for (const [name, isTask, expected] of kinds) {
      const more = { ...(name === 'plain' && { arguments: { text: 'a' } }), ...(isTask && { task: {} }) }
      const { result, error } = await ask(talk, 'tools/call', { name, ...more })
      if (error !== undefined) assert.deepEqual(error, { code: -32601, message: `Method not found: ${expected}` })
      else assert.equal('task' in result ? 'task' : 'result', expected)
    }
    assert.equal(begun.length, 0)
    if (isNew) return
    for (const it of ['get', 'result', 'list', 'cancel']) {
      const message = `Method not found: tasks/${it}`
      assert.deepEqual((await asked(talk, it, { taskId: 'x' })).error, { code: -32601, message })
    }
  }, { version })
}

test('the capability is told where there are tasks', async () => {
  const declared = { list: {}, cancel: {}, requests: { tools: { call: {} } } }
  for (const [version, taskSupport, expected] of [
    [LATEST, 'optional', declared], [LATEST, 'required', declared], [LATEST, 'forbidden', undefined],
    ['2025-06-18', 'optional', undefined]
  ]) {
    const server = new ToolServer({ name: 's' }, { logger: new Log() })
    server.registerTool('it', { execution: { taskSupport } }, () => 'it')
    await talking(server, async talk => {
      const { result } = await talk.begin(version)
      assert.deepEqual(result.capabilities.tasks, expected)
      if (expected !== undefined) return
      const answer = await ask(talk, 'tools/call', { name: 'it', task: { ttl: 5 } })
      assert.deepEqual(answer.result, { content: [{ type: 'text', text: 'it' }] })
      assert.equal((await ask(talk, 'tasks/list')).error.code, -32601)
    })
  }
})

session('ends', async (talk, { log }) => {
  for (const [name, text, status, expected] of [
    ['plain', 'ab', 'completed', '2'],
    ['plain', 5, 'failed', 'Invalid params: arguments.text must be a string, got integer'],
    ['throws', 'a', 'failed', 'RangeError: a'],
    ['throws', 'undefined', 'failed', 'the tool failed'],
    ['throws', 'revoked', 'failed', 'the tool failed'],
    ['throws', 'page', 'failed', -32042],
    ['late', undefined, 'failed', 'The tool took longer than 0.02 seconds'],
    ['cycle', undefined, 'failed', /circular/]
  ]) {
    const task = await start(talk, name, text === undefined ? {} : { arguments: { text } })
    const found = await asked(talk, 'result', task)
    assert.equal((await asked(talk, 'get', task)).result.status, status, `${name} ${text}`)
    if (typeof expected === 'number') {
      assert.equal(found.error.code, expected)
      continue
    }
    if (typeof expected === 'string') assert.equal(textOf(found), expected)
    else assert.match(textOf(found), expected)
    assert.equal(found.result.isError ?? false, status === 'failed')
    assert.deepEqual(found.result._meta, { [RELATED]: { taskId: task.taskId } })
  }
  assert.equal(log.errors.length, 5) // (three that were thrown, the late one, and the one that has no JSON)
}, { capabilities: { elicitation: { url: {} } } })

session('cancels', async (talk, { begun, ended, log, extras }) => {
  for (const name of ['waits', 'forgets']) {
    const task = await start(talk, name)
    await until(() => begun.length)
    const waiting = say(talk, 'tasks/result', { taskId: task.taskId })
    const cancelled = (await asked(talk, 'cancel', task)).result
    assert.equal(cancelled.status, 'cancelled')
    assert.equal(extras.pop().isCancelled, true)
    await until(() => answerOf(talk, waiting))
    assert.equal(answerOf(talk, waiting).error.code, -32800)
    assert.deepEqual((await asked(talk, 'get', task)).result, cancelled)
    const words = 'Invalid params: the task is cancelled already'
    assert.deepEqual((await asked(talk, 'cancel', task)).error, { code: -32602, message: words })
    // (what it gives or throws later is nothing any more)
    const late = begun.pop()
    late.reject?.(new Error('late'))
    await sleep(1)
    assert.deepEqual((await asked(talk, 'get', task)).result, cancelled)
    assert.equal((await asked(talk, 'result', task)).error.code, -32800)
  }
  const done = await start(talk, 'plain', { arguments: { text: 'a' } })
  await asked(talk, 'result', done)
  const words = 'Invalid params: the task is completed already'
  assert.deepEqual((await asked(talk, 'cancel', done)).error, { code: -32602, message: words })
  assert.deepEqual([ended, log.errors], [['waits'], []])
})

session('who waits for a result gives up, and the task goes on', async (talk, { begun }) => {
  const task = await start(talk, 'waits')
  await until(() => begun.length)
  const requestId = say(talk, 'tasks/result', { taskId: task.taskId })
  talk.input.write(`${JSON.stringify({ jsonrpc: '2.0', method: 'notifications/cancelled', params: { requestId } })}\n`)
  assert.equal((await asked(talk, 'get', task)).result.status, 'working')
  begun[0]('done')
  assert.equal(textOf(await asked(talk, 'result', task)), 'done')
  assert.equal(answerOf(talk, requestId), undefined)
})

session('times', async (talk, { ended, log }) => {
  // (so long that it has begun before it is over, whatever else the machine does: one that has not never does)
  const task = await start(talk, 'waits', { ttl: 1_000 })
  assert.equal(task.ttl, 1_000)
  await until(() => ended.length)
  assert.deepEqual(told(talk).map(it => it.status), ['cancelled'])
  const unknown = { code: -32602, message: "Invalid params: taskId isn't one of a task that there is" }
  for (const it of ['get', 'result', 'cancel']) assert.deepEqual((await asked(talk, it, task)).error, unknown)
  assert.deepEqual((await ask(talk, 'tasks/list')).result, { tasks: [] })
  assert.equal((await start(talk, 'plain', { ttl: 1e12, arguments: { text: 'a' } })).ttl, 60_000)
  assert.equal((await start(talk, 'plain', { ttl: null, arguments: { text: 'a' } })).ttl, 60_000)
  for (const ttl of [-1, true, '1', []]) {
    const { error } = await ask(talk, 'tools/call', { name: 'plain', arguments: { text: 'a' }, task: { ttl } })
    assert.deepEqual(error, { code: -32602, message: 'Invalid params: task.ttl must be a number of milliseconds' })
  }
  const { error } = await ask(talk, 'tools/call', { name: 'plain', arguments: { text: 'a' }, task: 5 })
  assert.deepEqual(error, { code: -32602, message: 'Invalid params: task must be an object, got integer' })
  assert.deepEqual([ended, log.errors], [['waits'], []])
}, { options: { taskTtl: 60_000 } })

session('pages', async talk => {
  const ids = []
  for (let it = 0; it < 5; it++) ids.push((await start(talk, 'plain', { arguments: { text: 'a' } })).taskId)
  const found = []
  let cursor
  do {
    const { result } = await ask(talk, 'tasks/list', cursor && { cursor })
    assert.ok(result.tasks.length <= 2)
    found.push(...result.tasks.map(it => it.taskId))
    cursor = result.nextCursor
  } while (cursor)
  assert.deepEqual(found, ids)
  assert.equal((await ask(talk, 'tasks/list', { cursor: 'x' })).error.code, -32602)
}, { options: { pageSize: 2 } })

session('as many as are kept', async talk => {
  const call = { method: 'tools/call', params: { name: 'plain', arguments: { text: 'a' }, task: {} } }
  await talk.say(Array.from({ length: 1000 }, (_, id) => ({ ...call, id: `t${id}` })), 2000) // (with a status each)
  const message = 'Too many tasks: 1,000 are kept, until their ttl is over'
  assert.deepEqual((await ask(talk, call.method, call.params)).error, { code: -32000, message })
})

session('params that name no task', async talk => {
  for (const it of ['get', 'result', 'cancel']) {
    for (const params of [{}, { taskId: 5 }, { taskId: 'x' }, [1], undefined]) {
      assert.equal((await ask(talk, `tasks/${it}`, params)).error.code, -32602)
    }
  }
})

test('what is no support, and no time', () => {
  const server = new ToolServer({ name: 's' })
  for (const it of [{ taskSupport: 'maybe' }, { taskSupport: null }, 'optional', null]) {
    const execution = /** @type {any} */ (it)
    assert.throws(() => server.registerTool('it', { execution }, () => 'it'), /a tool's execution is/)
  }
  for (const taskTtl of [0, -1, NaN, Infinity, 2 ** 31, '5']) {
    assert.throws(() => new ToolServer({ name: 's' }, { taskTtl: /** @type {any} */ (taskTtl) }), RangeError)
  }
})

session('a host knows the task before it hears of it, which waits until all that it asks is answered', async talk => {
  const task = await start(talk, 'asks', { _meta: { progressToken: 'p' } })
  const questions = () => talk.written.filter(it => it.method === 'sampling/createMessage')
  const answer = ({ id }) => talk.input.write(`${JSON.stringify({ jsonrpc: '2.0', id, result: MODEL })}\n`)
  await until(() => questions().length === 1)
  const [answered, ...said] = talk.written.slice(1) // (behind what `initialize` is answered)
  assert.equal(answered.result?.task.taskId, task.taskId)
  const methods = ['notifications/progress', 'notifications/message', 'mine', STATUS, 'sampling/createMessage']
  assert.deepEqual(said.map(it => it.method), methods)
  answer(questions()[0])
  await asked(talk, 'result', task)
  const other = await start(talk, 'asks_twice')
  await until(() => questions().length === 3)
  answer(questions()[1])
  assert.equal((await asked(talk, 'get', other)).result.status, 'input_required')
  answer(questions()[2])
  assert.equal(textOf(await asked(talk, 'result', other)), 't t')
}, { capabilities: { sampling: {} } })

/** A client of a server with these tools. */
async function withClient(act, { client: options = {}, server: more = {} } = {}) {
  const made = tasks(more)
  const [one, other] = InMemoryTransport.createLinkedPair()
  await made.server.connect(other)
  const client = new ToolClient({ name: 'c' }, options)
  const heard = []
  client.setNotificationHandler(STATUS, ({ params }) => { heard.push(params) })
  await client.connect(one)
  try {
    await act(client, { ...made, heard })
  } finally {
    await client.close()
  }
  return made
}

for (const [name, texts] of [['asks', 't'], ['asks_twice', 't t']]) {
  test(`the host is asked: ${name}`, () => {
    const found = []
    let client
    const sampling = async params => {
      const { taskId } = params._meta[RELATED]
      found.push(taskId, (await client.getTask(taskId)).status)
      return MODEL
    }
    return withClient(async (it, { heard, log }) => {
      client = it
      const messages = []
      it.setNotificationHandler('notifications/message', ({ params }) => { messages.push(params) })
      it.setNotificationHandler('mine', ({ params }) => { messages.push(params) })
      const reached = []
      const { task } = await it.callTool({ name }, { task: {}, onprogress: ({ progress }) => reached.push(progress) })
      assert.equal((await it.getTaskResult(task.taskId)).content[0].text, texts)
      assert.deepEqual(new Set(found), new Set([task.taskId, 'input_required']))
      assert.deepEqual(heard.map(one => one.status), ['input_required', 'working', 'completed'])
      assert.deepEqual([reached, log.errors], [name === 'asks' ? [1] : [], []])
      for (const one of messages) assert.deepEqual(one._meta, { [RELATED]: { taskId: task.taskId } })
      assert.equal(messages.length, name === 'asks' ? 2 : 0)
    }, { client: { sampling } })
  })
}

test('a host that can\'t be asked, and one that answers wrongly', async () => {
  for (const [sampling, text] of [[undefined, 'the host has no sampling'], [() => { throw new Error('no') }, /no/]]) {
    await withClient(async (client, { heard }) => {
      const { task } = await client.callTool({ name: 'asks' }, { task: {} })
      const { content, isError } = await client.getTaskResult(task.taskId)
      assert.equal(isError, true)
      assert.match(content[0].text, text instanceof RegExp ? text : new RegExp(text))
      assert.equal(heard.at(-1).status, 'failed')
    }, { client: { sampling } })
  }
})

test('a client\'s whole one', async () => {
  const { ended } = await withClient(async (client, { begun }) => {
    const { task } = await client.callTool({ name: 'waits' }, { task: { ttl: 60_000 } })
    assert.deepEqual([task.status, task.ttl], ['working', 60_000])
    assert.deepEqual((await client.listTasks()).tasks.map(it => it.taskId), [task.taskId])
    await until(() => begun.length)
    // (the timer of such a signal keeps no process from its end, and nothing else goes on here)
    const stays = setTimeout(() => {}, patience(60_000))
    const signal = AbortSignal.timeout(10)
    await assert.rejects(client.getTaskResult(task.taskId, { signal }), { name: 'TimeoutError' })
    clearTimeout(stays)
    begun[0]('done')
    assert.equal((await client.getTaskResult(task.taskId)).content[0].text, 'done')
    assert.equal((await client.getTask(task.taskId)).status, 'completed')
    await rejectsWith(client.cancelTask(task.taskId), -32602, 'Invalid params: the task is completed already')
    const { task: other } = await client.callTool({ name: 'waits' }, { task: {} })
    await until(() => begun.length === 2)
    assert.equal((await client.cancelTask(other.taskId)).status, 'cancelled')
    await rejectsWith(client.getTaskResult(other.taskId), -32800, 'Request cancelled: its task was cancelled')
    const only = 'Method not found: forgets can be called as a task only'
    await rejectsWith(client.callTool({ name: 'forgets' }), -32601, only)
  })
  assert.deepEqual(ended, ['waits'])
})

test('another session\'s task', () => withClient(async (client, { server }) => {
  const { task } = await client.callTool({ name: 'plain', arguments: { text: 'a' } }, { task: {} })
  const [one, other] = InMemoryTransport.createLinkedPair()
  await server.connect(other)
  const stranger = new ToolClient({ name: 'd' })
  await stranger.connect(one)
  for (const it of ['getTask', 'getTaskResult', 'cancelTask']) {
    await rejectsWith(stranger[it](task.taskId), -32602, "Invalid params: taskId isn't one of a task that there is")
  }
  assert.deepEqual(await stranger.listTasks(), { tasks: [] })
  await stranger.close()
}))

test('a session that ends: what still runs is aborted, and nothing is logged', async () => {
  const { ended, extras, log } = await withClient(async (client, { begun }) => {
    await client.callTool({ name: 'waits' }, { task: {} })
    await client.callTool({ name: 'forgets' }, { task: {} })
    await until(() => begun.length === 2)
  })
  await until(() => ended.length)
  assert.deepEqual([ended, extras.map(it => it.isCancelled), log.errors], [['waits'], [true, true], []])
})

test('a task keeps no process from its end', () => {
  const code = `
    const { InMemoryTransport, ToolClient, ToolServer } = require(${JSON.stringify(require.resolve('../lib/mcp'))})
    const [one, other] = InMemoryTransport.createLinkedPair()
    const server = new ToolServer({ name: 's' })
    server.registerTool('forgets', { execution: { taskSupport: 'required' } }, () => new Promise(() => {}))
    const client = new ToolClient({ name: 'c' })
    server.connect(other).then(() => client.connect(one)).then(async () => {
      console.log((await client.callTool({ name: 'forgets' }, { task: {} })).task.status)
    })`
  const { status, stdout, stderr } = spawnSync(process.execPath, ['-e', code], { encoding: 'utf8', timeout: patience(240_000) })
  assert.deepEqual([status, stdout, stderr], [0, 'working\n', ''])
})

test('answers that are none of a task', async () => {
  const task = { taskId: '1', status: 'working', createdAt: '2025-11-28T10:00:00Z', ttl: null }
  const INITIALIZED = { protocolVersion: LATEST, capabilities: {}, serverInfo: { name: 's', version: '1' } }
  for (const [method, answer, words] of [
    ['tools/call', { content: [] }, 'tools/call as a task: result lacks task'],
    ['tools/call', { task: { ...task, status: 'odd' } }, 'tools/call as a task: result.task.status must be'],
    ['tasks/get', { ...task, taskId: 5 }, 'tasks/get: result.taskId must be a string, got integer'],
    ['tasks/result', { content: 5 }, 'tasks/result: result.content must be an array or null, got integer'],
    ['tasks/cancel', [], 'tasks/cancel: result must be an object, got array'],
    ['tasks/list', { tasks: [{}] }, 'tasks/list: result.tasks[0] lacks ']
  ]) {
    const answers = { 'initialize': INITIALIZED, 'tools/call': { task }, [method]: answer }
    const [one, other] = InMemoryTransport.createLinkedPair()
    const server = bullmyrtle.createMessageConnection(other.input, other.output, undefined, { protocol: 'mcp' })
    server.onRequest(it => answers[it])
    server.listen()
    const client = new ToolClient({ name: 'c' })
    await client.connect(one)
    const calls = {
      'tools/call': () => client.callTool({ name: 'a' }, { task: {} }), 'tasks/get': () => client.getTask('1'),
      'tasks/result': () => client.getTaskResult('1'), 'tasks/cancel': () => client.cancelTask('1'),
      'tasks/list': () => client.listTasks()
    }
    await assert.rejects(calls[method](), error => error instanceof InvalidResult && error.message.startsWith(words))
    await client.close()
    server.dispose()
  }
})

/** A test of a server of these tools over HTTP. */
const web = (name, act, settings) => test(name, async () => {
  const made = tasks()
  const handler = made.server.http(settings)
  await served(handler, async url => {
    await act(new Web(url), made)
    await handler.close()
  })
})

web('over HTTP, what a task says is on the stream that waits for its result', async (it, { server, log }) => {
  let go
  const may = new Promise(resolve => { go = resolve })
  server.registerTool('later', { execution: OPTIONAL }, async extra => {
    await may
    extra.log('info', 'asking')
    return (await extra.createMessage({ messages: '?' })).content.text
  })
  await it.begin(LATEST, { sampling: {} })
  const { taskId } = (await it.send('tools/call', { name: 'later', task: {} }).whole).json.result.task
  const own = it.get()
  const response = it.send('tasks/result', { taskId })
  await response.until(() => response.isStream)
  go()
  await response.until(() => response.messages.length === 2)
  const [words, question] = response.messages
  assert.deepEqual([words.method, question.method], ['notifications/message', 'sampling/createMessage'])
  for (const one of [words, question]) assert.deepEqual(one.params._meta, { [RELATED]: { taskId } })
  await it.post({ jsonrpc: '2.0', id: question.id, result: MODEL }).whole
  await response.whole
  const { result } = response.messages.at(-1)
  assert.deepEqual([result.content[0].text, result._meta], ['t', { [RELATED]: { taskId } }])
  assert.equal(response.messages.length, 3) // (its status is of no request)
  await own.until(() => own.messages.length === 3)
  assert.deepEqual(own.messages.map(one => one.params.status), ['input_required', 'working', 'completed'])
  own.cut()
  assert.deepEqual(log.errors, [])
})

web('over HTTP, the stream of who waits ends with its cancel, and the task goes on', async (it, { begun, log }) => {
  await it.begin()
  const { taskId } = (await it.send('tools/call', { name: 'waits', task: {} }).whole).json.result.task
  await until(() => begun.length)
  const response = it.send('tasks/result', { taskId })
  const requestId = it.last
  await response.until(() => response.isStream)
  await it.tell('notifications/cancelled', { requestId })
  await response.whole
  assert.deepEqual(response.messages, [])
  begun[0]('done')
  assert.equal((await it.send('tasks/result', { taskId }).whole).messages.at(-1).result.content[0].text, 'done')
  assert.deepEqual(log.errors, [])
})

web('over HTTP, a session that ends aborts its tasks', async (it, { begun, ended, log }) => {
  await it.begin()
  await it.send('tools/call', { name: 'waits', task: {} }).whole
  await until(() => begun.length)
  assert.equal((await it.ask('DELETE').whole).status, 204)
  await until(() => ended.length)
  assert.deepEqual(log.errors, [])
})

web('over HTTP, the words of an error stay here', async (it, { log }) => {
  await it.begin()
  const call = { name: 'throws', arguments: { text: 'secret' }, task: {} }
  const begun = (await it.send('tools/call', call).whole).json.result.task
  const result = await it.send('tasks/result', { taskId: begun.taskId }).whole
  assert.equal(result.messages.at(-1).result.content[0].text, 'the tool failed')
  assert.equal(log.errors.length, 1)
})

web('without state there are none', async (it, { log }) => {
  const answer = (await it.send('tools/call', { name: 'plain', arguments: { text: 'a' }, task: {} }).whole).json
  assert.equal(answer.result.content[0].text, '1')
  assert.equal((await it.send('tasks/list').whole).json.error.code, -32601)
  assert.deepEqual(log.errors, [])
}, { stateless: true })
