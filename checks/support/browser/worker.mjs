// A worker that answers, over the package for browsers.
// @ts-ignore (which the server has beside this file)
import { load } from './browser.mjs'

const { createMessageConnection, BrowserMessageReader, BrowserMessageWriter, ResponseError } = await load()
const connection = createMessageConnection(new BrowserMessageReader(self), new BrowserMessageWriter(self))
connection.onRequest('add', (one, other) => one + other)
connection.onRequest('echo', it => it)
connection.onRequest('fail', () => { throw new ResponseError(7, 'as asked', { why: ['é'] }) })
connection.onRequest('slow', token => new Promise(resolve => token.onCancellationRequested(() => resolve('cancelled'))))
connection.onRequest('back', async it => [await connection.sendRequest('double', it)])
connection.onNotification('note', it => connection.sendNotification('noted', it))
connection.listen()
// (what came before this was heard of is lost, so the page waits for it)
connection.sendNotification('ready')
