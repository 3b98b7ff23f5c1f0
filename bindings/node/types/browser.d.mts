// bullmyrtle/browser: what load() gives. Types of its values are those of `bullmyrtle`, by `import type`.

import type { AbstractMessageReader, AbstractMessageWriter, DataCallback, Disposable } from './index.js'

/** What is used of a Worker, of a MessagePort, or in a worker of `self`. */
export interface BrowserPort {
  postMessage(message: any): void
  addEventListener(type: string, listener: (event: any) => void): void
  removeEventListener(type: string, listener: (event: any) => void): void
}
export declare class BrowserMessageReader extends AbstractMessageReader {
  constructor(port: BrowserPort)
  listen(callback: DataCallback): Disposable
}
export declare class BrowserMessageWriter extends AbstractMessageWriter {
  constructor(port: BrowserPort)
  write(message: any): Promise<void>
}

/** What needs streams, sockets or processes. */
type OfNode =
  | 'ReadableStreamMessageReader' | 'StreamMessageReader' | 'SocketMessageReader' | 'IPCMessageReader'
  | 'PortMessageReader' | 'WriteableStreamMessageWriter' | 'StreamMessageWriter' | 'SocketMessageWriter'
  | 'IPCMessageWriter' | 'PortMessageWriter' | 'generateRandomPipeName' | 'createClientPipeTransport'
  | 'createServerPipeTransport' | 'createClientSocketTransport' | 'createServerSocketTransport' | 'run'

export type Package = Omit<typeof import('./index.js'), OfNode> & {
  BrowserMessageReader: typeof BrowserMessageReader
  BrowserMessageWriter: typeof BrowserMessageWriter
  /** Language servers in a worker: `lsp.createConnection(reader, writer)`. */
  lsp: Omit<typeof import('./language_server.js'), OfNode | 'Files'>
}

/**
 * Loads bullmyrtle.wasm, once. Where it doesn't lie beside this module, `source` says where it is, or is its bytes, a
 * Response, or a WebAssembly.Module.
 */
export declare function load(source?: string | object | PromiseLike<string | object>): Promise<Package>
