import { Connection, ConnectionOptions, InputStream, Logger, MessageConnection, OutputStream } from './index.js'

export interface Joined {
  server: MessageConnection
  client: MessageConnection
  /** The streams from the client to the server, and back. */
  up: InputStream & OutputStream
  down: InputStream & OutputStream
  dispose(): void
}
export interface JoinedOptions {
  server?: ConnectionOptions
  client?: ConnectionOptions
  logger?: Logger
  /** Of the two streams. */
  highWaterMark?: number
}
/** A server and a client that talk to each other in memory. Both have yet to listen. */
export declare function joined(options?: JoinedOptions): Joined
/** Carries bytes between two connections of the lower floor until neither has any, and gives how many they were. */
export declare function carry(one: Connection, other: Connection): number
