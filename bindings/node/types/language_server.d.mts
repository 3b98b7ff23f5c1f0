export * from './language_server.js'
