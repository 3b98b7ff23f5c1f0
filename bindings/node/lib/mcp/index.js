'use strict'
const content = require('./content')
const faults = require('./faults')

const { audio, embeddedResource, image, resourceLink, text } = content
const { ErrorCode, InvalidResult, McpError, ToolError, UnknownVersion, UrlElicitationRequired } = faults
const { Bearer, NotEnough } = require('./http/bearer')

module.exports = {
  ToolServer: require('./server').ToolServer,
  ResourceTemplate: require('./server').ResourceTemplate,
  ToolClient: require('./client').ToolClient,
  ...require('./transports'),
  completable: require('./standard').completable,
  toolResult: require('./sampling').toolResult,
  toolUses: require('./sampling').toolUses,
  audio, embeddedResource, image, resourceLink, text,
  ErrorCode, InvalidResult, McpError, ToolError, UnknownVersion, UrlElicitationRequired,
  Bearer, NotEnough,
  MemoryEvents: require('./http/events').MemoryEvents,
  StreamableHTTPClientTransport: require('./http/client').StreamableHTTPClientTransport,
  VERSIONS: require('./about').VERSIONS
}
