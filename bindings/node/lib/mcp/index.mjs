// The same names as those of index.js, which a test compares.
import all from './index.js'

export const {
  ToolServer, ResourceTemplate, ToolClient, InMemoryTransport, StdioClientTransport, StdioServerTransport, completable,
  toolResult, toolUses, audio, embeddedResource, image, resourceLink, text, ErrorCode, InvalidResult, McpError, ToolError,
  UnknownVersion, UrlElicitationRequired, Bearer, NotEnough, MemoryEvents, StreamableHTTPClientTransport, VERSIONS
} = all
export default all
