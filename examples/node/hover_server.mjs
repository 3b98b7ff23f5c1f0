// A language server with a hover, which is all of a stranger's first one.
import { createConnection, TextDocument, TextDocuments } from '../../bindings/node/lib/lsp/index.mjs' // ('bullmyrtle/lsp')

const connection = createConnection()
const documents = new TextDocuments(TextDocument)
connection.onInitialize(() => ({ capabilities: { hoverProvider: true } }))
connection.onHover(({ textDocument, position: { line } }) => {
  const text = documents.get(textDocument.uri)?.getText({ start: { line, character: 0 }, end: { line: line + 1, character: 0 } })
  return text && { contents: `${text.trim().split(/\s+/).length} words in this line` }
})
documents.listen(connection)
connection.listen()
