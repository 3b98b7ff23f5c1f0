// A language server for plain text, wherever it runs: it finds words that stand twice in a row, and counts words.
const WORD = /[\p{L}\p{N}_]+/gu
const REPEATED = /(?<![\p{L}\p{N}_])([\p{L}\p{N}_]+)\s+\1(?![\p{L}\p{N}_])/giu

/** Serves a connection; `lsp` is what bullmyrtle/lsp exports, or in a browser the member of what `load()` gives. */
export function serveWords(connection, { TextDocument, TextDocuments, DiagnosticSeverity, Range }) {
  const documents = new TextDocuments(TextDocument)
  const find = (pattern, document) => Array.from(document.getText().matchAll(pattern), found => ({
    word: found[1] ?? found[0],
    range: Range.create(document.positionAt(found.index), document.positionAt(found.index + found[0].length))
  }))

  connection.onInitialize(() => ({ capabilities: { textDocumentSync: 2, hoverProvider: true } }))
  documents.onDidChangeContent(({ document }) => {
    const diagnostics = find(REPEATED, document).map(({ word, range }) => ({
      range, severity: DiagnosticSeverity.Warning, message: `'${word}' stands twice`
    }))
    connection.sendDiagnostics({ uri: document.uri, version: document.version, diagnostics })
  })
  connection.onHover(({ textDocument, position: { line, character } }) => {
    const document = documents.get(textDocument.uri)
    const words = document === undefined ? [] : find(WORD, document)
    const here = words.find(({ range: { start, end } }) => (
      start.line === line && start.character <= character && character <= end.character
    ))
    return here && { contents: `${here.word}: ${words.filter(it => it.word === here.word).length} times` }
  })
  documents.listen(connection)
  connection.listen()
}
