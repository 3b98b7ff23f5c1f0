'use strict'
// Namespaces that make and recognise values of LSP, with the names of vscode-languageserver-types.

const { fits } = require('./fitting')

const MAX = 2147483647
const MIN = -2147483648

/** An object of members and values, without those that are undefined. */
const made = (names, values) => {
  const found = {}
  names.forEach((name, at) => { if (values[at] !== undefined) found[name] = values[at] })
  return found
}
const is = type => value => fits(type)(value)

// `create` takes these members in this order.
const MEMBERS = {
  Location: 'uri range',
  LocationLink: 'targetUri targetRange targetSelectionRange originSelectionRange',
  Color: 'red green blue alpha',
  ColorInformation: 'range color',
  ColorPresentation: 'label textEdit additionalTextEdits',
  FoldingRange: 'startLine endLine startCharacter endCharacter kind collapsedText',
  DiagnosticRelatedInformation: 'location message',
  Diagnostic: 'range message severity code source relatedInformation',
  ChangeAnnotation: 'label needsConfirmation description',
  TextDocumentEdit: 'textDocument edits',
  TextDocumentIdentifier: 'uri',
  VersionedTextDocumentIdentifier: 'uri version',
  OptionalVersionedTextDocumentIdentifier: 'uri version',
  TextDocumentItem: 'uri languageId version text',
  InsertReplaceEdit: 'newText insert replace',
  CompletionItem: 'label',
  ParameterInformation: 'label documentation',
  DocumentHighlight: 'range kind',
  DocumentSymbol: 'name detail kind range selectionRange children',
  CodeActionContext: 'diagnostics only triggerKind',
  CodeLens: 'range data',
  FormattingOptions: 'tabSize insertSpaces',
  DocumentLink: 'range target data',
  SelectionRange: 'range parent',
  InlineValueText: 'range text',
  InlineValueVariableLookup: 'range variableName caseSensitiveLookup',
  InlineValueEvaluatableExpression: 'range expression',
  InlineValueContext: 'frameId stoppedLocation',
  InlayHintLabelPart: 'value',
  InlayHint: 'position label kind',
  WorkspaceFolder: 'uri name',
  CodeDescription: 'href',
  MarkupContent: 'kind value',
  Hover: 'contents range',
  SemanticTokens: 'resultId data'
}
const simple = Object.entries(MEMBERS).map(([name, text]) => {
  const names = text.split(' ')
  return [name, { create: (...values) => made(names, values), is: is(name) }]
})

/** A position has no number that LSP hasn't. */
const bounded = value => (value === Number.MAX_VALUE || value === Infinity ? MAX : value)

const Position = { create: (line, character) => ({ line: bounded(line), character: bounded(character) }), is: is('Position') }

const Range = {
  create(first, second, third, fourth) {
    if ([first, second, third, fourth].every(it => Number.isInteger(it))) {
      return { start: Position.create(first, second), end: Position.create(third, fourth) }
    }
    if (Position.is(first) && Position.is(second)) return { start: first, end: second }
    throw new TypeError('a range is made of two positions, or of four integers')
  },
  is: is('Range')
}

const edits = name => ({
  replace: (range, newText, annotationId) => made(['range', 'newText', 'annotationId'], [range, newText, annotationId]),
  insert: (position, newText, annotationId) => (
    made(['range', 'newText', 'annotationId'], [{ start: position, end: position }, newText, annotationId])
  ),
  del: (range, annotationId) => made(['range', 'newText', 'annotationId'], [range, '', annotationId]),
  is: is(name)
})

/** A change of files: what it is called with first, and then its options and its annotation. */
const files = (kind, name, names) => ({
  create: (...given) => made(['kind', ...names, 'options', 'annotationId'], [kind, ...given]),
  is: is(name)
})

const own = {
  integer: { MIN_VALUE: MIN, MAX_VALUE: MAX, is: value => Number.isInteger(value) && value >= MIN && value <= MAX },
  uinteger: { MIN_VALUE: 0, MAX_VALUE: MAX, is: value => Number.isInteger(value) && value >= 0 && value <= MAX },
  DocumentUri: { is: is('DocumentUri') },
  URI: { is: is('URI') },
  Position,
  Range,
  TextEdit: edits('TextEdit'),
  AnnotatedTextEdit: edits('AnnotatedTextEdit'),
  ChangeAnnotationIdentifier: { is: is('ChangeAnnotationIdentifier') },
  CreateFile: files('create', 'CreateFile', ['uri']),
  RenameFile: files('rename', 'RenameFile', ['oldUri', 'newUri']),
  DeleteFile: files('delete', 'DeleteFile', ['uri']),
  WorkspaceEdit: { is: is('WorkspaceEdit') },
  Command: {
    create: (title, command, ...given) => (given.length ? { title, command, arguments: given } : { title, command }),
    is: is('Command')
  },
  CompletionList: { create: (items = [], isIncomplete = false) => ({ items, isIncomplete }), is: is('CompletionList') },
  MarkedString: {
    fromPlainText: text => text.replace(/[\\`*_{}[\]()#+\-.!]/g, '\\$&'),
    is: is('MarkedString')
  },
  SignatureInformation: {
    create: (label, documentation, ...parameters) => (
      made(['label', 'documentation', 'parameters'], [label, documentation, parameters])
    ),
    is: is('SignatureInformation')
  },
  SymbolInformation: {
    create: (name, kind, range, uri, containerName) => (
      made(['name', 'kind', 'location', 'containerName'], [name, kind, { uri, range }, containerName])
    ),
    is: is('SymbolInformation')
  },
  WorkspaceSymbol: {
    create: (name, kind, uri, range) => ({ name, kind, location: range === undefined ? { uri } : { uri, range } }),
    is: is('WorkspaceSymbol')
  },
  CodeAction: {
    /** Behind the title is a kind, a command or an edit. */
    create(title, given, kind) {
      if (typeof given === 'string') return { title, kind: given }
      const about = typeof given?.command === 'string' ? { command: given } : given === undefined ? {} : { edit: given }
      return kind === undefined ? { title, ...about } : { title, ...about, kind }
    },
    is: is('CodeAction')
  }
}

module.exports = { ...Object.fromEntries(simple), ...own }
