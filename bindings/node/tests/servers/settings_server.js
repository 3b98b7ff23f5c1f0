// @ts-nocheck (the modules that it imports aren't here)
'use strict'
// A language server of some 500 lines for files of settings, written for vscode-languageserver by memory of its API. A
// test runs it with other imports. A file has sections `[name]` and settings `key = value`; a value may name another
// setting as `${section.key}`, a colour as `#rrggbb`, a file as `include: path`, and call `join(a, b)` or `upper(a)`.

const {
  BulkRegistration, CodeAction, CodeActionKind, Color, ColorInformation, Command, CompletionItem, CompletionItemKind,
  createConnection, Diagnostic, DiagnosticSeverity, DiagnosticTag, DidChangeWatchedFilesNotification, DocumentHighlight,
  DocumentHighlightKind, DocumentLink, DocumentSymbol, ErrorCodes, FileChangeType, FoldingRange, FoldingRangeKind,
  InlayHint, InlayHintKind, InsertTextFormat, Location, LSPErrorCodes, MarkupKind, ParameterInformation, Position,
  ProposedFeatures, Range, RequestType, NotificationType, ResponseError, SelectionRange, SemanticTokenModifiers,
  SemanticTokensBuilder, SemanticTokensRegistrationType, SemanticTokenTypes, SignatureInformation, SymbolKind,
  TextDocumentEdit, TextDocuments, TextDocumentSyncKind, TextEdit, WatchKind, WorkspaceEdit, WorkspaceSymbol
} = require('vscode-languageserver/node')
const { TextDocument } = require('vscode-languageserver-textdocument')

const connection = createConnection(ProposedFeatures.all)
const documents = new TextDocuments(TextDocument)

// ---------------------------------------------------------------------------------------------------------- parsing

const SECTION = /^\s*\[([\w-]+)\]\s*$/
const SETTING = /^(\s*)([\w-]+)(\s*=\s*)(.*)$/
const REFERENCE = /\$\{(?:([\w-]+)\.)?([\w-]*)\}/g
const COLOR = /#([0-9a-f]{6})\b/gi
const INCLUDE = /^include:\s*(\S+)$/
const CALL = /\b(join|upper|lower)\(([^()]*)\)/g

const FUNCTIONS = {
  join: { parameters: ['first: text', 'second: text'], documentation: 'Joins two texts.' },
  upper: { parameters: ['of: text'], documentation: 'A text in capitals.' },
  lower: { parameters: ['of: text'], documentation: 'A text in small letters.' }
}

function parse(document) {
  const lines = document.getText().split(/\r\n|\r|\n/)
  const root = { name: '', line: -1, settings: [], end: lines.length - 1 }
  const parsed = { sections: [root], settings: [], references: [], colors: [], links: [], calls: [] }
  let section = root
  lines.forEach((text, line) => {
    if (text.trim().startsWith(';')) return
    const opened = SECTION.exec(text)
    if (opened) {
      section.end = line - 1
      const start = text.indexOf(opened[1])
      section = { name: opened[1], line, settings: [], end: lines.length - 1, range: Range.create(line, start, line, start + opened[1].length) }
      parsed.sections.push(section)
      return
    }
    const setting = SETTING.exec(text)
    if (setting) addSetting(parsed, section, line, setting)
  })
  return parsed
}

function addSetting(parsed, section, line, [whole, indent, key, equals, value]) {
  const valueStart = indent.length + key.length + equals.length
  const setting = {
    key, value, section, line,
    range: Range.create(line, indent.length, line, indent.length + key.length),
    valueRange: Range.create(line, valueStart, line, whole.length),
    fullRange: Range.create(line, 0, line, whole.length)
  }
  section.settings.push(setting)
  parsed.settings.push(setting)
  const at = (index, length) => Range.create(line, valueStart + index, line, valueStart + index + length)
  for (const it of value.matchAll(REFERENCE)) {
    const start = it.index + 2 + (it[1] ? it[1].length + 1 : 0)
    parsed.references.push({ section: it[1] || section.name, key: it[2], range: at(start, it[2].length), from: setting })
  }
  for (const it of value.matchAll(COLOR)) parsed.colors.push({ hex: it[1], range: at(it.index, it[0].length) })
  for (const it of value.matchAll(CALL)) parsed.calls.push({ name: it[1], given: it[2].split(','), range: at(it.index, it[0].length), start: valueStart + it.index })
  const included = INCLUDE.exec(value)
  if (included) parsed.links.push({ path: included[1], range: at(value.indexOf(included[1]), included[1].length) })
}

const cache = new Map()

function parsedOf(document) {
  const found = cache.get(document.uri)
  if (found && found.version === document.version) return found.parsed
  const parsed = parse(document)
  cache.set(document.uri, { version: document.version, parsed })
  return parsed
}

function get(uri) {
  const document = documents.get(uri)
  if (!document) throw new ResponseError(ErrorCodes.InvalidParams, `unknown document ${uri}`)
  return { document, parsed: parsedOf(document) }
}

const contains = (range, { line, character }) => (
  range.start.line === line && range.start.character <= character && character <= range.end.character
)

function definitionOf(parsed, section, key) {
  return parsed.settings.find(it => it.section.name === section && it.key === key)
}

/** The setting that is named at a position, where it is defined or where it is referred to. */
function settingAt(parsed, position) {
  const defined = parsed.settings.find(it => contains(it.range, position))
  if (defined) return { setting: defined, range: defined.range }
  const reference = parsed.references.find(it => contains(it.range, position))
  const setting = reference && definitionOf(parsed, reference.section, reference.key)
  return setting && { setting, range: reference.range }
}

function usesOf(parsed, setting) {
  return parsed.references.filter(it => it.section === setting.section.name && it.key === setting.key)
}

// ------------------------------------------------------------------------------------------------------- life

let hasConfiguration = false
let hasDynamicWatch = false
let hasDynamicTokens = false
const legend = {
  tokenTypes: [SemanticTokenTypes.namespace, SemanticTokenTypes.property, SemanticTokenTypes.variable, SemanticTokenTypes.function],
  tokenModifiers: [SemanticTokenModifiers.declaration, SemanticTokenModifiers.readonly]
}

connection.onInitialize((params, token, progress) => {
  const { capabilities } = params
  hasConfiguration = !!capabilities.workspace?.configuration
  hasDynamicWatch = !!capabilities.workspace?.didChangeWatchedFiles?.dynamicRegistration
  hasDynamicTokens = !!capabilities.textDocument?.semanticTokens?.dynamicRegistration
  progress.begin('Starting')
  progress.done()
  const filters = [{ scheme: 'file', pattern: { glob: '**/*.settings' } }]
  return {
    capabilities: {
      textDocumentSync: { openClose: true, change: TextDocumentSyncKind.Incremental, save: { includeText: false }, willSaveWaitUntil: true },
      completionProvider: { resolveProvider: true, triggerCharacters: ['$', '.'] },
      hoverProvider: true,
      signatureHelpProvider: { triggerCharacters: ['(', ','] },
      definitionProvider: true,
      referencesProvider: true,
      documentHighlightProvider: true,
      documentSymbolProvider: { label: 'Settings' },
      workspaceSymbolProvider: true,
      codeActionProvider: { codeActionKinds: [CodeActionKind.QuickFix, CodeActionKind.SourceFixAll], resolveProvider: true },
      codeLensProvider: { resolveProvider: true },
      documentFormattingProvider: true,
      documentRangeFormattingProvider: true,
      documentOnTypeFormattingProvider: { firstTriggerCharacter: '=' },
      renameProvider: { prepareProvider: true },
      documentLinkProvider: { resolveProvider: true },
      colorProvider: true,
      foldingRangeProvider: true,
      selectionRangeProvider: true,
      linkedEditingRangeProvider: true,
      inlayHintProvider: true,
      executeCommandProvider: { commands: ['settings.sort', 'settings.count'] },
      workspace: { workspaceFolders: { supported: true, changeNotifications: true }, fileOperations: { willRename: { filters }, didCreate: { filters } } }
    },
    serverInfo: { name: 'settings', version: '1.0.0' }
  }
})

connection.onInitialized(async () => {
  const registration = BulkRegistration.create()
  if (hasDynamicTokens) registration.add(SemanticTokensRegistrationType.type, { documentSelector: null, legend, full: { delta: true }, range: true })
  if (hasDynamicWatch) registration.add(DidChangeWatchedFilesNotification.type, { watchers: [{ globPattern: '**/*.settings', kind: WatchKind.Create | WatchKind.Delete }] })
  if (hasDynamicTokens || hasDynamicWatch) await connection.client.register(registration)
  connection.workspace.onDidChangeWorkspaceFolders(({ added, removed }) => {
    connection.console.info(`folders: ${added.length} added, ${removed.length} removed`)
  })
  const folders = await connection.workspace.getWorkspaceFolders()
  connection.console.log(`ready with ${folders ? folders.length : 0} folders`)
})

connection.onShutdown(() => {
  connection.console.log('shutting down')
})

connection.onExit(() => {
  cache.clear()
})

// ------------------------------------------------------------------------------------------------- settings of ours

const defaults = { maxProblems: 100, unused: true }
let options = { ...defaults }

async function configure() {
  if (hasConfiguration) options = { ...defaults, ...await connection.workspace.getConfiguration('settings') }
}

connection.onDidChangeConfiguration(async change => {
  if (!hasConfiguration) options = { ...defaults, ...(change.settings && change.settings.settings) }
  else await configure()
  documents.all().forEach(schedule)
})

connection.onDidChangeWatchedFiles(({ changes }) => {
  const gone = changes.filter(it => it.type === FileChangeType.Deleted)
  connection.tracer.log(`${changes.length} files changed`, gone.map(it => it.uri).join())
})

// ------------------------------------------------------------------------------------------------------ diagnostics

const pending = new Map()

function schedule(document) {
  clearTimeout(pending.get(document.uri))
  pending.set(document.uri, setTimeout(async () => {
    pending.delete(document.uri)
    await configure()
    validate(document)
  }, 10))
}

function problemsIn(document) {
  const parsed = parsedOf(document)
  const found = []
  const seen = new Map()
  for (const it of parsed.settings) {
    const name = `${it.section.name}.${it.key}`
    const first = seen.get(name)
    if (first) {
      const duplicate = Diagnostic.create(it.range, `${it.key} is set twice`, DiagnosticSeverity.Error, 'duplicate', 'settings')
      duplicate.relatedInformation = [{ location: Location.create(document.uri, first.range), message: 'first here' }]
      found.push(duplicate)
    } else {
      seen.set(name, it)
    }
    if (options.unused && it.key.startsWith('_') && usesOf(parsed, it).length === 0) {
      found.push({ ...Diagnostic.create(it.range, `${it.key} isn't used`, DiagnosticSeverity.Hint, 'unused', 'settings'), tags: [DiagnosticTag.Unnecessary] })
    }
  }
  for (const it of parsed.references) {
    if (!definitionOf(parsed, it.section, it.key)) {
      found.push({ ...Diagnostic.create(it.range, `${it.section}.${it.key} isn't set`, DiagnosticSeverity.Warning, 'unknown', 'settings'), data: it.key })
    }
  }
  return found.slice(0, options.maxProblems)
}

function validate(document) {
  connection.sendDiagnostics({ uri: document.uri, version: document.version, diagnostics: problemsIn(document) })
}

documents.onDidOpen(({ document }) => {
  connection.telemetry.logEvent({ opened: document.languageId })
})
documents.onDidChangeContent(({ document }) => schedule(document))
documents.onDidSave(({ document }) => validate(document))
documents.onDidClose(({ document }) => {
  clearTimeout(pending.get(document.uri))
  cache.delete(document.uri)
  connection.sendDiagnostics({ uri: document.uri, diagnostics: [] })
})
documents.onWillSaveWaitUntil(({ document }) => {
  const text = document.getText()
  return text.endsWith('\n') ? [] : [TextEdit.insert(document.positionAt(text.length), '\n')]
})

// ------------------------------------------------------------------------------------------- completion, hover, help

connection.onCompletion(({ textDocument, position }) => {
  const { document, parsed } = get(textDocument.uri)
  const before = document.getText(Range.create(position.line, 0, position.line, position.character))
  if (/\$\{[\w.-]*$/.test(before)) {
    return parsed.settings.map(it => ({
      label: `${it.section.name}.${it.key}`, kind: CompletionItemKind.Variable, data: { uri: textDocument.uri, line: it.line }
    }))
  }
  return Object.keys(FUNCTIONS).map(name => {
    const item = CompletionItem.create(name)
    item.kind = CompletionItemKind.Function
    item.insertText = `${name}($1)`
    item.insertTextFormat = InsertTextFormat.Snippet
    return item
  })
})

connection.onCompletionResolve(item => {
  if (item.data) {
    const setting = get(item.data.uri).parsed.settings.find(it => it.line === item.data.line)
    item.detail = setting && setting.value
  } else {
    item.documentation = { kind: MarkupKind.Markdown, value: FUNCTIONS[item.label].documentation }
  }
  return item
})

connection.onHover(({ textDocument, position }) => {
  const { parsed } = get(textDocument.uri)
  const found = settingAt(parsed, position)
  if (!found) return null
  const { setting, range } = found
  return { contents: { kind: MarkupKind.Markdown, value: `**${setting.section.name}.${setting.key}** = ${setting.value}` }, range }
})

connection.onSignatureHelp(({ textDocument, position }) => {
  const { parsed } = get(textDocument.uri)
  const call = parsed.calls.find(it => contains(it.range, position))
  if (!call) return undefined
  const about = FUNCTIONS[call.name]
  const signature = SignatureInformation.create(
    `${call.name}(${about.parameters.join(', ')})`, about.documentation, ...about.parameters.map(it => ParameterInformation.create(it))
  )
  let left = position.character - call.start - call.name.length - 1
  const activeParameter = call.given.findIndex(it => (left -= it.length + 1) < 0)
  return { signatures: [signature], activeSignature: 0, activeParameter: Math.max(activeParameter, 0) }
})

// ---------------------------------------------------------------------------------------------------------- places

connection.onDefinition(({ textDocument, position }) => {
  const found = settingAt(get(textDocument.uri).parsed, position)
  return found ? Location.create(textDocument.uri, found.setting.range) : null
})

connection.onReferences(({ textDocument, position, context }, token, progress, partial) => {
  const { parsed } = get(textDocument.uri)
  const found = settingAt(parsed, position)
  if (!found) return []
  const all = usesOf(parsed, found.setting).map(it => Location.create(textDocument.uri, it.range))
  if (context.includeDeclaration) all.unshift(Location.create(textDocument.uri, found.setting.range))
  if (!partial) return all
  all.forEach(it => partial.report([it]))
  return []
})

connection.onDocumentHighlight(({ textDocument, position }) => {
  const { parsed } = get(textDocument.uri)
  const found = settingAt(parsed, position)
  if (!found) return []
  return [
    DocumentHighlight.create(found.setting.range, DocumentHighlightKind.Write),
    ...usesOf(parsed, found.setting).map(it => DocumentHighlight.create(it.range, DocumentHighlightKind.Read))
  ]
})

connection.languages.onLinkedEditingRange(({ textDocument, position }) => {
  const { parsed } = get(textDocument.uri)
  const found = settingAt(parsed, position)
  return found ? { ranges: [found.setting.range, ...usesOf(parsed, found.setting).map(it => it.range)] } : null
})

connection.onDocumentSymbol(({ textDocument }) => {
  const { parsed } = get(textDocument.uri)
  const symbolOf = it => DocumentSymbol.create(it.key, it.value, SymbolKind.Property, it.fullRange, it.range)
  return parsed.sections.flatMap(section => {
    const children = section.settings.map(symbolOf)
    if (!section.range) return children
    const range = Range.create(section.line, 0, section.end, 0)
    return [DocumentSymbol.create(section.name, undefined, SymbolKind.Namespace, range, section.range, children)]
  })
})

connection.onWorkspaceSymbol(({ query }) => documents.all().flatMap(document => (
  parsedOf(document).settings.filter(it => it.key.includes(query))
    .map(it => WorkspaceSymbol.create(it.key, SymbolKind.Property, document.uri, it.range))
)))

connection.onFoldingRanges(({ textDocument }) => (
  get(textDocument.uri).parsed.sections.filter(it => it.range && it.end > it.line)
    .map(it => FoldingRange.create(it.line, it.end, undefined, undefined, FoldingRangeKind.Region))
))

connection.onSelectionRanges(({ textDocument, positions }) => {
  const { parsed } = get(textDocument.uri)
  return positions.map(position => {
    const setting = parsed.settings.find(it => it.line === position.line)
    if (!setting) return SelectionRange.create(Range.create(position, position))
    const whole = SelectionRange.create(setting.fullRange)
    const inner = [setting.range, setting.valueRange].find(it => contains(it, position))
    return inner ? SelectionRange.create(inner, whole) : whole
  })
})

connection.onDocumentLinks(({ textDocument }) => (
  get(textDocument.uri).parsed.links.map(it => DocumentLink.create(it.range, undefined, { base: textDocument.uri, path: it.path }))
))
connection.onDocumentLinkResolve(link => ({ ...link, target: new URL(link.data.path, link.data.base).href }))

// ----------------------------------------------------------------------------------------------------------- colours

connection.onDocumentColor(({ textDocument }) => get(textDocument.uri).parsed.colors.map(({ hex, range }) => {
  const [red, green, blue] = [0, 2, 4].map(at => parseInt(hex.slice(at, at + 2), 16) / 255)
  return ColorInformation.create(range, Color.create(red, green, blue, 1))
}))

connection.onColorPresentation(({ color, range }) => {
  const hex = [color.red, color.green, color.blue].map(it => Math.round(it * 255).toString(16).padStart(2, '0')).join('')
  return [{ label: `#${hex}`, textEdit: TextEdit.replace(range, `#${hex}`) }]
})

// ----------------------------------------------------------------------------------------------------------- edits

function tidied(document, first, last) {
  return parsedOf(document).settings.filter(it => first <= it.line && it.line <= last).flatMap(it => {
    const text = `${it.key} = ${it.value.trim()}`
    return document.getText(it.fullRange) === text ? [] : [TextEdit.replace(it.fullRange, text)]
  })
}

connection.onDocumentFormatting(({ textDocument }) => {
  const { document } = get(textDocument.uri)
  return tidied(document, 0, document.lineCount)
})
connection.onDocumentRangeFormatting(({ textDocument, range }) => (
  tidied(get(textDocument.uri).document, range.start.line, range.end.line)
))
connection.onDocumentOnTypeFormatting(({ textDocument, position }) => (
  tidied(get(textDocument.uri).document, position.line, position.line)
))

connection.onPrepareRename(({ textDocument, position }) => {
  const found = settingAt(get(textDocument.uri).parsed, position)
  return found ? { range: found.range, placeholder: found.setting.key } : null
})

connection.onRenameRequest(({ textDocument, position, newName }) => {
  if (!/^[\w-]+$/.test(newName)) throw new ResponseError(LSPErrorCodes.RequestFailed, `${newName} is no name of a setting`)
  const { document, parsed } = get(textDocument.uri)
  const found = settingAt(parsed, position)
  if (!found) return null
  const edits = [found.setting.range, ...usesOf(parsed, found.setting).map(it => it.range)].map(it => TextEdit.replace(it, newName))
  return { documentChanges: [TextDocumentEdit.create({ uri: document.uri, version: document.version }, edits)] }
})

connection.onCodeAction(({ textDocument, context }) => {
  const actions = context.diagnostics.filter(it => it.code === 'unknown').map(diagnostic => {
    const action = CodeAction.create(`Set ${diagnostic.data}`, CodeActionKind.QuickFix)
    action.diagnostics = [diagnostic]
    action.data = { uri: textDocument.uri, key: diagnostic.data }
    return action
  })
  const sort = Command.create('Sort the settings', 'settings.sort', textDocument.uri)
  return [...actions, CodeAction.create(sort.title, sort, CodeActionKind.SourceFixAll)]
})

connection.onCodeActionResolve(action => {
  if (!action.data) return action
  const { uri, key } = action.data
  action.edit = { changes: { [uri]: [TextEdit.insert(Position.create(0, 0), `${key} = \n`)] } }
  return WorkspaceEdit.is(action.edit) ? action : { ...action, edit: undefined }
})

connection.onCodeLens(({ textDocument }) => (
  get(textDocument.uri).parsed.settings.map(it => ({ range: it.range, data: { uri: textDocument.uri, line: it.line } }))
))
connection.onCodeLensResolve(lens => {
  const { parsed } = get(lens.data.uri)
  const setting = parsed.settings.find(it => it.line === lens.data.line)
  lens.command = Command.create(`${setting ? usesOf(parsed, setting).length : 0} uses`, '')
  return lens
})

connection.workspace.onWillRenameFiles(({ files }) => {
  const changes = {}
  for (const document of documents.all()) {
    const edits = parsedOf(document).links.flatMap(link => {
      const file = files.find(it => it.oldUri === new URL(link.path, document.uri).href)
      return file ? [TextEdit.replace(link.range, file.newUri.slice(file.newUri.lastIndexOf('/') + 1))] : []
    })
    if (edits.length) changes[document.uri] = edits
  }
  return { changes }
})
connection.workspace.onDidCreateFiles(({ files }) => connection.console.info(`${files.length} files were made`))

// -------------------------------------------------------------------------------------------------- semantic tokens

const builders = new Map()

function tokensOf(document, builder, within) {
  const parsed = parsedOf(document)
  const push = (range, type, modifiers) => {
    if (within && (range.start.line < within.start.line || range.start.line > within.end.line)) return
    builder.push(range.start.line, range.start.character, range.end.character - range.start.character, type, modifiers)
  }
  parsed.sections.filter(it => it.range).forEach(it => push(it.range, 0, 1))
  parsed.settings.forEach(it => push(it.range, 1, 1))
  parsed.references.forEach(it => push(it.range, 2, 2))
}

function builderOf(document) {
  const found = builders.get(document.uri)
  if (found) return found
  const made = new SemanticTokensBuilder()
  builders.set(document.uri, made)
  return made
}

connection.languages.semanticTokens.on(({ textDocument }) => {
  const { document } = get(textDocument.uri)
  builders.delete(document.uri)
  const builder = builderOf(document)
  tokensOf(document, builder)
  return builder.build()
})
connection.languages.semanticTokens.onDelta(({ textDocument, previousResultId }) => {
  const { document } = get(textDocument.uri)
  const builder = builderOf(document)
  builder.previousResult(previousResultId)
  tokensOf(document, builder)
  return builder.buildEdits()
})
connection.languages.semanticTokens.onRange(({ textDocument, range }) => {
  const builder = new SemanticTokensBuilder()
  tokensOf(get(textDocument.uri).document, builder, range)
  return builder.build()
})

connection.languages.inlayHint.on(({ textDocument, range }) => {
  const { parsed } = get(textDocument.uri)
  return parsed.references.filter(it => it.range.start.line >= range.start.line && it.range.end.line <= range.end.line).flatMap(it => {
    const setting = definitionOf(parsed, it.section, it.key)
    return setting ? [InlayHint.create(it.range.end, ` = ${setting.value}`, InlayHintKind.Parameter)] : []
  })
})

// --------------------------------------------------------------------------------------------------------- commands

async function sort(uri) {
  const { document, parsed } = get(uri)
  const edits = parsed.sections.flatMap(section => {
    const sorted = [...section.settings].sort((one, other) => one.key.localeCompare(other.key))
    return section.settings.map((it, at) => TextEdit.replace(it.fullRange, document.getText(sorted[at].fullRange)))
  })
  const result = await connection.workspace.applyEdit({ label: 'Sort the settings', edit: { changes: { [uri]: edits } } })
  if (!result.applied) connection.window.showWarningMessage(`The settings weren't sorted: ${result.failureReason}`)
  return result.applied
}

async function count(token) {
  const progress = await connection.window.createWorkDoneProgress()
  progress.begin('Counting', 0, undefined, true)
  let sum = 0
  const all = documents.all()
  for (const [at, document] of all.entries()) {
    if (token.isCancellationRequested || progress.token.isCancellationRequested) break
    progress.report(Math.round((100 * at) / all.length), document.uri)
    sum += parsedOf(document).settings.length
    await new Promise(resolve => setTimeout(resolve, 1))
  }
  progress.done()
  const choice = await connection.window.showInformationMessage(`${sum} settings`, { title: 'Show' }, { title: 'Ignore' })
  return choice && choice.title === 'Show' ? sum : null
}

connection.onExecuteCommand(({ command, arguments: given = [] }, token) => {
  if (command === 'settings.sort') return sort(given[0])
  if (command === 'settings.count') return count(token)
  return new ResponseError(ErrorCodes.InvalidParams, `unknown command ${command}`)
})

// ------------------------------------------------------------------------------------------------- messages of ours

const ValueRequest = new RequestType('settings/value')
const ResetNotification = new NotificationType('settings/reset')

connection.onRequest(ValueRequest, ({ uri, name }) => {
  const [section, key] = name.split('.')
  const setting = definitionOf(get(uri).parsed, section, key)
  return setting ? setting.value : null
})
connection.onNotification(ResetNotification, () => {
  options = { ...defaults }
  connection.sendNotification('settings/wasReset', { count: documents.keys().length })
})

documents.listen(connection)
connection.listen()
