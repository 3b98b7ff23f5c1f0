"""What vscode-languageserver calls the methods of LSP: the constant that has a method's type, and the member of a
connection by which a server handles it, or calls it where it is sent to the client. Written by hand."""
from __future__ import annotations

#: The constant and the member of each method, with blanks between; `-` where there is no member of its own.
NAMES = {
    "callHierarchy/incomingCalls": "CallHierarchyIncomingCallsRequest languages.callHierarchy.onIncomingCalls",
    "callHierarchy/outgoingCalls": "CallHierarchyOutgoingCallsRequest languages.callHierarchy.onOutgoingCalls",
    "client/registerCapability": "RegistrationRequest -",
    "client/unregisterCapability": "UnregistrationRequest -",
    "codeAction/resolve": "CodeActionResolveRequest onCodeActionResolve",
    "codeLens/resolve": "CodeLensResolveRequest onCodeLensResolve",
    "completionItem/resolve": "CompletionResolveRequest onCompletionResolve",
    "documentLink/resolve": "DocumentLinkResolveRequest onDocumentLinkResolve",
    "exit": "ExitNotification -",
    "initialize": "InitializeRequest -",
    "initialized": "InitializedNotification -",
    "inlayHint/resolve": "InlayHintResolveRequest languages.inlayHint.resolve",
    "notebookDocument/didChange": "DidChangeNotebookDocumentNotification "
    "notebooks.synchronization.onDidChangeNotebookDocument",
    "notebookDocument/didClose": "DidCloseNotebookDocumentNotification "
    "notebooks.synchronization.onDidCloseNotebookDocument",
    "notebookDocument/didOpen": "DidOpenNotebookDocumentNotification "
    "notebooks.synchronization.onDidOpenNotebookDocument",
    "notebookDocument/didSave": "DidSaveNotebookDocumentNotification "
    "notebooks.synchronization.onDidSaveNotebookDocument",
    "shutdown": "ShutdownRequest -",
    "telemetry/event": "TelemetryEventNotification -",
    "textDocument/codeAction": "CodeActionRequest onCodeAction",
    "textDocument/codeLens": "CodeLensRequest onCodeLens",
    "textDocument/colorPresentation": "ColorPresentationRequest onColorPresentation",
    "textDocument/completion": "CompletionRequest onCompletion",
    "textDocument/declaration": "DeclarationRequest onDeclaration",
    "textDocument/definition": "DefinitionRequest onDefinition",
    "textDocument/diagnostic": "DocumentDiagnosticRequest languages.diagnostics.on",
    "textDocument/didChange": "DidChangeTextDocumentNotification onDidChangeTextDocument",
    "textDocument/didClose": "DidCloseTextDocumentNotification onDidCloseTextDocument",
    "textDocument/didOpen": "DidOpenTextDocumentNotification onDidOpenTextDocument",
    "textDocument/didSave": "DidSaveTextDocumentNotification onDidSaveTextDocument",
    "textDocument/documentColor": "DocumentColorRequest onDocumentColor",
    "textDocument/documentHighlight": "DocumentHighlightRequest onDocumentHighlight",
    "textDocument/documentLink": "DocumentLinkRequest onDocumentLinks",
    "textDocument/documentSymbol": "DocumentSymbolRequest onDocumentSymbol",
    "textDocument/foldingRange": "FoldingRangeRequest onFoldingRanges",
    "textDocument/formatting": "DocumentFormattingRequest onDocumentFormatting",
    "textDocument/hover": "HoverRequest onHover",
    "textDocument/implementation": "ImplementationRequest onImplementation",
    "textDocument/inlayHint": "InlayHintRequest languages.inlayHint.on",
    "textDocument/inlineValue": "InlineValueRequest languages.inlineValue.on",
    "textDocument/linkedEditingRange": "LinkedEditingRangeRequest languages.onLinkedEditingRange",
    "textDocument/moniker": "MonikerRequest languages.moniker.on",
    "textDocument/onTypeFormatting": "DocumentOnTypeFormattingRequest onDocumentOnTypeFormatting",
    "textDocument/prepareCallHierarchy": "CallHierarchyPrepareRequest languages.callHierarchy.onPrepare",
    "textDocument/prepareRename": "PrepareRenameRequest onPrepareRename",
    "textDocument/prepareTypeHierarchy": "TypeHierarchyPrepareRequest languages.typeHierarchy.onPrepare",
    "textDocument/publishDiagnostics": "PublishDiagnosticsNotification -",
    "textDocument/rangeFormatting": "DocumentRangeFormattingRequest onDocumentRangeFormatting",
    "textDocument/references": "ReferencesRequest onReferences",
    "textDocument/rename": "RenameRequest onRenameRequest",
    "textDocument/selectionRange": "SelectionRangeRequest onSelectionRanges",
    "textDocument/semanticTokens/full": "SemanticTokensRequest languages.semanticTokens.on",
    "textDocument/semanticTokens/full/delta": "SemanticTokensDeltaRequest languages.semanticTokens.onDelta",
    "textDocument/semanticTokens/range": "SemanticTokensRangeRequest languages.semanticTokens.onRange",
    "textDocument/signatureHelp": "SignatureHelpRequest onSignatureHelp",
    "textDocument/typeDefinition": "TypeDefinitionRequest onTypeDefinition",
    "textDocument/willSave": "WillSaveTextDocumentNotification onWillSaveTextDocument",
    "textDocument/willSaveWaitUntil": "WillSaveTextDocumentWaitUntilRequest onWillSaveTextDocumentWaitUntil",
    "typeHierarchy/subtypes": "TypeHierarchySubtypesRequest languages.typeHierarchy.onSubtypes",
    "typeHierarchy/supertypes": "TypeHierarchySupertypesRequest languages.typeHierarchy.onSupertypes",
    "window/logMessage": "LogMessageNotification -",
    "window/showDocument": "ShowDocumentRequest -",
    "window/showMessage": "ShowMessageNotification -",
    "window/showMessageRequest": "ShowMessageRequest -",
    "window/workDoneProgress/cancel": "WorkDoneProgressCancelNotification -",
    "window/workDoneProgress/create": "WorkDoneProgressCreateRequest -",
    "workspace/applyEdit": "ApplyWorkspaceEditRequest -",
    "workspace/codeLens/refresh": "CodeLensRefreshRequest languages.codeLens.refresh",
    "workspace/configuration": "ConfigurationRequest -",
    "workspace/diagnostic": "WorkspaceDiagnosticRequest languages.diagnostics.onWorkspace",
    "workspace/diagnostic/refresh": "DiagnosticRefreshRequest languages.diagnostics.refresh",
    "workspace/didChangeConfiguration": "DidChangeConfigurationNotification onDidChangeConfiguration",
    "workspace/didChangeWatchedFiles": "DidChangeWatchedFilesNotification onDidChangeWatchedFiles",
    "workspace/didChangeWorkspaceFolders": "DidChangeWorkspaceFoldersNotification -",
    "workspace/didCreateFiles": "DidCreateFilesNotification workspace.onDidCreateFiles",
    "workspace/didDeleteFiles": "DidDeleteFilesNotification workspace.onDidDeleteFiles",
    "workspace/didRenameFiles": "DidRenameFilesNotification workspace.onDidRenameFiles",
    "workspace/executeCommand": "ExecuteCommandRequest onExecuteCommand",
    "workspace/inlayHint/refresh": "InlayHintRefreshRequest languages.inlayHint.refresh",
    "workspace/inlineValue/refresh": "InlineValueRefreshRequest languages.inlineValue.refresh",
    "workspace/semanticTokens/refresh": "SemanticTokensRefreshRequest languages.semanticTokens.refresh",
    "workspace/symbol": "WorkspaceSymbolRequest onWorkspaceSymbol",
    "workspace/willCreateFiles": "WillCreateFilesRequest workspace.onWillCreateFiles",
    "workspace/willDeleteFiles": "WillDeleteFilesRequest workspace.onWillDeleteFiles",
    "workspace/willRenameFiles": "WillRenameFilesRequest workspace.onWillRenameFiles",
    "workspace/workspaceFolders": "WorkspaceFoldersRequest -",
    "workspaceSymbol/resolve": "WorkspaceSymbolResolveRequest onWorkspaceSymbolResolve",
}
#: Enumerations whose values have other names there: these are the values themselves, or those that are given here.
BY_VALUE = {
    "FileOperationPatternKind",
    "MonikerKind",
    "SemanticTokenModifiers",
    "SemanticTokenTypes",
    "UniquenessLevel",
}
OTHER_NAMES = {"InsertTextMode": {"AsIs": "asIs", "AdjustIndentation": "adjustIndentation"}}


def names_of(method: str) -> tuple[str, str]:
    """The constant and the member of a method; `$/` methods of JSON-RPC's layer have none."""
    constant, _, member = NAMES.get(method, " ").partition(" ")
    return constant, "" if member == "-" else member


def values_of(name: str, values: dict[str, object]) -> dict[str, object]:
    """The values of an enumeration by the names that they have there."""
    others = OTHER_NAMES.get(name, {})
    return {str(value) if name in BY_VALUE else others.get(it, it): value for it, value in values.items()}
