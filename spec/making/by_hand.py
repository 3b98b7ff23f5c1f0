"""What no source in Debian says, written by hand from the text of LSP 3.17.

gopls's files lose the parts of unions, and which members of a literal structure may be absent. Where Qt's header has
them, of 3.16, `joined.py` takes them from there. The rest is here.
"""
from __future__ import annotations

#: Literal structures, by the names that LSP 3.18 gave them: gopls's names, and the members (`?` may be absent).
LITERALS: dict[str, tuple[str, dict[str, str]]] = {
    "ChangeAnnotationsSupportOptions": ("PChangeAnnotationSupportPWorkspaceEdit", {"groupsOnLabel?": "boolean"}),
    "ClientCodeActionKindOptions": ("FCodeActionKindPCodeActionLiteralSupport", {"valueSet": "CodeActionKind[]"}),
    "ClientCodeActionLiteralOptions": (
        "PCodeActionLiteralSupportPCodeAction",
        {"codeActionKind": "ClientCodeActionKindOptions"},
    ),
    "ClientCodeActionResolveOptions": ("PResolveSupportPCodeAction", {"properties": "string[]"}),
    "ClientCompletionItemInsertTextModeOptions": (
        "FInsertTextModeSupportPCompletionItem",
        {"valueSet": "InsertTextMode[]"},
    ),
    "ClientCompletionItemOptions": (
        "PCompletionItemPCompletion",
        {
            "snippetSupport?": "boolean",
            "commitCharactersSupport?": "boolean",
            "documentationFormat?": "MarkupKind[]",
            "deprecatedSupport?": "boolean",
            "preselectSupport?": "boolean",
            "tagSupport?": "CompletionItemTagOptions",
            "insertReplaceSupport?": "boolean",
            "resolveSupport?": "ClientCompletionItemResolveOptions",
            "insertTextModeSupport?": "ClientCompletionItemInsertTextModeOptions",
            "labelDetailsSupport?": "boolean",
        },
    ),
    "ClientCompletionItemOptionsKind": ("PCompletionItemKindPCompletion", {"valueSet?": "CompletionItemKind[]"}),
    "ClientCompletionItemResolveOptions": ("FResolveSupportPCompletionItem", {"properties": "string[]"}),
    "ClientDiagnosticsTagOptions": ("PTagSupportPPublishDiagnostics", {"valueSet": "DiagnosticTag[]"}),
    "ClientFoldingRangeKindOptions": ("PFoldingRangeKindPFoldingRange", {"valueSet?": "FoldingRangeKind[]"}),
    "ClientFoldingRangeOptions": ("PFoldingRangePFoldingRange", {"collapsedText?": "boolean"}),
    "ClientInfo": ("Msg_XInitializeParams_clientInfo", {"name": "string", "version?": "string"}),
    "ClientInlayHintResolveOptions": ("PResolveSupportPInlayHint", {"properties": "string[]"}),
    "ClientSemanticTokensRequestFullDelta": ("FFullPRequests", {"delta?": "boolean"}),
    "ClientSemanticTokensRequestOptions": (
        "PRequestsPSemanticTokens",
        {"range?": "boolean | LSPObject", "full?": "boolean | ClientSemanticTokensRequestFullDelta"},
    ),
    "ClientShowMessageActionItemOptions": (
        "PMessageActionItemPShowMessage",
        {"additionalPropertiesSupport?": "boolean"},
    ),
    "ClientSignatureInformationOptions": (
        "PSignatureInformationPSignatureHelp",
        {
            "documentationFormat?": "MarkupKind[]",
            "parameterInformation?": "ClientSignatureParameterInformationOptions",
            "activeParameterSupport?": "boolean",
        },
    ),
    "ClientSignatureParameterInformationOptions": (
        "FParameterInformationPSignatureInformation",
        {"labelOffsetSupport?": "boolean"},
    ),
    "ClientSymbolKindOptions": ("PSymbolKindPSymbol", {"valueSet?": "SymbolKind[]"}),
    "ClientSymbolResolveOptions": ("PResolveSupportPSymbol", {"properties": "string[]"}),
    "ClientSymbolTagOptions": ("PTagSupportPSymbol", {"valueSet": "SymbolTag[]"}),
    "CodeActionDisabled": ("PDisabledMsg_textDocument_codeAction", {"reason": "string"}),
    "CompletionItemDefaults": (
        "PItemDefaultsMsg_textDocument_completion",
        {
            "commitCharacters?": "string[]",
            "editRange?": "Range | EditRangeWithInsertReplace",
            "insertTextFormat?": "InsertTextFormat",
            "insertTextMode?": "InsertTextMode",
            "data?": "LSPAny",
        },
    ),
    "CompletionItemTagOptions": ("FTagSupportPCompletionItem", {"valueSet": "CompletionItemTag[]"}),
    "CompletionListCapabilities": ("PCompletionListPCompletion", {"itemDefaults?": "string[]"}),
    "EditRangeWithInsertReplace": ("FEditRangePItemDefaults", {"insert": "Range", "replace": "Range"}),
    "LocationUriOnly": ("PLocationMsg_workspace_symbol", {"uri": "DocumentUri"}),
    "MarkedStringWithLanguage": ("Msg_MarkedString", {"language": "string", "value": "string"}),
    "NotebookCellLanguage": ("FCellsPNotebookSelector", {"language": "string"}),
    "NotebookDocumentCellChangeStructure": (
        "FStructurePCells",
        {
            "array": "NotebookCellArrayChange",
            "didOpen?": "TextDocumentItem[]",
            "didClose?": "TextDocumentIdentifier[]",
        },
    ),
    "NotebookDocumentCellChanges": (
        "PCellsPChange",
        {
            "structure?": "NotebookDocumentCellChangeStructure",
            "data?": "NotebookCell[]",
            "textContent?": "NotebookDocumentCellContentChanges[]",
        },
    ),
    "NotebookDocumentCellContentChanges": (
        "FTextContentPCells",
        {"document": "VersionedTextDocumentIdentifier", "changes": "TextDocumentContentChangeEvent[]"},
    ),
    "NotebookDocumentFilterNotebookType": (
        "Msg_NotebookDocumentFilter",
        {"notebookType": "string", "scheme?": "string", "pattern?": "string"},
    ),
    "NotebookDocumentFilterPattern": (
        "Msg_NotebookDocumentFilter",
        {"notebookType?": "string", "scheme?": "string", "pattern": "string"},
    ),
    "NotebookDocumentFilterScheme": (
        "Msg_NotebookDocumentFilter",
        {"notebookType?": "string", "scheme": "string", "pattern?": "string"},
    ),
    "NotebookDocumentFilterWithCells": (
        "PNotebookSelectorPNotebookDocumentSync",
        {"notebook?": "string | NotebookDocumentFilter", "cells": "NotebookCellLanguage[]"},
    ),
    "NotebookDocumentFilterWithNotebook": (
        "PNotebookSelectorPNotebookDocumentSync",
        {"notebook": "string | NotebookDocumentFilter", "cells?": "NotebookCellLanguage[]"},
    ),
    "PrepareRenameDefaultBehavior": ("Msg_PrepareRename2Gn", {"defaultBehavior": "boolean"}),
    "PrepareRenamePlaceholder": ("Msg_PrepareRename2Gn", {"range": "Range", "placeholder": "string"}),
    "SemanticTokensFullDelta": ("PFullESemanticTokensOptions", {"delta?": "boolean"}),
    "ServerCompletionItemOptions": ("PCompletionItemPCompletionProvider", {"labelDetailsSupport?": "boolean"}),
    "ServerInfo": ("PServerInfoMsg_initialize", {"name": "string", "version?": "string"}),
    "StaleRequestSupportOptions": (
        "PStaleRequestSupportPGeneral",
        {"cancel": "boolean", "retryOnContentModified": "string[]"},
    ),
    "TextDocumentContentChangePartial": (
        "Msg_TextDocumentContentChangeEvent",
        {"range": "Range", "rangeLength?": "uinteger", "text": "string"},
    ),
    "TextDocumentContentChangeWholeDocument": ("Msg_TextDocumentContentChangeEvent", {"text": "string"}),
    "TextDocumentFilterLanguage": (
        "Msg_TextDocumentFilter",
        {"language": "string", "scheme?": "string", "pattern?": "string"},
    ),
    "TextDocumentFilterPattern": (
        "Msg_TextDocumentFilter",
        {"language?": "string", "scheme?": "string", "pattern": "string"},
    ),
    "TextDocumentFilterScheme": (
        "Msg_TextDocumentFilter",
        {"language?": "string", "scheme": "string", "pattern?": "string"},
    ),
    "WorkspaceOptions": (
        "Workspace6Gn",
        {"workspaceFolders?": "WorkspaceFoldersServerCapabilities", "fileOperations?": "FileOperationOptions"},
    ),
}
#: Two more of gopls's names for literal structures that are alike.
SAME = {"PSymbolKindPDocumentSymbol": "ClientSymbolKindOptions", "PTagSupportPDocumentSymbol": "ClientSymbolTagOptions"}
#: What gopls has and the specification hasn't.
NOT_OF_LSP = {"WorkspaceFolders5Gn", "WorkDoneProgressOptionsAndTextDocumentRegistrationOptions", "LSPObject"}
#: Literal structures without members: any object.
EMPTY = {"FRangePRequests": "LSPObject", "PRangeESemanticTokensOptions": "LSPObject"}

#: Types that are a union, or another name for one.
UNIONS = {
    "ChangeAnnotationIdentifier": "string",
    "Declaration": "Location | Location[]",
    "DeclarationLink": "LocationLink",
    "Definition": "Location | Location[]",
    "DefinitionLink": "LocationLink",
    "DocumentDiagnosticReport": "RelatedFullDocumentDiagnosticReport | RelatedUnchangedDocumentDiagnosticReport",
    "DocumentFilter": "TextDocumentFilter | NotebookCellTextDocumentFilter",
    "DocumentSelector": "DocumentFilter[]",
    "GlobPattern": "Pattern | RelativePattern",
    "InlineValue": "InlineValueText | InlineValueVariableLookup | InlineValueEvaluatableExpression",
    "MarkedString": "string | MarkedStringWithLanguage",
    "NotebookDocumentFilter": (
        "NotebookDocumentFilterNotebookType | NotebookDocumentFilterScheme | NotebookDocumentFilterPattern"
    ),
    "Pattern": "string",
    "PrepareRenameResult": "Range | PrepareRenamePlaceholder | PrepareRenameDefaultBehavior",
    "ProgressToken": "integer | string",
    "TextDocumentContentChangeEvent": "TextDocumentContentChangePartial | TextDocumentContentChangeWholeDocument",
    "TextDocumentFilter": "TextDocumentFilterLanguage | TextDocumentFilterScheme | TextDocumentFilterPattern",
    "WorkspaceDocumentDiagnosticReport": (
        "WorkspaceFullDocumentDiagnosticReport | WorkspaceUnchangedDocumentDiagnosticReport"
    ),
}

#: Members whose union neither source has.
MEMBERS = {
    "CreateFile.kind": "'create'",
    "DeleteFile.kind": "'delete'",
    "DidChangeConfigurationRegistrationOptions.section": "string | string[]",
    "DocumentDiagnosticReportPartialResult.relatedDocuments": (
        "{[DocumentUri]: FullDocumentDiagnosticReport | UnchangedDocumentDiagnosticReport}"
    ),
    "FileSystemWatcher.globPattern": "GlobPattern",
    "FoldingRange.kind": "FoldingRangeKind",
    "FullDocumentDiagnosticReport.kind": "'full'",
    "InlayHint.label": "string | InlayHintLabelPart[]",
    "InlayHint.tooltip": "string | MarkupContent",
    "InlayHintLabelPart.tooltip": "string | MarkupContent",
    "NotebookCellTextDocumentFilter.notebook": "string | NotebookDocumentFilter",
    "NotebookDocumentSyncOptions.notebookSelector": (
        "(NotebookDocumentFilterWithNotebook | NotebookDocumentFilterWithCells)[]"
    ),
    "ParameterInformation.label": "string | [uinteger, uinteger]",
    "RelatedFullDocumentDiagnosticReport.relatedDocuments": (
        "{[DocumentUri]: FullDocumentDiagnosticReport | UnchangedDocumentDiagnosticReport}"
    ),
    "RelatedUnchangedDocumentDiagnosticReport.relatedDocuments": (
        "{[DocumentUri]: FullDocumentDiagnosticReport | UnchangedDocumentDiagnosticReport}"
    ),
    "RelativePattern.baseUri": "WorkspaceFolder | URI",
    "RenameClientCapabilities.prepareSupportDefaultBehavior": "PrepareSupportDefaultBehavior",
    "RenameFile.kind": "'rename'",
    "SemanticTokensOptions.full": "boolean | SemanticTokensFullDelta",
    "ServerCapabilities.diagnosticProvider": "DiagnosticOptions | DiagnosticRegistrationOptions",
    "ServerCapabilities.inlayHintProvider": "boolean | InlayHintOptions | InlayHintRegistrationOptions",
    "ServerCapabilities.inlineValueProvider": "boolean | InlineValueOptions | InlineValueRegistrationOptions",
    "ServerCapabilities.notebookDocumentSync": (
        "NotebookDocumentSyncOptions | NotebookDocumentSyncRegistrationOptions"
    ),
    "ServerCapabilities.typeHierarchyProvider": "boolean | TypeHierarchyOptions | TypeHierarchyRegistrationOptions",
    "TextDocumentSyncOptions.save": "boolean | SaveOptions",
    "UnchangedDocumentDiagnosticReport.kind": "'unchanged'",
    "WorkDoneProgressBegin.kind": "'begin'",
    "WorkDoneProgressEnd.kind": "'end'",
    "WorkDoneProgressReport.kind": "'report'",
    "WorkspaceEdit.documentChanges": "(TextDocumentEdit | CreateFile | RenameFile | DeleteFile)[]",
    "WorkspaceFullDocumentDiagnosticReport.version": "integer | null",
    "WorkspaceSymbol.location": "Location | LocationUriOnly",
    "WorkspaceUnchangedDocumentDiagnosticReport.version": "integer | null",
}

#: What methods of 3.17 have and give, where gopls has a part of the union: params, result, partial result.
METHODS: dict[str, tuple[str | None, str | None, str | None]] = {
    "textDocument/diagnostic": (
        "DocumentDiagnosticParams",
        "DocumentDiagnosticReport",
        "DocumentDiagnosticReportPartialResult",
    ),
    "textDocument/inlayHint": ("InlayHintParams", "InlayHint[] | null", None),
    "textDocument/inlineValue": ("InlineValueParams", "InlineValue[] | null", None),
    "textDocument/prepareTypeHierarchy": ("TypeHierarchyPrepareParams", "TypeHierarchyItem[] | null", None),
    "typeHierarchy/subtypes": ("TypeHierarchySubtypesParams", "TypeHierarchyItem[] | null", "TypeHierarchyItem[]"),
    "typeHierarchy/supertypes": (
        "TypeHierarchySupertypesParams",
        "TypeHierarchyItem[] | null",
        "TypeHierarchyItem[]",
    ),
    "workspace/diagnostic": (
        "WorkspaceDiagnosticParams",
        "WorkspaceDiagnosticReport",
        "WorkspaceDiagnosticReportPartialResult",
    ),
    "workspace/symbol": (
        "WorkspaceSymbolParams",
        "SymbolInformation[] | WorkspaceSymbol[] | null",
        "SymbolInformation[] | WorkspaceSymbol[]",
    ),
}
#: Where gopls's files have a method for the wrong side, as their source had: who says that it is the client's.
TO_CLIENT = {f"workspace/{it}/refresh": "hand" for it in ("diagnostic", "inlayHint", "inlineValue")}
TO_CLIENT["workspace/semanticTokens/refresh"] = "lsp-mode"
#: Notifications that both sides send. (gopls's files leave the cancel out, which its library has.)
TO_BOTH = {"$/cancelRequest", "$/progress"}

#: Enumerations whose values may be others than those that the specification names.
OPEN = {
    "CodeActionKind",
    "ErrorCodes",
    "FoldingRangeKind",
    "LSPErrorCodes",
    "PositionEncodingKind",
    "SemanticTokenModifiers",
    "SemanticTokenTypes",
    "WatchKind",
}
#: Names of values that Qt's header hasn't, and gopls's files have in Go's way.
VALUE_NAMES: dict[str, list[str]] = {
    "CodeActionTriggerKind": ["Invoked", "Automatic"],
    "DocumentDiagnosticReportKind": ["Full", "Unchanged"],
    "FileOperationPatternKind": ["File", "Folder"],
    "SemanticTokenTypes": ["Decorator"],
}
#: Enumerations that gopls's files haven't.
ENUMERATIONS = {"PrepareSupportDefaultBehavior": ("uinteger", {"Identifier": 1})}

_REGISTRATIONS = {
    "notebookDocument/didOpen": "NotebookDocumentSyncRegistrationOptions",
    "textDocument/didChange": "TextDocumentChangeRegistrationOptions",
    "textDocument/didClose": "TextDocumentRegistrationOptions",
    "textDocument/didOpen": "TextDocumentRegistrationOptions",
    "textDocument/didSave": "TextDocumentSaveRegistrationOptions",
    "textDocument/willSave": "TextDocumentRegistrationOptions",
    "textDocument/willSaveWaitUntil": "TextDocumentRegistrationOptions",
    "workspace/didChangeConfiguration": "DidChangeConfigurationRegistrationOptions",
    "workspace/didChangeWatchedFiles": "DidChangeWatchedFilesRegistrationOptions",
    "workspace/executeCommand": "ExecuteCommandRegistrationOptions",
    "workspace/symbol": "WorkspaceSymbolRegistrationOptions",
    "workspaceSymbol/resolve": "WorkspaceSymbolRegistrationOptions",
    "workspace/diagnostic": "DiagnosticRegistrationOptions",
    "inlayHint/resolve": "InlayHintRegistrationOptions",
    "callHierarchy/incomingCalls": "CallHierarchyRegistrationOptions",
    "callHierarchy/outgoingCalls": "CallHierarchyRegistrationOptions",
    "typeHierarchy/supertypes": "TypeHierarchyRegistrationOptions",
    "typeHierarchy/subtypes": "TypeHierarchyRegistrationOptions",
    "completionItem/resolve": "CompletionRegistrationOptions",
    "codeAction/resolve": "CodeActionRegistrationOptions",
    "codeLens/resolve": "CodeLensRegistrationOptions",
    "documentLink/resolve": "DocumentLinkRegistrationOptions",
    "textDocument/colorPresentation": "DocumentColorRegistrationOptions",
    "textDocument/formatting": "DocumentFormattingRegistrationOptions",
    "textDocument/rangeFormatting": "DocumentRangeFormattingRegistrationOptions",
    "textDocument/onTypeFormatting": "DocumentOnTypeFormattingRegistrationOptions",
    "textDocument/prepareRename": "RenameRegistrationOptions",
    "textDocument/references": "ReferenceRegistrationOptions",
    "textDocument/prepareCallHierarchy": "CallHierarchyRegistrationOptions",
    "textDocument/prepareTypeHierarchy": "TypeHierarchyRegistrationOptions",
    "textDocument/semanticTokens/full": "SemanticTokensRegistrationOptions",
    "textDocument/semanticTokens/full/delta": "SemanticTokensRegistrationOptions",
    "textDocument/semanticTokens/range": "SemanticTokensRegistrationOptions",
}
_REGISTRATIONS.update(
    {
        f"workspace/{when}{what}Files": "FileOperationRegistrationOptions"
        for when in ("did", "will")
        for what in ("Create", "Rename", "Delete")
    }
)
_REGISTRATIONS.update(
    {f"notebookDocument/{it}": "NotebookDocumentSyncRegistrationOptions" for it in ("didChange", "didClose", "didSave")}
)

#: The capability of the server that tells of a method, where its name isn't made of the method's.
_CAPABILITIES = {
    "callHierarchy/incomingCalls": "callHierarchyProvider",
    "callHierarchy/outgoingCalls": "callHierarchyProvider",
    "codeAction/resolve": "codeActionProvider.resolveProvider",
    "codeLens/resolve": "codeLensProvider.resolveProvider",
    "completionItem/resolve": "completionProvider.resolveProvider",
    "documentLink/resolve": "documentLinkProvider.resolveProvider",
    "inlayHint/resolve": "inlayHintProvider.resolveProvider",
    "textDocument/colorPresentation": "colorProvider",
    "textDocument/diagnostic": "diagnosticProvider",
    "textDocument/didChange": "textDocumentSync.change",
    "textDocument/didClose": "textDocumentSync.openClose",
    "textDocument/didOpen": "textDocumentSync.openClose",
    "textDocument/didSave": "textDocumentSync.save",
    "textDocument/documentColor": "colorProvider",
    "textDocument/formatting": "documentFormattingProvider",
    "textDocument/onTypeFormatting": "documentOnTypeFormattingProvider",
    "textDocument/prepareCallHierarchy": "callHierarchyProvider",
    "textDocument/prepareRename": "renameProvider.prepareProvider",
    "textDocument/prepareTypeHierarchy": "typeHierarchyProvider",
    "textDocument/rangeFormatting": "documentRangeFormattingProvider",
    "textDocument/semanticTokens/full": "semanticTokensProvider.full",
    "textDocument/semanticTokens/full/delta": "semanticTokensProvider.full.delta",
    "textDocument/semanticTokens/range": "semanticTokensProvider.range",
    "textDocument/willSave": "textDocumentSync.willSave",
    "textDocument/willSaveWaitUntil": "textDocumentSync.willSaveWaitUntil",
    "typeHierarchy/subtypes": "typeHierarchyProvider",
    "typeHierarchy/supertypes": "typeHierarchyProvider",
    "workspace/diagnostic": "diagnosticProvider.workspaceDiagnostics",
    "workspace/didChangeWorkspaceFolders": "workspace.workspaceFolders.changeNotifications",
    "workspace/executeCommand": "executeCommandProvider",
    "workspace/symbol": "workspaceSymbolProvider",
    "workspaceSymbol/resolve": "workspaceSymbolProvider.resolveProvider",
}
_CAPABILITIES.update(
    {
        f"workspace/{when}{what}Files": f"workspace.fileOperations.{when}{what}"
        for when in ("did", "will")
        for what in ("Create", "Rename", "Delete")
    }
)
_CAPABILITIES.update(
    {f"notebookDocument/{it}": "notebookDocumentSync" for it in ("didOpen", "didChange", "didClose", "didSave")}
)


def registration_of(method: str) -> str | None:
    """The structure of a method's registration options, by the name that it would have."""
    last = method.split("/")[-1]
    return _REGISTRATIONS.get(method, f"{last[0].upper()}{last[1:]}RegistrationOptions")


def capability_of(method: str) -> str | None:
    """The server's capability that tells of a method."""
    known = _CAPABILITIES.get(method)
    if known is None and method.startswith("textDocument/"):
        known = f"{method.split('/')[-1]}Provider"
    return known
