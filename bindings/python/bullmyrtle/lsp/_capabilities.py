"""What a server can do, as `initialize` tells it: made from the methods that are registered (LSP 3.17)."""
from __future__ import annotations


from .._hints import TYPE_CHECKING
from .._lives import at
from .._merging import merged

if TYPE_CHECKING:
    from typing import Any, Dict, Iterable, Mapping, Optional, Tuple

    Json = Dict[str, Any]
    #: The methods that are registered, with the options that were given for each.
    Features = Mapping[str, Optional[Json]]


# A method, the capability that tells of it, and the member of that which does, where it isn't the capability itself.
_PROVIDERS: Dict[str, Tuple[str, Optional[str]]] = {
    "textDocument/completion": ("completionProvider", None),
    "completionItem/resolve": ("completionProvider", "resolveProvider"),
    "textDocument/hover": ("hoverProvider", None),
    "textDocument/signatureHelp": ("signatureHelpProvider", None),
    "textDocument/declaration": ("declarationProvider", None),
    "textDocument/definition": ("definitionProvider", None),
    "textDocument/typeDefinition": ("typeDefinitionProvider", None),
    "textDocument/implementation": ("implementationProvider", None),
    "textDocument/references": ("referencesProvider", None),
    "textDocument/documentHighlight": ("documentHighlightProvider", None),
    "textDocument/documentSymbol": ("documentSymbolProvider", None),
    "textDocument/codeAction": ("codeActionProvider", None),
    "codeAction/resolve": ("codeActionProvider", "resolveProvider"),
    "textDocument/codeLens": ("codeLensProvider", None),
    "codeLens/resolve": ("codeLensProvider", "resolveProvider"),
    "textDocument/documentLink": ("documentLinkProvider", None),
    "documentLink/resolve": ("documentLinkProvider", "resolveProvider"),
    "textDocument/documentColor": ("colorProvider", None),
    "textDocument/formatting": ("documentFormattingProvider", None),
    "textDocument/rangeFormatting": ("documentRangeFormattingProvider", None),
    "textDocument/onTypeFormatting": ("documentOnTypeFormattingProvider", None),
    "textDocument/rename": ("renameProvider", None),
    "textDocument/prepareRename": ("renameProvider", "prepareProvider"),
    "textDocument/foldingRange": ("foldingRangeProvider", None),
    "textDocument/selectionRange": ("selectionRangeProvider", None),
    "textDocument/linkedEditingRange": ("linkedEditingRangeProvider", None),
    "textDocument/prepareCallHierarchy": ("callHierarchyProvider", None),
    "textDocument/prepareTypeHierarchy": ("typeHierarchyProvider", None),
    "textDocument/semanticTokens/full": ("semanticTokensProvider", "full"),
    "textDocument/semanticTokens/range": ("semanticTokensProvider", "range"),
    "textDocument/moniker": ("monikerProvider", None),
    "textDocument/inlineValue": ("inlineValueProvider", None),
    "textDocument/inlayHint": ("inlayHintProvider", None),
    "inlayHint/resolve": ("inlayHintProvider", "resolveProvider"),
    "textDocument/diagnostic": ("diagnosticProvider", None),
    "workspace/diagnostic": ("diagnosticProvider", "workspaceDiagnostics"),
    "workspace/symbol": ("workspaceSymbolProvider", None),
    "workspaceSymbol/resolve": ("workspaceSymbolProvider", "resolveProvider"),
}
# What the capability has where no options are given, if it isn't `true`.
_OBJECTS: Dict[str, Json] = {
    "completionProvider": {},
    "signatureHelpProvider": {},
    "codeLensProvider": {},
    "documentLinkProvider": {},
    "semanticTokensProvider": {},
    "diagnosticProvider": {"interFileDependencies": False, "workspaceDiagnostics": False},
}
#: What can't be told from the method alone, so that its options have to say it.
NEEDED = {
    "textDocument/onTypeFormatting": "firstTriggerCharacter",
    "textDocument/semanticTokens/full": "legend",
    "textDocument/semanticTokens/range": "legend",
}
_FILE_OPERATIONS = [f"{when}{what}" for what in ("Create", "Rename", "Delete") for when in ("did", "will")]
NEEDED.update({f"workspace/{it}Files": "filters" for it in _FILE_OPERATIONS})
# Where that stands among the capabilities that are given by hand.
_BY_HAND = {
    "textDocument/onTypeFormatting": "documentOnTypeFormattingProvider",
    "textDocument/semanticTokens/full": "semanticTokensProvider",
    "textDocument/semanticTokens/range": "semanticTokensProvider",
}
_BY_HAND.update({f"workspace/{it}Files": f"workspace.fileOperations.{it}" for it in _FILE_OPERATIONS})
#: What only a registration while the server runs tells of, with the client's capability that it may be registered.
DYNAMIC = {
    "workspace/didChangeWatchedFiles": "workspace.didChangeWatchedFiles.dynamicRegistration",
    "workspace/didChangeConfiguration": "workspace.didChangeConfiguration.dynamicRegistration",
}
FULL, INCREMENTAL = 1, 2


def _add_provider(capabilities: Json, method: str, options: Optional[Json]) -> None:
    name, part = _PROVIDERS[method]
    there = capabilities.get(name)
    given = dict(options or {}) if part is None else {part: True, **(options or {})}
    value = {**_OBJECTS.get(name, {}), **(there if isinstance(there, dict) else {}), **given}
    capabilities[name] = value if value or name in _OBJECTS else True


def _sync(features: Features, change: int) -> Json:
    sync: Json = {"openClose": True, "change": change}
    if "textDocument/didSave" in features:
        sync["save"] = features["textDocument/didSave"] or True
    if "textDocument/willSave" in features:
        sync["willSave"] = True
    if "textDocument/willSaveWaitUntil" in features:
        sync["willSaveWaitUntil"] = True
    return sync


def _of_workspace(features: Features) -> Json:
    workspace: Json = {"workspaceFolders": {"supported": True, "changeNotifications": True}}
    operations = {
        it: features[f"workspace/{it}Files"] for it in _FILE_OPERATIONS if f"workspace/{it}Files" in features
    }
    if operations:
        workspace["fileOperations"] = operations
    return workspace


def capabilities_of(features: Features, commands: Iterable[str], change: int, by_hand: Json) -> Json:
    """The capabilities of a server with these methods and commands; what is given by hand stands over them."""
    made: Json = {"textDocumentSync": _sync(features, change), "workspace": _of_workspace(features)}
    # (in the table's order, so that a member finds its capability made)
    for method in _PROVIDERS:
        if method in features:
            _add_provider(made, method, features[method])
    if "textDocument/semanticTokens/full/delta" in features:
        made["semanticTokensProvider"] = {**made.get("semanticTokensProvider", {}), "full": {"delta": True}}
    if "notebookDocument/didOpen" in features and features["notebookDocument/didOpen"]:
        made["notebookDocumentSync"] = features["notebookDocument/didOpen"]
    names = sorted(commands)
    if names:
        made["executeCommandProvider"] = {"commands": names}
    return merged(made, by_hand)


def lacks(method: str, options: Optional[Json], features: Features, by_hand: Json) -> Optional[str]:
    """What the options of a method have to tell and don't, where nothing else tells it either."""
    needed = NEEDED.get(method)
    if needed is None or needed in (options or {}) or needed in (at(by_hand, _BY_HAND[method]) or {}):
        return None
    others = [
        given for it, given in features.items() if "semanticTokens" in it and "semanticTokens" in method
    ]
    return None if any(needed in (it or {}) for it in others) else needed


def encoding_for(client: Json, known: Iterable[str]) -> Optional[str]:
    """The encoding to agree on: the first one of the client's list that is known. None where it gave no list."""
    wanted = at(client, "general.positionEncodings")
    if not isinstance(wanted, list):
        return None
    choices = [it for it in wanted if it in tuple(known)]
    return choices[0] if choices else "utf-16"
