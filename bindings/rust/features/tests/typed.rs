//! Params and results by type on threads, and LSP's types as they are read and written.
use bullmyrtle::lsp::{
    CodeActionKind, CompletionItem, DidChangeTextDocumentParams, Hover, HoverParams, InitializeParams, MarkupContent,
    MarkupContentOrMarkedStringOrMarkedStringList, MarkupKind, Position, Range, SelectionRange, ServerCapabilities,
    SymbolKind, TextDocumentContentChangeEvent, TextDocumentEditOrCreateFileOrRenameFileOrDeleteFile,
    TextDocumentSyncKind, TextDocumentSyncOptionsOrTextDocumentSyncKind, WorkspaceEdit,
};
use bullmyrtle::{params_of, CallError, Connection, ErrorObject, Incoming, Life, Settings};
use serde::de::DeserializeOwned;
use serde::Serialize;
use serde_json::{json, Value};
use std::thread;
use std::time::Duration;

/// A value that is read as a type and written again.
fn again<T: DeserializeOwned + Serialize>(value: &Value) -> Value {
    serde_json::to_value(params_of::<T>(Some(&value.to_string())).expect("it fits")).expect("it is JSON")
}

#[test]
fn a_request_is_responded_to_by_type() {
    let (server, client) = Connection::memory(Settings::lsp()).unwrap();
    thread::spawn(move || {
        server.serve(|it| match it {
            Incoming::Request(it) => it.respond(|(one, other): (u64, u64)| match one.checked_add(other) {
                Some(sum) => Ok(sum),
                None => Err(ErrorObject::new(5, "too many")),
            }),
            Incoming::Notification(_) => {}
        })
    });
    assert_eq!(client.call_as::<u64>("add", &(1, 2)).wait(), Ok(3));
    let failed = client.call_as::<u64>("add", &(u64::MAX, 2)).wait();
    assert_eq!(failed, Err(CallError::Response(ErrorObject::new(5, "too many"))));
    let message = "params[1]: invalid type: string \"x\", expected u64";
    let failed = client.call_as::<u64>("add", &(1, "x")).wait();
    assert_eq!(failed, Err(CallError::Response(ErrorObject::new(-32602, message))));
    let late = client.call_as::<String>("add", &(1, 2)).wait_timeout(Duration::from_secs(60)).expect("a response");
    assert_eq!(late, Err(CallError::Result("result: invalid type: integer `3`, expected a string".into())));
    // (params are an array, an object or none)
    assert!(matches!(client.call_as::<u64>("add", &5).wait(), Err(CallError::Refused(_))));
    assert!(client.notify_as("note", &"text").is_err());
    assert_eq!(client.notify_as("note", &()), Ok(()));
}

#[test]
fn an_initialize_is_answered_by_type() {
    let (server, client) = Connection::memory(Settings::lsp()).unwrap();
    let mut life = Life::typed(|it: InitializeParams| match it.process_id {
        Some(it) => Ok(json!({"capabilities": {}, "given": it})),
        None => Err(ErrorObject::new(5, "nobody")),
    });
    thread::spawn(move || (&server).into_iter().for_each(|it| assert!(life.admit(it).is_none())));
    let refused = |code, message: &str| Err(CallError::Response(ErrorObject::new(code, message)));
    let initialize = |params: Value| client.call_as::<Value>("initialize", &params).wait();
    for (params, code, message) in [
        (json!(null), -32602, "params: expected an object"),
        (json!([]), -32602, "params: expected an object"),
        (json!({"processId": 1}), -32602, "params: missing field `capabilities`"),
        (
            json!({"processId": 1, "capabilities": {"window": {"workDoneProgress": 5}}}),
            -32602,
            "params.capabilities.window.workDoneProgress: invalid type: integer `5`, expected a boolean",
        ),
        (json!({"processId": null, "capabilities": {}}), 5, "nobody"),
    ] {
        assert_eq!(initialize(params), refused(code, message));
    }
    assert_eq!(initialize(json!({"processId": 7, "capabilities": {}})), Ok(json!({"capabilities": {}, "given": 7})));
    assert_eq!(initialize(json!({"processId": 7, "capabilities": {}})), refused(-32600, "initialize came before"));
}

#[test]
fn what_does_not_fit_is_told_with_its_place() {
    let params = r#"{"textDocument":{"uri":"file:///a"},"position":{"line":1,"character":-1}}"#;
    let error = params_of::<HoverParams>(Some(params)).unwrap_err();
    let message = "params.position.character: invalid value: integer `-1`, expected u32";
    assert_eq!((error.code, error.message.as_str()), (-32602, message));
}

#[test]
fn members_that_are_absent_stay_absent_and_null_stays_null() {
    for value in [
        json!({"contents": "text"}),
        json!({"contents": ["a", {"language": "rust", "value": "b"}]}),
        json!({"contents": {"kind": "markdown", "value": "c"}, "range": {
            "start": {"line": 0, "character": 0}, "end": {"line": 0, "character": 4_294_967_295_u32}}}),
    ] {
        assert_eq!(again::<Hover>(&value), value);
    }
    let value = json!({"processId": null, "rootUri": null, "capabilities": {}});
    assert_eq!(again::<InitializeParams>(&value), value);
    let value = json!({"range": {"start": {"line": 0, "character": 0}, "end": {"line": 1, "character": 0}},
        "parent": {"range": {"start": {"line": 0, "character": 0}, "end": {"line": 9, "character": 0}}}});
    assert_eq!(again::<SelectionRange>(&value), value);
}

#[test]
fn unions_are_told_apart() {
    let range = json!({"start": {"line": 0, "character": 0}, "end": {"line": 0, "character": 1}});
    let changes = json!({"textDocument": {"uri": "file:///a", "version": 2},
        "contentChanges": [{"range": range, "text": "x"}, {"text": "y"}]});
    let read: DidChangeTextDocumentParams = params_of(Some(&changes.to_string())).unwrap();
    assert!(matches!(
        &read.content_changes[..],
        [
            TextDocumentContentChangeEvent::TextDocumentContentChangePartial(_),
            TextDocumentContentChangeEvent::TextDocumentContentChangeWholeDocument(_)
        ]
    ));
    let edit = json!({"documentChanges": [
        {"kind": "create", "uri": "file:///a"},
        {"kind": "delete", "uri": "file:///a"},
        {"kind": "rename", "oldUri": "file:///a", "newUri": "file:///b"},
        {"textDocument": {"uri": "file:///a", "version": null}, "edits": [{"range": range, "newText": ""}]}]});
    assert_eq!(again::<WorkspaceEdit>(&edit), edit);
    let read: WorkspaceEdit = params_of(Some(&edit.to_string())).unwrap();
    assert!(matches!(
        &read.document_changes.unwrap()[..],
        [
            TextDocumentEditOrCreateFileOrRenameFileOrDeleteFile::CreateFile(_),
            TextDocumentEditOrCreateFileOrRenameFileOrDeleteFile::DeleteFile(_),
            TextDocumentEditOrCreateFileOrRenameFileOrDeleteFile::RenameFile(_),
            TextDocumentEditOrCreateFileOrRenameFileOrDeleteFile::TextDocumentEdit(_)
        ]
    ));
}

#[test]
fn values_are_made_by_their_names() {
    let hover = Hover {
        contents: MarkupContentOrMarkedStringOrMarkedStringList::MarkupContent(MarkupContent {
            kind: MarkupKind::PlainText,
            value: "text".into(),
        }),
        range: Some(Range { start: Position { line: 0, character: 1 }, end: Position { line: 0, character: 2 } }),
    };
    let range = json!({"start": {"line": 0, "character": 1}, "end": {"line": 0, "character": 2}});
    let wanted = json!({"contents": {"kind": "plaintext", "value": "text"}, "range": range});
    assert_eq!(serde_json::to_value(hover).unwrap(), wanted);
    let capabilities = ServerCapabilities {
        text_document_sync: Some(TextDocumentSyncOptionsOrTextDocumentSyncKind::TextDocumentSyncKind(
            TextDocumentSyncKind::FULL,
        )),
        ..ServerCapabilities::default()
    };
    assert_eq!(serde_json::to_value(capabilities).unwrap(), json!({"textDocumentSync": 1}));
    assert_eq!(serde_json::to_value(SymbolKind::TYPE_PARAMETER).unwrap(), json!(26));
    assert_eq!(serde_json::to_value(CodeActionKind::REFACTOR_EXTRACT).unwrap(), json!("refactor.extract"));
    // (a kind that nobody listed, and a name that is a word of Rust's)
    assert_eq!(again::<CodeActionKind>(&json!("mine")), json!("mine"));
    assert_eq!(again::<CompletionItem>(&json!({"label": "a", "kind": 3})), json!({"label": "a", "kind": 3}));
    assert!(params_of::<MarkupKind>(Some("\"html\"")).is_err());
}
