//! The declarations beside the header that lies with the library: constants, and how the structs lie.
use super::*;
use std::collections::BTreeMap;
use std::mem::{align_of, size_of, size_of_val};

/// A field's name, its place and its size.
type Field = (String, usize, usize);

fn header() -> String {
    let text = std::fs::read_to_string(env!("BULLMYRTLE_HEADER")).expect("the header lies beside the library");
    let mut bare = String::new();
    let mut rest = text.as_str();
    while let Some((code, comment)) = rest.split_once("/*") {
        bare += code;
        rest = comment.split_once("*/").expect("a comment ends").1;
    }
    bare + rest
}

/// The names of the header's enumerations, with their values.
fn constants() -> BTreeMap<String, i64> {
    let text = header();
    let mut found = BTreeMap::new();
    for body in text.split("enum {").skip(1) {
        let mut next = 0;
        for word in
            body.split('}').next().expect("an enumeration").split(',').map(str::trim).filter(|it| !it.is_empty())
        {
            let (name, value) =
                word.split_once(" = ").map_or((word, next), |it| (it.0, it.1.parse().expect("a number")));
            found.insert(name.to_string(), value);
            next = value + 1;
        }
    }
    let version = text.lines().find_map(|it| it.strip_prefix("#define BM_INTERFACE ")).expect("the version");
    found.insert("BM_INTERFACE".into(), version.parse().expect("a number"));
    found
}

/// How C lays a struct of the header out, since each field is a number or a pointer and lies at a multiple of its size.
fn laid_out_in_c(name: &str) -> (Vec<Field>, usize) {
    let text = header();
    let body = text.split("typedef struct {").find(|it| it.contains(&format!("}} {name};"))).expect("the struct");
    let (mut fields, mut end, mut widest) = (Vec::new(), 0_usize, 1);
    for line in body.split('}').next().expect("its fields").split(';').map(str::trim).filter(|it| !it.is_empty()) {
        let (kind, field) = line.rsplit_once(' ').expect("a type and a name");
        let size = match kind {
            "uint32_t" | "int32_t" => 4,
            "uint64_t" | "int64_t" | "size_t" => 8,
            "const uint8_t" if field.starts_with('*') => 8,
            _ => panic!("{kind}"),
        };
        let field = field.trim_start_matches('*');
        let place = (end + size - 1) / size * size;
        fields.push((field.to_string(), place, size));
        end = place + size;
        widest = widest.max(size);
    }
    (fields, (end + widest - 1) / widest * widest)
}

macro_rules! assert_laid_out {
    ($kind:ident: $($field:ident)*) => {{
        // SAFETY: its fields are numbers and pointers, which may be zero.
        let it: $kind = unsafe { std::mem::zeroed() };
        let start = std::ptr::addr_of!(it) as usize;
        let fields = vec![$((
            stringify!($field).to_string(),
            std::ptr::addr_of!(it.$field) as usize - start,
            size_of_val(&it.$field),
        )),*];
        assert_eq!(align_of::<$kind>(), fields.iter().map(|it| it.2).max().expect("a field"));
        assert_eq!((fields, size_of::<$kind>()), laid_out_in_c(stringify!($kind)));
    }};
}

#[test]
fn structs_lie_as_in_the_header() {
    assert_laid_out!(bm_options: size framing order cancels broken content calls entries null_params);
    assert_laid_out!(bm_event: kind flags number key code name_len text_len id_len name text id);
    assert_laid_out!(bm_report: calls requests open waiting own_calls answers_written unreadable invalid ignored);
    assert_laid_out!(bm_saying: kind said number key code name_len text_len calls);
    assert_laid_out!(bm_judge_options: size rules framing content ids);
    assert_laid_out!(bm_finding: side rule level whose number offset entry);
    assert_eq!(size_of::<bm_connection>(), size_of::<*mut c_void>());
    assert_eq!(size_of::<bm_judge>(), size_of::<*mut c_void>());
}

macro_rules! named {
    ($($name:ident)*) => { BTreeMap::from([$((stringify!($name).to_string(), i64::from($name))),*]) };
}

#[test]
fn constants_are_those_of_the_header() {
    let ours = named!(
        BM_INTERFACE
        BM_OK BM_NO_MEMORY BM_NOT_OPEN BM_NOT_WAITING BM_OVER BM_NOT_JSON BM_NOT_TEXT BM_SETTINGS BM_EMPTY BM_FULL
        BM_FRAMES BM_LINES BM_CONTENTS
        BM_AS_ANSWERED BM_AS_CAME
        BM_CANCELS_NONE BM_CANCELS_LSP BM_CANCELS_MCP
        BM_CLOSED BM_READ_FAILED
        BM_NONE BM_CALL BM_CANCELLED BM_REPLIED BM_UNANSWERED BM_INPUT_OVER BM_BROKEN
        BM_REQUEST BM_ERROR BM_UNREADABLE BM_INVALID
        BM_OVER_CLEAN BM_OVER_BAD_HEAD BM_OVER_BAD_LENGTH BM_OVER_TWO_LENGTHS BM_OVER_TOO_LARGE BM_OVER_NO_LENGTH
        BM_OVER_HEAD_TOO_LONG BM_OVER_TRUNCATED BM_OVER_READ BM_OVER_CALLS
        BM_SAY_ANSWER BM_SAY_FAIL BM_SAY_CLOSE BM_SAY_CALL BM_SAY_BATCH BM_SAY_NOTIFY BM_SAY_WITHDRAW BM_SAY_CANCEL
        BM_RULES_JSONRPC BM_RULES_LSP BM_RULES_MCP BM_RULES_MCP_2025_06_18 BM_RULES_MCP_2025_03_26 BM_RULES_MCP_2024_11_05
        BM_CLIENT BM_SERVER BM_MUST BM_SHOULD BM_NOTE
        BM_WHOSE_CONNECTION BM_WHOSE_HOST BM_WHOSE_NOBODY
        BM_RULE_HEAD BM_RULE_NOT_JSON BM_RULE_CHARSET BM_RULE_CUT_OFF BM_RULE_LINE_END BM_RULE_OBJECT BM_RULE_VERSION
        BM_RULE_METHOD BM_RULE_PARAMS BM_RULE_ID BM_RULE_OUTCOME BM_RULE_ERROR BM_RULE_EMPTY_ARRAY
        BM_RULE_BATCH BM_RULE_NOT_OWED BM_RULE_NOT_AS_ARRAY BM_RULE_ID_FRACTION BM_RULE_ID_NULL BM_RULE_ID_FORM
        BM_RULE_ID_AGAIN BM_RULE_RPC_NAME BM_RULE_CODE BM_RULE_CANCELLED_CODE BM_RULE_CANCEL_PARAMS
        BM_RULE_CANCEL_UNKNOWN BM_RULE_CANCEL_INITIALIZE BM_RULE_AFTER_CANCEL BM_RULE_UNANSWERED BM_RULE_NOT_JUDGED
        BM_RULE_BOTH_KINDS BM_RULE_TWICE BM_RULE_PARAMS_OBJECT BM_RULE_RESULT_OBJECT
    );
    assert_eq!(ours, constants());
}

#[test]
fn the_library_has_the_interface_of_the_header() {
    assert_eq!(unsafe { bm_interface() }, BM_INTERFACE);
}
