//! What a C header, a Rust file and Rattle files declare, in one form, C's: `name { type field, .. }` and
//! `type name(type parameter, ..)`. All are ours and plainly laid out, so a few cuts read them.

/// The structs and functions of a C header.
pub fn in_c(header: &str) -> Vec<String> {
    let comments = parts(header, "/*", "*/");
    let code = comments.iter().fold(header.to_string(), |code, comment| {
        code.replace(&format!("/*{comment}*/"), "")
    });
    let text = spaced(code.lines().filter(|line| !line.starts_with('#')));
    let structs = parts(&text, "typedef struct", "}").into_iter().map(|text| {
        let (name, fields) = cut(text, "{");
        format!("{name} {{ {} }}", list(fields, ";", c_variable))
    });
    let functions = text.split(';').filter(|text| text.contains('('));
    let functions = functions.map(|text| {
        let (head, parameters) = cut(text, "(");
        let (parameters, _) = cut(parameters, ")");
        format!("{head}({})", list(parameters, ",", c_variable))
    });
    structs.chain(functions).collect()
}

/// The structs with C's layout and the C functions that a Rust file declares.
pub fn in_rust(file: &str) -> Vec<String> {
    let text = without_comments(file);
    let structs = structs(&text)
        .into_iter()
        .map(|text| struct_of(text, rust_variable));
    let functions = parts(&text, "extern \" C \" {", "}")
        .into_iter()
        .flat_map(|block| block.split(';'));
    let functions = functions.filter(|text| text.contains('('));
    let functions = functions.map(|text| function_of(text, rust_variable));
    structs.chain(functions).collect()
}

/// The structs with C's layout and the functions for C that Rattle files have. A tuple struct is to C what it holds.
pub fn in_rattle(files: &str) -> Vec<String> {
    // what is derived stands between the mark of C's layout and the struct
    let text = without_comments(files);
    let derived = parts(&text, "# [ derive (", ") ]");
    let text = derived.iter().fold(text.clone(), |code, names| {
        code.replace(&format!("# [ derive ({names}) ]"), "")
    });
    let (tuples, structs): (Vec<_>, Vec<_>) = structs(&text)
        .into_iter()
        .partition(|text| cut(text, "{").0.contains('('));
    let held = tuples.into_iter().map(|text| {
        let (head, rest) = cut(text, "(");
        let (kind, _) = cut(rest, ")");
        (last_word(head), kind.trim_start_matches("pub "))
    });
    let held: Vec<_> = held.collect();
    let variable = |text: &str| rattle_variable(text, &held);
    let structs = structs.into_iter().map(|text| struct_of(text, variable));
    // the result is followed by the promise, or by the body
    let functions = parts(&text, "extern \" C \" fn", "{").into_iter();
    let functions = functions.map(|text| function_of(text, variable));
    structs.chain(functions).collect()
}

/// What follows the mark of C's layout, to the end of the struct at least.
fn structs(text: &str) -> Vec<&str> {
    parts(text, "repr ( C )", "}")
}

/// A struct from `.. pub struct Name { pub field : type , ..`.
fn struct_of(text: &str, variable: impl Fn(&str) -> String) -> String {
    let (head, fields) = cut(text, "{");
    let name = c_type(last_word(head));
    format!("{name} {{ {} }}", list(fields, ",", variable))
}

/// A function from `fn name ( parameter : type , .. ) - > type ..`.
fn function_of(text: &str, variable: impl Fn(&str) -> String) -> String {
    let (head, rest) = cut(text, "(");
    let (parameters, result) = cut(rest, ")");
    let result = result.trim_start_matches("- > ").split(' ').next();
    let result = c_type(result.expect("a result"));
    let parameters = list(parameters, ",", variable);
    format!("{result} {}({parameters})", last_word(head))
}

fn last_word(text: &str) -> &str {
    text.rsplit(' ').next().expect("a word")
}

/// A file as one line, its comments left out.
fn without_comments(file: &str) -> String {
    spaced(file.lines().map(|line| cut(line, "//").0))
}

/// Lines as one, with one space between any two names or signs.
fn spaced<'a>(lines: impl Iterator<Item = &'a str>) -> String {
    let mut text = String::new();
    for c in lines.flat_map(|line| line.chars().chain([' '])) {
        if c.is_alphanumeric() || c == '_' {
            text.push(c);
        } else {
            text.extend([' ', c, ' ']);
        }
    }
    text.split_whitespace().collect::<Vec<_>>().join(" ")
}

/// What stands between each opening and its close.
fn parts<'a>(text: &'a str, open: &str, close: &str) -> Vec<&'a str> {
    let opened = text.split(open).skip(1);
    opened.map(|after| cut_raw(after, close).0).collect()
}

fn cut_raw<'a>(text: &'a str, at: &str) -> (&'a str, &'a str) {
    text.split_once(at).unwrap_or((text, ""))
}

/// What stands before and after, without spaces around.
fn cut<'a>(text: &'a str, at: &str) -> (&'a str, &'a str) {
    let (before, after) = cut_raw(text, at);
    (before.trim(), after.trim())
}

fn list(text: &str, between: &str, variable: impl Fn(&str) -> String) -> String {
    let items = text.split(between).map(str::trim);
    let items = items.filter(|item| !item.is_empty()).map(variable);
    items.collect::<Vec<_>>().join(", ")
}

/// `const uint8_t * pages`, as it is.
fn c_variable(text: &str) -> String {
    text.to_string()
}

/// The same from `pages : * const u8`.
fn rust_variable(text: &str) -> String {
    let (name, kind) = named(text);
    if let Some(array) = array_of(name, kind) {
        return array;
    }
    let kind = match (kind.strip_prefix("* const "), kind.strip_prefix("* mut ")) {
        (Some(kind), _) => format!("const {} *", c_type(kind)),
        (_, Some(kind)) => format!("{} *", c_type(kind)),
        _ => c_type(kind),
    };
    format!("{kind} {name}")
}

/// `uint64_t lines [ 16 ]` from `lines` and `[ u64 ; 16 ]`, if it is an array.
fn array_of(name: &str, kind: &str) -> Option<String> {
    let (element, length) = kind.strip_prefix("[ ")?.split_once(" ; ")?;
    Some(format!("{} {name} [ {length}", c_type(element)))
}

/// The same from `pages : & [ u8 ]`, which is two parameters. `held` has each tuple struct with what it holds.
fn rattle_variable(text: &str, held: &[(&str, &str)]) -> String {
    let (name, kind) = named(text);
    if let Some(array) = array_of(name, kind) {
        return array;
    }
    let whole = |kind: &str| match held.iter().find(|(tuple, _)| *tuple == kind) {
        Some((_, inside)) => c_type(inside),
        None => c_type(kind),
    };
    let element = |slice: &str| whole(cut(slice, "]").0);
    match (kind.strip_prefix("& ["), kind.strip_prefix("& mut [")) {
        (Some(slice), _) => format!("const {} * {name}, size_t {name}_len", element(slice)),
        (_, Some(slice)) => format!("{} * {name}, size_t {name}_len", element(slice)),
        _ => format!("{} {name}", whole(kind)),
    }
}

/// A name, as C has it, and the type beside it.
fn named(text: &str) -> (&str, &str) {
    let (name, kind) = cut(text.trim_start_matches("pub "), ":");
    match name {
        "register" => ("records", kind), // a word of C's own
        "register_len" => ("records_len", kind),
        "state" => ("store", kind),
        name => (name, kind),
    }
}

/// `FormatReply` is `pit_format_reply`.
fn c_type(kind: &str) -> String {
    match kind {
        "u8" | "u16" | "u32" | "u64" => format!("uint{}_t", &kind[1..]),
        "usize" => "size_t".to_string(),
        "State" => "pit_store".to_string(),
        named => named.chars().fold("pit".to_string(), |name, c| {
            let gap = if c.is_uppercase() { "_" } else { "" };
            name + gap + &c.to_lowercase().to_string()
        }),
    }
}
