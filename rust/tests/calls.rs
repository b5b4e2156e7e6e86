//! What the examples of the documentation don't show: results that need more room than a call begins with, errors, and threads.

use std::thread;
use yettuvam::{metadata, preprocess, Definition, Error, Place, Shader, Source, Value};

/// A text that grows to five times its length.
#[test]
fn a_long_result_is_whole() {
    let text = "#A\n".repeat(20_000);
    let definitions = [Definition::new("A", i32::MAX)];
    let long = preprocess(Source::new("long.wgsl", &text), &definitions).unwrap();
    assert_eq!(long.text, "2147483647\n".repeat(20_000));
}

/// More fields than a call begins with.
#[test]
fn many_imports_are_all_there() {
    let lines =
        (0..500).map(|number| format!("#import module{number}::item\nmodule{number}::item(1)\n"));
    let text: String = lines.collect();
    let many = metadata(Source::new("many.wgsl", &text), false).unwrap();
    assert_eq!(many.imports.len(), 500);
    let named = |number| {
        many.imports
            .iter()
            .any(|import| import.module == format!("module{number}") && import.items == ["item"])
    };
    assert!((0..500).all(named));
}

/// Decorated names make a text longer than the texts that it is made of.
#[test]
fn a_long_shader_is_whole() {
    let name = "a::module::with::a::long::name";
    let constants: String = (0..1_000)
        .map(|number| format!("const C{number} = #A;\n"))
        .collect();
    let module = format!("#define_import_path {name}\n{constants}");
    let uses: String = (0..1_000)
        .map(|number| format!("    sum += sea::C{number};\n"))
        .collect();
    let top = format!(
        "#import {name} as sea\nfn f() -> i32 {{\n    var sum = 0;\n{uses}    return sum;\n}}\n"
    );
    let sources = [
        Source::new("top.wgsl", &top),
        Source::new("sea.wgsl", &module),
    ];
    let text = Shader::new(sources[0])
        .module(sources[1])
        .define("A", 7)
        .build()
        .unwrap();
    assert_eq!(text.matches(" = 7;").count(), 1_000);
    assert_eq!(text.matches("X_naga_oil_mod_X").count(), 2_000);
    assert!(
        text.len() > 2 * (top.len() + module.len()) + 4096,
        "{} fits at the first call",
        text.len()
    );
}

#[test]
fn an_error_has_its_report_and_its_place() {
    let error = preprocess(Source::new("bad.wgsl", "a\n#else\n"), &[]).unwrap_err();
    assert_eq!(
        error.to_string(),
        "error: '#else' without preceding condition.\n  at bad.wgsl:2:1"
    );
    assert!(matches!(
        error,
        Error::Text {
            place: Some(Place::Byte(2)),
            ..
        }
    ));
    let error = metadata(Source::new("bad.wgsl", "\nenable  ;"), false).unwrap_err();
    assert!(matches!(
        error,
        Error::Text {
            place: Some(Place::Line(1)),
            ..
        }
    ));
    let error = Shader::new(Source::new("bad.wgsl", "fn f( {}"))
        .build()
        .unwrap_err();
    assert!(
        matches!(&error, Error::Text { place: None, report } if report.contains("bad.wgsl:1:7"))
    );
    let error: Box<dyn std::error::Error + Send + Sync> = error.into();
    assert!(error.to_string().starts_with("error: "));
}

#[test]
fn definitions_come_back_with_their_kinds() {
    let text = "#define YES\n#define LESS -3\n#define MORE 4294967295\n";
    let found = metadata(Source::new("kinds.wgsl", text), true).unwrap();
    let value = |name| {
        found
            .definitions
            .iter()
            .find(|definition| definition.0 == name)
            .map(|definition| definition.1)
    };
    assert_eq!(value("YES"), Some(Value::Bool(true)));
    assert_eq!(value("LESS"), Some(Value::Int(-3)));
    assert_eq!(value("MORE"), Some(Value::UInt(u32::MAX)));
    let definitions: Vec<Definition> = found.definitions.iter().map(Definition::from).collect();
    let text = preprocess(Source::new("kinds.wgsl", "#YES #LESS #MORE"), &definitions)
        .unwrap()
        .text;
    assert_eq!(text.trim_end(), "true -3 4294967295");
}

#[test]
fn empty_texts_are_texts() {
    assert_eq!(Shader::new(Source::new("", "")).build().as_deref(), Ok(""));
    assert_eq!(preprocess(Source::new("", ""), &[]).unwrap().text, "");
}

#[test]
fn threads_build_the_same() {
    let module = "#define_import_path sea\nfn depth() -> f32 { return f32(#A); }\n";
    let shader = Shader::new(Source::new(
        "top.wgsl",
        "#import sea\nfn f() -> f32 { return sea::depth(); }\n",
    ))
    .module(Source::new("sea.wgsl", module));
    let expected: Vec<String> = (0..4)
        .map(|a| shader.clone().define("A", a).build().unwrap())
        .collect();
    thread::scope(|scope| {
        for (a, text) in expected.iter().enumerate() {
            let shader = shader.clone().define("A", a as i32);
            scope
                .spawn(move || (0..50).for_each(|_| assert_eq!(shader.build().as_ref(), Ok(text))));
        }
    });
}

/// A module that the shader doesn't reach is added all the same.
#[test]
fn a_module_that_is_not_reached_is_added() {
    let top = "#import sea\n@group(0) @binding(auto) var<uniform> size: f32;\nfn f() -> f32 { return sea::depth() * size; }\n";
    let sea = Source::new(
        "sea.wgsl",
        "#define_import_path sea\nfn depth() -> f32 { return 1.0; }\n",
    );
    let built = |other| {
        Shader::new(Source::new("top.wgsl", top))
            .module(Source::new("other.wgsl", other))
            .module(sea)
            .build()
    };
    let reports = |other, message: &str| matches!(built(other), Err(error) if error.to_string().contains(message));
    assert!(built("#define_import_path other\nfn f( {\n#else\n")
        .unwrap()
        .contains("@binding(0)"));
    let bound = "#define_import_path other\n@group(0) @binding(auto) var<uniform> other: f32;\n";
    assert!(built(bound)
        .unwrap()
        .contains("@binding(1) var<uniform> size"));
    assert!(reports(
        "fn f() {}\n",
        "a module has no `#define_import_path`"
    ));
    assert!(reports("#define_import_path sea\n", "same import path"));
    assert!(reports(
        "#define_import_path other\n#define X 1\n",
        "`#define` in a module"
    ));
    assert!(reports(
        "#define_import_path other\n#import none\nfn f() { none::g(); }\n",
        "no module `none`"
    ));
    assert!(reports(
        "#define_import_path other\nfn fX_naga_oil_mod_XMIX() {}\n",
        "mark of a decorated name"
    ));
}
