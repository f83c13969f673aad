//! include/tray.h and this crate say the same: operators, gravities, faults, flags, limits and the version.

use std::collections::HashMap;
use tray::{Fault, Flags, Gravity, Operator, ARGUMENTS, COLUMNS, LAYERS, OFFSET, SIDE};

const HEADER: &str = include_str!("../../../include/tray.h");

/// The header's constants, of its enums (NAME = NUMBER) and of its macros (#define NAME TEXT), by their names.
fn constants() -> HashMap<&'static str, &'static str> {
    let constant = |line: &'static str| match line.strip_prefix("#define ") {
        Some(rest) => rest.split_once(' '),
        None => line.split("/*").next()?.trim().trim_end_matches(',').split_once(" = "),
    };
    HEADER.lines().filter_map(constant).filter(|(name, _)| name.starts_with("TRAY_")).collect()
}

/// SoftLight as SOFT_LIGHT.
fn shouted(variant: &str) -> String {
    let mut text = String::new();
    for letter in variant.chars() {
        if letter.is_ascii_uppercase() && !text.is_empty() {
            text.push('_');
        }
        text.push(letter.to_ascii_uppercase());
    }
    text
}

#[test]
fn the_same_constants() {
    let mut wanted: Vec<(String, String)> = vec![
        ("TRAY_DONE".into(), "0".into()),
        ("TRAY_NO_GRAVITY".into(), Gravity::None.number().to_string()),
        ("TRAY_COLUMNS".into(), COLUMNS.to_string()),
        ("TRAY_OPERATORS".into(), Operator::ALL.len().to_string()),
        ("TRAY_MAX_LAYERS".into(), LAYERS.to_string()),
        ("TRAY_MAX_ARGUMENTS".into(), ARGUMENTS.to_string()),
        ("TRAY_MAX_SIDE".into(), SIDE.to_string()),
        ("TRAY_MAX_OFFSET".into(), OFFSET.to_string()),
        ("TRAY_VERSION".into(), format!("{:?}", env!("CARGO_PKG_VERSION"))),
        ("TRAY_VERSION_MAJOR".into(), env!("CARGO_PKG_VERSION_MAJOR").into()),
        ("TRAY_VERSION_MINOR".into(), env!("CARGO_PKG_VERSION_MINOR").into()),
        ("TRAY_VERSION_PATCH".into(), env!("CARGO_PKG_VERSION_PATCH").into()),
    ];
    let mut add = |prefix: &str, variant: String, number: u64| {
        wanted.push((format!("TRAY_{prefix}{}", shouted(&variant)), number.to_string()));
    };
    Operator::ALL.iter().for_each(|operator| add("OP_", format!("{operator:?}"), operator.number()));
    Gravity::ALL[1..].iter().for_each(|gravity| add("", format!("{gravity:?}"), gravity.number()));
    Fault::ALL.iter().for_each(|fault| add("", format!("{fault:?}"), fault.number()));
    let none = Flags { tile: false, overlay: false, channels: [false; 4] };
    add("", "Tile".into(), Flags { tile: true, ..none }.number() as u64);
    add("", "Overlay".into(), Flags { overlay: true, ..none }.number() as u64);
    for (k, channel) in ["Red", "Green", "Blue", "Alpha"].iter().enumerate() {
        let mut flags = none;
        flags.channels[k] = true;
        add("", channel.to_string(), flags.number() as u64);
    }
    let header = constants();
    for (name, value) in &wanted {
        assert_eq!(header.get(&name[..]), Some(&&value[..]), "{name}");
    }
    let columns = header.keys().filter(|name| name.starts_with("TRAY_COLUMN_")).count();
    assert_eq!(
        (columns, header.len()),
        (COLUMNS, wanted.len() + COLUMNS),
        "the header has constants that the crate has not"
    );
}

/// The header's comment lists exactly the operators with arguments, each argument with its default, as the table has them.
#[test]
fn the_same_arguments() {
    let line = |operator: Operator| {
        let arguments = operator.arguments().iter().map(|a| format!("{} ({})", a.meaning, a.default));
        format!(" *   {:<12} {}", operator, arguments.collect::<Vec<_>>().join("; "))
    };
    let with_arguments = Operator::ALL.into_iter().filter(|operator| !operator.arguments().is_empty());
    let wanted: Vec<String> = with_arguments.map(line).collect();
    let list = HEADER.lines().skip_while(|line| !line.starts_with("/* The operators")).skip_while(|line| *line != " *");
    let list: Vec<&str> = list.skip(1).take_while(|line| *line != " *").collect();
    assert_eq!(list, wanted);
}

/// The header's list of aliases is the table's, in its order.
#[test]
fn the_same_aliases() {
    let aliases = Operator::ALL.into_iter().flat_map(Operator::aliases).copied();
    let wanted = format!(" *    {}", aliases.collect::<Vec<_>>().join(" "));
    assert!(HEADER.lines().any(|line| line == wanted), "{wanted}");
}
