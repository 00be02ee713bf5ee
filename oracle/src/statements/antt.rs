//! A call and what it must show, written as a statement in antt.

use super::Call;
use crate::call::{Filter, Join, Settings};
use crate::expected::Expected;
use crate::lent::{Buffers, NAMES};
use std::fmt::Display;

/// The head of a file of statements, for a crate that uses crate `worked`.
pub const HEAD: &str = "\
-- Calls with what the Rust, or document 01 where it refuses them, makes of them. Written by `oracle statements`.
use Rattle.std.specs.Prelude.{None, Some}
use mathlib.Core.Path.{◌≡◌, refl}
use mathlib.Core.Bool.{true, false}
use mathlib.Core.List.{List, [], ◌∷◌}
use Prim.Native.Nat.{ℕ}
use lib.IntN.{pos, negsuc}
use Rattle.lpc.specs.declared.ResynthType.TheVariants.{Fixed, Float}
use Rattle.call.specs.declared.JoinType.TheVariants.{None, Simple, ModifiedLpc}
use Rattle.call.specs.declared.Settings.{Settings}
use Rattle.call.specs.Buffers.{Buffers}
use Rattle.worked.specs.Tried.{tried}
";

/// One statement with all that it names.
pub fn statement(number: u64, about: &str, call: &Call, shown: &Expected) -> String {
    let n = number;
    let [voice, sheet] = [&call.voice, &call.sheet].map(|bytes| list(bytes));
    let settings = settings(call.settings);
    let buffers = buffers(&call.lent);
    let slices = lists(&call.slices, |byte| byte.to_string());
    let shown = result(shown);
    format!(
        "
-- c{n}: {about}
abbrev v{n} : List ℕ
v{n} = {voice}

abbrev s{n} : List ℕ
s{n} = {sheet}

abbrev o{n} : Settings
o{n} = {settings}

abbrev b{n} : Buffers
b{n} = {buffers}

abbrev ds{n} : List (List ℕ)
ds{n} = {slices}

c{n} : tried v{n} s{n} o{n} b{n} ds{n} ≡ {shown}
unfolding tried
c{n} = refl
"
    )
}

fn settings(settings: Settings) -> String {
    let join = match settings.join {
        Join::None => "None",
        Join::Simple => "Simple",
        Join::Modified => "ModifiedLpc",
    };
    let filter = match settings.filter {
        Some(Filter::Fixed) => "Some Fixed",
        Some(Filter::Float) => "Some Float",
        None => "None",
    };
    let Settings { fold, strict, .. } = settings;
    format!("record {{ join = {join}; filter = {filter}; fold = {fold}; strict = {strict} }}")
}

fn buffers(buffers: &Buffers) -> String {
    let fields = NAMES.iter().zip(buffers);
    let fields: Vec<String> = fields
        .map(|(name, bytes)| format!("{name} = {}", list(bytes)))
        .collect();
    format!("record {{ {} }}", fields.join("; "))
}

fn result(shown: &Expected) -> String {
    let answer = shown.number;
    let summary = list(&shown.summary);
    let buffers = buffers(&shown.buffers);
    let periods = lists(&shown.periods, |sample| integer((*sample).into()));
    let pull =
        |(number, slice): &(i64, Vec<u8>)| format!("({}, {})", integer(*number), list(slice));
    let pulled = joined(shown.pulled.iter().map(pull));
    format!(
        "record {{ answer = {answer}; summary = {summary}; buffers = {buffers}; \
         periods = {periods}; pulled = {pulled} }}"
    )
}

/// An integer as one of the two constructors of ℤ.
fn integer(number: i64) -> String {
    match number {
        0.. => format!("pos {number}"),
        _ => format!("negsuc {}", -1 - number),
    }
}

fn list<T: Display>(items: &[T]) -> String {
    joined(items.iter().map(T::to_string))
}

fn lists<T>(items: &[Vec<T>], shown: impl Fn(&T) -> String) -> String {
    joined(items.iter().map(|inner| match inner.is_empty() {
        true => "[]".to_string(),
        false => format!("({})", joined(inner.iter().map(&shown))),
    }))
}

fn joined(items: impl Iterator<Item = String>) -> String {
    let mut text: String = items.map(|item| item + " ∷ ").collect();
    text.push_str("[]");
    text
}
