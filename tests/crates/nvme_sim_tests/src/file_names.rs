// The files that the words of the program name.
use crate::again::words_again;
use nvme_sim::{file_named, output_named};
use std::alloc::{AllocError, Global};
use std::process::Abort;
use std::test::*;

// The file that the words name.
fn named_again<'a>(alloc: Global, words: &'a [String]) -> Result<Option<&'a str>, AllocError> {
    if let Ok(named) = file_named(alloc, words) {
        return Ok(named);
    }
    let named = file_named(alloc, words)?;
    Ok(named)
}

// The words name this file.
fn names<R: Abort>(
    rt: &R,
    alloc: Global,
    line: &[&str],
    want: Option<&str>,
) -> Result<(), AllocError> {
    let words = words_again(alloc, line)?;
    let named = named_again(alloc, words.as_slice())?;
    assert_eq!(rt; named, want, "{line:?}");
    Ok(())
}

// The file for the output that the words name.
fn output_again<'a>(alloc: Global, words: &'a [String]) -> Result<Option<&'a str>, AllocError> {
    if let Ok(named) = output_named(alloc, words) {
        return Ok(named);
    }
    let named = output_named(alloc, words)?;
    Ok(named)
}

// The words name this file for the output.
fn names_output<R: Abort>(
    rt: &R,
    alloc: Global,
    line: &[&str],
    want: Option<&str>,
) -> Result<(), AllocError> {
    let words = words_again(alloc, line)?;
    let named = output_again(alloc, words.as_slice())?;
    assert_eq!(rt; named, want, "{line:?}");
    Ok(())
}

#[test]
fn named_outputs(rt: HostRuntime) -> Result<(), Fail> {
    let alloc = rt.alloc();
    names_output(
        &rt,
        alloc,
        &["nvmearb", "chart", "-o", "a.svg"],
        Some("a.svg"),
    )?;
    names_output(
        &rt,
        alloc,
        &["nvmearb", "chart", "a.json", "--output=b"],
        Some("b"),
    )?;
    names_output(&rt, alloc, &["nvmearb", "chart", "-o", "-"], None)?;
    names_output(&rt, alloc, &["nvmearb", "chart", "a.json"], None)?;
    names_output(&rt, alloc, &["nvmearb", "stats", "a.json"], None)?;
    names_output(&rt, alloc, &["nvmearb"], None)?;
    Ok(())
}

#[test]
fn named_files(rt: HostRuntime) -> Result<(), Fail> {
    let alloc = rt.alloc();
    names(&rt, alloc, &["nvmearb", "run", "a.toml"], Some("a.toml"))?;
    names(&rt, alloc, &["nvmearb", "run", "--live", "-"], None)?;
    names(&rt, alloc, &["nvmearb", "lint", "lint"], Some("lint"))?;
    names(&rt, alloc, &["nvmearb", "check", "a.json"], Some("a.json"))?;
    names(&rt, alloc, &["nvmearb", "trace", "a.toml"], Some("a.toml"))?;
    names(&rt, alloc, &["nvmearb", "chart", "-"], None)?;
    names(&rt, alloc, &["nvmearb", "stats"], None)?;
    names(&rt, alloc, &["nvmearb", "run"], None)?;
    names(&rt, alloc, &["nvmearb", "run", "a.toml", "--help"], None)?;
    names(&rt, alloc, &["nvmearb", "loaded", "--workers", "2"], None)?;
    names(&rt, alloc, &["nvmearb"], None)?;
    Ok(())
}
