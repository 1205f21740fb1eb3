#!/bin/sh
# Lists the places of the forms that docs/DESIGN-PASS.md counts, in the Rust of a commit:
#   sh tools/places.sh COMMIT            how many places each search finds
#   sh tools/places.sh COMMIT NAME       the places that the search of that name finds
commit=${1:?a commit has to be named}
wanted=$2

search() {
    name=$1
    pattern=$2
    if [ -z "$wanted" ]; then
        printf '%-24s %s\n' "$name" "$(git grep -hE "$pattern" "$commit" -- 'crates/*/src/*.rt' | wc -l)"
    elif [ "$wanted" = "$name" ]; then
        git grep -nE "$pattern" "$commit" -- 'crates/*/src/*.rt'
    fi
}

# 1: numbers for kinds, flags with a value beside, own enums
search codes '\bcode (==|!=) [0-9A-Z]|\.code (==|!=) [0-9A-Z]|^ *[0-9]+(\.\.=[0-9]+)?( \| [0-9]+(\.\.=[0-9]+)?)*( if .*)? =>|match (line|pairing)?\.?code'
search code-constants '^pub const [A-Z_0-9]+: (u8|usize) = [0-9]+;'
search modules-by-number 'Module\([0-9]|UnitId::Module\((m|n|module|i|block_module)\)|pass\([^)]*, [0-9]|starts\[[0-9]|leaves_uninitialised\([^)]*, [0-9]|Uninitialised\([0-9]|(module|m): usize|«module» < 7|block_module: usize|0\.\.7'
search widths-by-number 'width: u8|is_width|mode (==|<) [0-9]'
search flags '^ *(pub(\(crate\))? )?[a-z_]+: bool,|let mut [a-z_]+ = false;|\(bool\)'
search enums '^ *(pub(\(crate\))? )?enum '
search results-by-match 'Err\([a-z_]+\) => (return )?Err\(|Ok\([a-z_]+\) => Ok\(|Ok\([a-z_]+\) => [a-z_]+,|None => None|None => return None'
# 3: loops by hand
search loops '^ *for .* in .*\.\.|^ *while |^ *loop \{|\.enumerate\(\)'
search indices-tested '< self\.[a-z_.]+\.len\(\)|>= self\.[a-z_.]+\.len\(\)|>= formed\.[a-z_.]+\.len\(\)|< table\.len\(\)|port < 8|port > 7'
# 4: conversion and printing by hand
search conversions 'fn (number|rule|refusal|call|cells)\(|^impl.* From<| as (usize|u32|u8|u16|i32)\b'
search printing 'fn (write_[a-z]+|[a-z]+_name|sentence|mnemonic)\b'
# 5: facts and parameters that are repeated
search walked 'Walked |Surveyed '
search measure-unit-table 'table: &|steps: &Steps'
search registers-memory 'registers: &(mut )?Registers'
search requires '^ *requires '
search tuples '\(u32, \(i32, i32\)\)|\(i32, i32\)|\(C, Memory, Phase\)|\(C, AllocError\)'
# 6: arrays side by side, tables of a known length
search tables ': Vec<(usize|bool|UnitId)>,|: \[[a-z]+; [0-9]\]'
# 7: which step to run
search tables-of-functions 'fn\(|dyn '
