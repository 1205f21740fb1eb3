#!/usr/bin/env python3
"""Turns the repository's own definitions, fields, constructors and lemmas to the spelling of the toolchain.

    python3 tools/respell.py            # writes
    python3 tools/respell.py --report   # says what would be renamed, and which new names stand in a file already

Run once, after the toolchain's own port.py and before any edit by hand. Words of a name are joined by `_`, types and
facts are in upper camel case. A dash stays where a lemma is named by its left side (`length-outputs`), and in the names
that Rattle makes. Functions of src/, strings, inputs and outputs keep their names. Names are turned in .antt files, in
the code of .rt files (not in strings; in comments only between backticks), and in must-fail edits.
"""
import glob
import os
import re
import sys

TOP = os.path.join(os.path.dirname(os.path.abspath(__file__)), '..')

# lemmas that are named by their left side: the dash stays after the head
LEFT_SIDES = {
    'length-if': 'length-if', 'length-outputs': 'length-outputs', 'length-with-bit': 'length-with_bit',
    'length-with-number': 'length-with_number', 'getD-outputs': 'get_or-outputs', 'sum-take': 'sum-take',
    'sum-take-more': 'sum-take_more', 'total-append': 'total-append', 'total-more': 'total-more',
}

# a lemma whose new spelling is a field's name in the same file
TAKEN = {'first-is': 'offset_is'}

# a fact that port.py turned for its small letters, and a variable that a clause binds
LATER = {'Goes_on': 'GoesOn', 'first-answer': 'first_answer'}

# names that port.py turned already, since a library had the same spelling; must-fail edits have them in the old one
TURNED = '''after-block all-lines and-assoc and-then arg-is as-many as-number at-entry at-first at-here at-most at-other
at-place at-same at-width back-fits bin-ind bit-at bit-in bits-inside block-none block-within both-of bound-of built-in
by-all by-count by-mode by-place by-width byte-at bytes-fit bytes-small calls-are cells-of clear-none clear-within
code-by code-is code-of covers-more data-is depth-is depth-small each-more end-line end-read entry-of exit-by fed-by
filled-more flag-at flag-is found-at found-here found-inside from-end from-some go-on goes-on high-end holds-more
holds-same in-both in-order inner-bound inputs-are keeps-on keeps-same left-join left-out line-at line-effect line-read
lines-are lines-at lines-from lines-join low-end made-then marked-more mask-is minus-one name-of named-by next-low
next-place no-block no-cell no-change no-deeper no-less no-line no-other no-own no-step no-steps no-way none-above
none-below none-left none-over none-yet not-own not-so number-in number-is number-of one-at-most one-left one-line
one-more one-of one-of-three open-after open-at open-more open-next others-same part-bytes part-end part-of part-pair
place-of put-same read-at rest-more runs-on same-bit same-effect same-length set-after set-on signed-is size-of some-end
some-same start-of step-down step-same step-small steps-alike sum-wraps to-end turn-in two-back two-bytes with-number
with-unit within-more zero-bit all-plain by-total by-way'''.split()

NAME = r"[A-Za-zℕℤ][A-Za-z0-9_'ℕℤ]*(?:-[A-Za-z0-9_'ℕℤ]+)*"
TOKEN = re.compile(NAME)


def respelled(name):
    """The name in the toolchain's spelling."""
    if name in LEFT_SIDES.values():
        return name
    if name in LEFT_SIDES or name in TAKEN:
        return LEFT_SIDES.get(name) or TAKEN[name]
    words = name.split('-')
    if words[0] == 'Bad':  # a fact named by an adjective; the bare word is a refusal's
        words = ['Is'] + words
    if name[0].isupper() and not name.replace('-', '').isupper():
        return ''.join(word[0].upper() + word[1:] for word in words)
    return '_'.join(words)


def declared():
    """The names with a dash that specs/ and proofs/ declare; goals, which Rattle names, are left out."""
    names = set()
    for path in antt_files():
        for line in open(path, encoding='utf-8'):
            line = re.sub(r'--.*', '', line.rstrip('\n'))
            head = re.match(r'\s*(?:pub )?(?:data|record)\s+(?:pub )?([^\s:(){}]+)', line)
            term = re.match(r'\s*(?:abbrev |unfoldable |pub |ruleset )*((?:[^\s:(){}=]+\s+)*[^\s:(){}=]+)\s*:\s+(\S*)', line)
            if head:
                names.add(head.group(1))
            elif term and not term.group(2).startswith(('goal.', 'need.')):
                names.update(term.group(1).split())
    return {name for name in names if '-' in name and '◌' not in name}


def antt_files():
    return sorted(glob.glob(os.path.join(TOP, 'crates/*/specs/**/*.antt'), recursive=True)
                  + glob.glob(os.path.join(TOP, 'crates/*/proofs/**/*.antt'), recursive=True))


def turn_tokens(text, names):
    return TOKEN.sub(lambda m: names.get(m.group(0), m.group(0)), text)


def turn_comment(text, names):
    return re.sub(r'`[^`]*`', lambda m: turn_tokens(m.group(0), names), text)


def turn_antt(text, names):
    lines = []
    for line in text.split('\n'):
        code, dashes, comment = line.partition('--')
        lines.append(turn_tokens(code, names) + dashes + turn_comment(comment, names))
    return '\n'.join(lines)


STRING_OR_COMMENT = re.compile(r'"(?:\\.|[^"\\])*"|//[^\n]*|\'(?:\\.|[^\'\\\n])\'')


def turn_rt(text, names):
    out, at = [], 0
    for m in STRING_OR_COMMENT.finditer(text):
        out.append(turn_tokens(text[at:m.start()], names))
        out.append(turn_comment(m.group(0), names) if m.group(0).startswith('//') else m.group(0))
        at = m.end()
    out.append(turn_tokens(text[at:], names))
    return ''.join(out)


def main():
    report = '--report' in sys.argv[1:]
    names = {name: respelled(name) for name in declared()}
    names = {old: new for old, new in names.items() if old != new}
    names.update(LATER)
    fresh = {}
    for old, new in names.items():
        fresh.setdefault(new, []).append(old)
    for new, olds in sorted(fresh.items()):
        if len(olds) > 1:
            print('fall together:', new, olds)
    edits = dict(names)
    edits.update({name: name.replace('-', '_') for name in TURNED})
    rt_files = sorted(glob.glob(os.path.join(TOP, 'crates/*/src/**/*.rt'), recursive=True))
    left = set()
    edit_files = sorted(glob.glob(os.path.join(TOP, 'crates/*/must-fail/*.edit')))
    for path in antt_files() + rt_files + edit_files:
        text = open(path, encoding='utf-8').read()
        if path.endswith('.antt'):
            new_text = turn_antt(text, names)
        elif path.endswith('.rt'):
            new_text = turn_rt(text, names)
        else:
            new_text = turn_rt(text, edits)
        if new_text == text:
            continue
        if report:
            before = set(TOKEN.findall(text))
            left |= before & set(edits)
            here = {old: new for old, new in names.items() if old in before and new in before}
            for old, new in sorted(here.items()):
                print(f'{os.path.relpath(path, TOP)}: {old} becomes {new}, which stands there already')
        else:
            open(path, 'w', encoding='utf-8').write(new_text)
    if report:
        print(len(left), 'names')


if __name__ == '__main__':
    main()
