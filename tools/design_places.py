#!/usr/bin/env python3
# Lists the places in crates/*/src that docs/DESIGN-PASS.md counts: `tools/design_places.py` prints how many there are of each
# sort, `tools/design_places.py 3` the places of point 3 themselves.
import collections
import pathlib
import re
import sys

ROOT = pathlib.Path(__file__).resolve().parent.parent
SORTS = [
    ('1', 'own enums', r'^(pub )?enum \w+'),
    ('1', 'fields that hold a flag, a kind or a refusal as a number', r'^ +(pub )?(number|reason|found|more|due|table|kind): (u64|usize|bool),$'),
    ('1', 'functions that take a kind as a number', r'fn \w+.*\bkind: u64'),
    ('1', 'functions that answer a kind, a refusal or nothing as a number', r'fn \w*(number|kind|reason|comment_at|past_at|character|followed|wide_at|to_digit)\w*\(.*-> (u64|usize)$'),
    ('1', 'refusals by number', r'\breturn (numbers::[A-Z]|refused\(|refusal\()|Request::Refused\(n'),
    ('2', 'a match handed on where it missed', r'Match::Missed\(f\) => Match::Missed\(f\)'),
    ('2', 'values kept where a match took', r'fn (kept_\w+|tagged|described)\('),
    ('2', 'records of a match and what it says', r'^(pub )?struct (\w+Match|Leaf|Pair|Label|Braces|Header)\b'),
    ('3', 'loops that are no `for`', r'^ +(while|loop)\b'),
    ('4', 'comparisons written out', r'\{ true \} else|\} else \{ false \}|fn (same|or|between|closes)\('),
    ('4', 'tests against an empty branch', r'if [\w.]+ \{\} else'),
    ('4', 'values taken apart to be built anew', r'^ +(door|counts|width|placed|chunks|start|here): \w+\.\w+,$|let (door|counts|here) = n\.'),
    ('5', 'parameters that travel together: the five tables', r'^ +(declarations|fields|tags|constraints|comments): &(mut )?\[u64\],'),
    ('6', 'a page and the place on it', r'page: &mut \[u8\]'),
    ('7', 'a switch on a kind or a rule', r'match (kind|rule|byte) \{|if (kind|class) == '),
]


def lines():
    for file in sorted(ROOT.glob('crates/*/src/*.rt')):
        for number, line in enumerate(file.read_text().split('\n'), 1):
            if not line.lstrip().startswith('//'):
                yield file.relative_to(ROOT / 'crates'), number, line


def functions():
    """Each function's name and the shape of its body: its words but for names, texts and numbers."""
    for file in sorted(ROOT.glob('crates/*/src/*.rt')):
        text = re.sub(r'//.*', '', file.read_text())
        for found in re.finditer(r'\n( *)(?:pub )?(?:extern "C" )?fn (\w+)[^;]*?\n\1\{\n(.*?)\n\1\}', text, re.S):
            body = re.sub(r'b?"[^"]*"|b\'.\'|\b\d+\b', '#', found.group(3))
            shape = re.sub(r'\b(?!let|mut|if|else|match|return|loop|while|for|in)[A-Za-z_]\w*(::\w+)*', 'x', body)
            yield f'{file.relative_to(ROOT / "crates")}:{found.group(2)}', re.sub(r'\s+', ' ', shape)


def twins():
    groups = collections.defaultdict(list)
    for name, shape in functions():
        if len(shape) > 60:
            groups[shape].append(name)
    return [names for names in groups.values() if len(names) > 1]


def asked():
    """What three or more functions ask of their callers in the same words."""
    counts = collections.Counter()
    for _, _, line in lines():
        found = re.match(r' +requires (.*)', line)
        if found:
            counts[found.group(1)] += 1
    return [(fact, n) for fact, n in counts.items() if n > 2]


def main():
    wanted = sys.argv[1:]
    for point, sort, pattern in SORTS:
        found = [(f, n, line) for f, n, line in lines() if re.search(pattern, line)]
        if not wanted or point in wanted:
            print(f'{point}  {len(found):4}  {sort}')
        if point in wanted:
            for f, n, line in found:
                print(f'          {f}:{n}: {line.strip()}')
    if not wanted or '2' in wanted:
        groups = twins()
        print(f'2  {sum(map(len, groups)):4}  functions of one shape with another, in {len(groups)} groups')
        for names in groups if wanted else []:
            print('          ' + ', '.join(names))
    if not wanted or '5' in wanted:
        facts = asked()
        print(f'5  {sum(n for _, n in facts):4}  clauses that three or more functions ask in the same words, {len(facts)} facts')
        for fact, n in facts if wanted else []:
            print(f'          {n} times {fact}')


if __name__ == '__main__':
    main()
