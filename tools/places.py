#!/usr/bin/env python3
"""Lists the places in crates/*/src that today's forms may do better, point by point.

    python3 tools/places.py [POINT ..] [--counts]      in a checkout, at its top

It goes by text and by the shape of functions, so it finds too much rather than too little: docs/DESIGN-PASS.md
says of each place that is left why it stays.
"""
import collections
import glob
import re
import sys

KEYWORDS = set(
    'as break const continue crate else enum false fn for if impl in let loop match mod move mut pub ref return self Self '
    'static struct super trait true type use where while ensures requires ghost'.split()
)
TOKEN = re.compile(r'"(?:\\.|[^"\\])*"|\'[^\']\'|\w+|[^\s\w]')


def without_comments(text):
    return re.sub(r'//[^\n]*', '', text)


class Function:
    def __init__(self, file, line, name, head, clauses, body):
        self.file, self.line, self.name, self.head, self.clauses, self.body = file, line, name, head, clauses, body

    def __str__(self):
        return '%s:%d %s' % (self.file, self.line, self.name)

    def parameters(self):
        inside = self.head[self.head.index('(') + 1:]
        return re.findall(r'(?:mut )?(\w+): (&?(?:mut )?[\w:<>\[\];, ]+?)(?=,? *(?:\w+:|\)|$))', ' '.join(inside.split()))


def closing(text, at, opening, ending):
    depth = 0
    for i in range(at, len(text)):
        if text[i] == opening:
            depth += 1
        elif text[i] == ending:
            depth -= 1
            if depth == 0:
                return i
    return len(text) - 1


def functions(file, text):
    for m in re.finditer(r'\bfn (\w+)', text):
        start = text.find('(', m.end())
        at = closing(text, start, '(', ')') + 1
        head_end = at
        clauses = []
        while True:
            rest = text[at:]
            brace = re.search(r'[{;]', rest)
            if not brace or brace.group() == ';':
                body = ''
                break
            open_at = at + brace.start()
            between = text[at:open_at]
            clause = re.search(r'\b(requires|ensures|ghost)\b[*\w ]*:?\s*$', between)
            end = closing(text, open_at, '{', '}')
            if clause:
                clauses.append((clause.group(1), ' '.join(text[open_at + 1:end].split())))
                at = end + 1
                continue
            head_end = max(head_end, at) if clauses else open_at
            body = text[open_at:end + 1]
            break
        head = text[m.start():head_end] if not clauses else text[m.start():text.find(clauses and 'requires' or '{', m.start())]
        yield Function(file, text.count('\n', 0, m.start()) + 1, m.group(1), text[m.start():at if clauses else head_end], clauses, body)


def shape(body):
    out = []
    for token in TOKEN.findall(body):
        if token[0] == '"':
            out.append('s')
        elif re.match(r'\d', token):
            out.append('0')
        elif re.match(r'\w', token) and token not in KEYWORDS:
            out.append('i')
        else:
            out.append(token)
    return tuple(out)


def lines(files, pattern):
    found = []
    for file, text in files:
        for number, line in enumerate(text.split('\n'), 1):
            if re.search(pattern, line):
                found.append('%s:%d %s' % (file, number, line.strip()))
    return found


def main():
    wanted = [int(a) for a in sys.argv[1:] if a.isdigit()] or list(range(1, 9))
    counts = '--counts' in sys.argv
    files = [(f, without_comments(open(f).read())) for f in sorted(glob.glob('crates/*/src/**/*.rt', recursive=True))]
    all_functions = [f for file, text in files for f in functions(file, text)]
    found = collections.OrderedDict()

    if 1 in wanted:
        found[1, 'a flag as a field'] = lines(files, r'^\s*(pub(\(crate\))? )?\w+: bool,$')
        found[1, 'a bool beside a lent place'] = [str(f) for f in all_functions if '&mut' in f.head.split('->')[0] and re.search(r'-> bool', f.head)]
        found[1, 'a number that stands for none'] = lines(files, r'const (NEVER|NONE|BEHIND|NOWHERE)\b|_ => 0,|=> \(0, 0\)|None => 0\b|unwrap_or\((0|NEVER|PLACES)\)|else \{ 0 \}|return 0;|> 0 &&|== 0\b')
        found[1, 'a number for a kind, a refusal or a tag'] = lines(files, r'fn number\(&self\) -> u8|const NUMBER: u8|^\s*\d+ => "|^\s*\d+ => \(?check|(kind|byte\(.*\)) == \w+::NUMBER')
        found[1, 'a match that an Option or a Result has a method for'] = lines(files, r'None => None,|Ok\((\w+)\) => Ok\(\1\)|Err\((\w+)\) => Err\(\2\)|Ok\(\(\)\) => \(0,|None => \(0, 0\)|None => (0|true|false),')
    if 2 in wanted:
        groups = collections.defaultdict(list)
        for f in all_functions:
            if len(shape(f.body)) >= 14:
                groups[shape(f.body)].append(f)
        found[2, 'functions of one shape'] = [' = '.join(str(f) for f in g) for g in groups.values() if len(g) > 1]
    if 3 in wanted:
        found[3, 'a loop over numbers'] = lines(files, r'\bfor \w+ in (\(?[\w.]+)?\(?\w*\.\.')
        found[3, 'a place counted by hand'] = lines(files, r'^\s*\w+ (\+|-)= (1|ITEM|\w+ \+ 1);|= \w+\.(saturating|wrapping)_add\(1\);|\bwhile\b')
        found[3, 'a bound asked and then an index'] = lines(files, r'if \(?\w+( as usize\))? < (\w+\.len\(\)|[A-Z_]+) ?\{?')
    if 4 in wanted:
        found[4, 'a cast'] = lines(files, r'\bas (u8|u16|u32|u64|usize|i32|i64)\b')
        found[4, 'a type with the least derives'] = lines(files, r'^#\[derive\((Clone, Copy|Clone, Copy, PartialEq)\)\]$')
        found[4, 'a conversion, comparison or printing by a function'] = lines(files, r'\bfn (unsigned|signed|two_bytes|four_bytes|lasting|first_line|longer|number)\(')
    if 5 in wanted:
        facts = collections.defaultdict(list)
        for f in all_functions:
            for kind, clause in f.clauses:
                if kind == 'requires':
                    facts[re.sub(r'\b\w+\.(now|old)\b', 'x', clause)].append(f)
        found[5, 'a fact that three contracts ask'] = ['%s: %s' % (clause, ', '.join(str(f) for f in g)) for clause, g in facts.items() if len(g) >= 3]
        together = collections.defaultdict(list)
        for f in all_functions:
            p = sorted(set(f.parameters()))
            for i in range(len(p)):
                for j in range(i + 1, len(p)):
                    together[p[i], p[j]].append(f)
        found[5, 'parameters that travel together'] = ['%s: %s with %s: %s: %d functions' % (a[0], a[1], b[0], b[1], len(g)) for (a, b), g in together.items() if len(g) >= 3]
    if 6 in wanted:
        found[6, 'a buffer with a length beside'] = lines(files, r'^\s*(pub(\(crate\))? )?(len|count): \w+,$')
        found[6, 'two tables by one place'] = [str(f) for f in all_functions if len(re.findall(r'&(?:mut )?\[[^\]]+\]', f.head.split('->')[0])) >= 2]
        found[6, 'a number of a row, an entry or a place that is kept'] = lines(files, r'^\s*\w+\((u16|usize)(, (u16|usize))*\),$|row as usize \*')
    if 7 in wanted:
        found[7, 'a switch on which step to run'] = [str(f) for f in all_functions if re.search(r'match \*?\w+ \{(\s*\w+::\w+ => [\w.]+\([^()]*\),)+\s*\}', f.body)]
    if 8 in wanted:
        answers = sum(len(re.findall(r'^pub [^\n]* : goal\.', open(p).read(), re.M)) for p in glob.glob('crates/*/proofs/**/Answers.antt', recursive=True))
        written = sum(open(p).read().count('\n') for p in glob.glob('crates/*/proofs/**/*.antt', recursive=True))
        found[8, 'answers: %d; lines of proofs: %d' % (answers, written)] = []

    for (point, what), places in found.items():
        print('%d %s: %d' % (point, what, len(places)))
        if not counts:
            for place in places:
                print('    ' + place)


main()
