#!/usr/bin/env python3
"""Counts, in the sources of a commit or of the work tree, the places that docs/DESIGN-PASS.md speaks of.

    tools/forms.py [COMMIT] [--list]

Each line has the count and what is counted; with --list the places follow. It reads text, so it finds candidates:
whether one is a place, the page says. Bodies of one short expression do not count as the same shape.
"""
import re
import subprocess
import sys

ENUM = re.compile(r'^\s*(?:pub(?:\(crate\))? )?enum (\w+)')
LOOP = re.compile(r'^\s*(for|while|loop)\b')
INDEXED = re.compile(r'^\s*for (\w+) in ([^;{]*\.\.[^;{]*)\{')
FN = re.compile(r'\bfn (\w+)')


def git(*words):
    return subprocess.run(['git', *words], capture_output=True, text=True, check=True).stdout


def sources(commit):
    if commit:
        names = git('ls-tree', '-r', '--name-only', commit, 'crates').split('\n')
    else:
        names = git('ls-files', '-co', '--exclude-standard', 'crates').split('\n')
    for name in names:
        if re.fullmatch(r'crates/\w+/src/.*\.rt', name):
            try:
                yield name, git('show', f'{commit}:{name}') if commit else open(name).read()
            except FileNotFoundError:
                pass


def functions(text):
    """Each function: its line, name, parameters, clauses, and body."""
    for m in FN.finditer(text):
        if text[text.rfind('\n', 0, m.start()) + 1:m.start()].strip().startswith('//'):
            continue
        i = text.find('(', m.end())
        # the parameters' bracket is the first after the type parameters
        depth, j = 0, m.end()
        if j < len(text) and text[j] == '<':
            while True:
                if text[j] == '<':
                    depth += 1
                if text[j] == '>' and text[j - 1] != '-':
                    depth -= 1
                    if depth == 0:
                        break
                j += 1
            i = text.find('(', j)
        depth, k = 0, i
        while k < len(text):
            depth += {'(': 1, ')': -1}.get(text[k], 0)
            if depth == 0:
                break
            k += 1
        end = text.find('\n}', k)
        brace = re.search(r'^ *\{$|\{$|;$', text[k:], re.M)
        head = text[k:k + (brace.start() if brace else 0)]
        close = re.compile(r'^' + re.match(r' *', text[text.rfind('\n', 0, m.start()) + 1:]).group() + r'\}', re.M).search(text, k)
        body = text[k + len(head):close.start() if close else len(text)]
        yield text.count('\n', 0, m.start()) + 1, m.group(1), text[i + 1:k], head, body


def places(commit):
    found = {}

    def put(key, name, line, what):
        found.setdefault(key, []).append(f'{name}:{line}: {what}')

    facts, repeats = {}, {}
    for name, text in sources(commit):
        for n, row in enumerate(text.split('\n'), 1):
            code = row.split('//')[0]
            if m := ENUM.match(code):
                put('1a own enums', name, n, m.group(1))
            if re.search(r'-> (?:\w+::)*Result<.*, (?:usize|u8|u32|u64)>', code):
                put('1b results whose error is a bare number', name, n, code.strip())
            if re.search(r'\b\w+: bool\b', code):
                put('1c flags as parameters or fields', name, n, code.strip())
            if re.match(r'\s*(Ok|Some)\((\w+)\) => (Ok|Some|\w+)\b', code) or re.match(r'\s*(Err|None)(\(\w+\))? => (return )?(Err|None|unreachable)', code):
                put('1d arms that hand a Some, Ok, None or Err on by hand', name, n, code.strip())
            if INDEXED.match(code) and '[' not in code:
                put('3a loops over a range of numbers', name, n, code.strip())
            if re.match(r'\s*(while|loop)\b', code):
                put('3b while and loop', name, n, code.strip())
            if re.match(r'\s*[\w.]+ \+= 1;|\s*\w+ = \w+\.next\(\w+\);', code):
                put('3c counters and steps by hand', name, n, code.strip())
        for line, fn, params, head, body in functions(text):
            if re.search(r'\bk(ind)?: &', params) and 'dimension: Dimension' in params:
                put('5a functions with a kind and a dimension', name, line, fn)
            if len(re.findall(r'\b(?:source|target|work|one|two): &', params)) >= 2:
                put('5b functions with two or more of source, target, work, one, two', name, line, fn)
            if re.search(r'\bout: &mut FileText', params) and re.search(r'\bat: usize', params):
                put('6a a lent text with its length beside', name, line, fn)
            if re.search(r'\brows: &', params) and re.search(r'\bterms: &', params):
                put('6b rows and terms side by side', name, line, fn)
            if re.search(r'\bline: &\[i64\]', params) and re.search(r'\b(?:i|from|entries): usize', params):
                put('6c numbers by their index', name, line, fn)
            if re.search(r'\b(reading|operation|solve): (Reading|Operation|bool)', params):
                put('7 functions with a switch on the step to run', name, line, fn)
            for fact in re.findall(r'requires(?: \w+)? \{ (.*) \}', head):
                for part in re.split(r' × ', fact.replace('(', '').replace(')', '')):
                    facts.setdefault(re.sub(r'\b\w+(\.\w+)* ≤ (?=16384)', 'at ≤ ', part), []).append(f'{name}:{line}: {fn}')
            for m in re.finditer(r'ensures (\w+) \{ (\w+\.new\.\w+\.now ≡ \w+\.old\.\w+\.now) \}', head):
                facts.setdefault(m.group(2).replace('self', 'reader'), []).append(f'{name}:{line}: {fn}')
            shape = re.sub(r'\s+', ' ', re.sub(r'\b[a-z_]\w*\b|\d+', 'x', body)).strip()
            if len(shape) > 40:
                repeats.setdefault(shape, []).append(f'{name}:{line}: {fn}')
            if re.search(r'fn (of|read|pair|number|misfit)\b', f'fn {fn}') and '-> ' in head:
                put('4a conversions under a name of their own', name, line, fn)
            if fn in ('same', 'shown'):
                put('4b equality and printing under a name of their own', name, line, fn)
    for shape, where in repeats.items():
        if len(where) > 1:
            for w in where:
                found.setdefault('2 functions of the same shape as another', []).append(w)
    for fact, where in facts.items():
        if len(where) > 2:
            for w in where:
                found.setdefault('5c contracts with a fact that three or more have', []).append(f'{w}: {fact}')
    return found


def main():
    words = [w for w in sys.argv[1:] if not w.startswith('--')]
    found = places(words[0] if words else None)
    for key in sorted(found):
        print(f'{len(found[key]):4} {key}')
        if '--list' in sys.argv:
            for place in found[key]:
                print(f'       {place}')


if __name__ == '__main__':
    main()
