#!/usr/bin/env python3
"""design_places.py [COMMIT]: counts in crates/*/src (and, for point 8, crates/*/proofs) the places that docs/DESIGN-PASS.md speaks of, in the work tree or at a
commit. With --list before it, each place is printed too."""
import collections
import re
import subprocess
import sys

arguments = sys.argv[1:]
listing = '--list' in arguments
commit = next((a for a in arguments if not a.startswith('--')), None)


def git(*words):
    return subprocess.run(['git', *words], check=True, capture_output=True, text=True).stdout


def files(pattern):
    """The files of the work tree or of the commit whose names match, each with its text."""
    names = git('ls-tree', '-r', '--name-only', commit).split('\n') if commit else git('ls-files').split('\n')
    for name in names:
        if re.fullmatch(pattern, name):
            yield name, git('show', '%s:%s' % (commit, name)) if commit else open(name).read()


def bare(text):
    return re.sub(r'//[^\n]*', '', text)


sources = [(name, bare(text)) for name, text in files(r'crates/\w+/src/.*\.rt')]
crate = lambda name: name.split('/')[1]
places = collections.OrderedDict()


def place(kind, name, what):
    places.setdefault(kind, []).append('%s: %s' % (name, ' '.join(what.split())[:110]))


def matches(kind, pattern, texts):
    """Each match is a place of this kind."""
    places[kind] = []
    for name, text in texts:
        for m in re.finditer(pattern, text, re.M):
            place(kind, name, m.group(0))


functions = []
for name, text in sources:
    for m in re.finditer(r'^( *)(?:pub )?(?:extern "C" )?fn (\w+)(.*?)\n\1\{\n(.*?)\n\1\}$', text, re.S | re.M):
        functions.append((name, m.group(2), m.group(3), m.group(4)))

# 1. Enums of the shape of Option or Result; numbers for refusals; a flag or a length beside a value
places['1 two-variant enums, one of them or both with a value'] = []
for name, text in sources:
    for m in re.finditer(r'enum (\w+)(?:<[^>]*>)? \{(.*?)\n\}', text, re.S):
        variants = re.findall(r'^    (\w+)( ?[({])?', m.group(2), re.M)
        if len(variants) == 2 and any(v[1] for v in variants):
            place('1 two-variant enums, one of them or both with a value', name, m.group(1))
refusers = 'refused|unread|not_found|not_shown|not_spelt|unsent|refuse_reply|nothing_asked|mend_refused|verdict_of|bare|no_parts'
matches('1 refusals by a numeral', r'\b(?:%s)\(\s*(?:s, )?\d+[^\n]*' % refusers, sources)
matches("1 'number: u64' fields", r'^    pub number: u64', sources)
matches('1 numbers that stand for none (== 0, != 0)', r'\b(?:n|end|error|number|next|dropped|kept) (?:==|!=) 0\b', sources)

# 2. Functions of one text but for names, types and numerals
def skeleton(body):
    seen = {}
    word = lambda m: 'w%d' % seen.setdefault(m.group(0), len(seen))
    return re.sub(r'\s+', ' ', re.sub(r'[A-Za-z_]\w*|\d\w*', word, body))


kinds = collections.defaultdict(list)
for name, function, head, body in functions:
    if body.count('\n') >= 2:
        kinds[skeleton(body)].append('%s %s' % (crate(name), function))
places['2 functions that share their text but for names, types and numerals'] = [', '.join(v) for v in kinds.values() if len(v) > 1]

# 3. Loops
for kind in ['3 while and loop', '3 of these, such as add or take 1 at each turn']:
    places[kind] = []
for name, text in sources:
    for m in re.finditer(r'^( *)(?:while\b[^\n]*|loop) \{\n(.*?)\n\1\}', text, re.S | re.M):
        place('3 while and loop', name, m.group(0).split('\n')[0])
        if re.search(r'[+-]= 1;', m.group(2)):
            place('3 of these, such as add or take 1 at each turn', name, m.group(0).split('\n')[0])

# 4. Conversions by hand
code = [(name, re.sub(r'(?:requires|ensures)\*? \{.*?\}\n', '', text, flags=re.S)) for name, text in sources]
matches('4 casts by as', r'[^\n]*\bas (?:u8|u16|u32|u64|usize|i64)\b', code)
matches('4 arms that turn a variant into a number, or back', r'^ *(?:\w+::\w+ => \d+,|\d+ => (?:Some\()?\w+::\w+\)?,)', code)
matches('4 a choice of two by <', r'if (\w+) < (\w+) \{\s*(?:return )?\w+;?\s*\}', code)

# 5. Facts and parameters that stand together
facts = collections.defaultdict(set)
for name, function, head, body in functions:
    for clause in re.findall(r'requires \{ (.*?) \}\n', head + '\n', re.S):
        for fact in re.split(r' × ', clause):
            fact = re.sub(r'\b(words|suffixes|m|buf|w|s)\.(now|old)\b', r'\1', fact).strip(' ()')
            facts[re.sub(r'\s+', ' ', fact)].add('%s %s' % (crate(name), function))
places['5 facts that three or more functions require'] = ['%s: %d functions' % (f, len(v)) for f, v in sorted(facts.items()) if len(v) >= 3]
pairs = collections.Counter()
for name, function, head, body in functions:
    parameters = re.findall(r'(\w+): ', head.split('->')[0].split('requires')[0])
    for a, b in zip(parameters, parameters[1:]):
        pairs[a, b] += 1
places['5 pairs of parameters that stand side by side in five functions or more'] = ['%s, %s: %d functions' % (a, b, n) for (a, b), n in pairs.most_common() if n >= 5]

# 6. Fixed arrays, spans and lengths
typed = [(name, re.sub(r'= \[[^\n]*', '', text)) for name, text in sources]
matches('6 fixed arrays in types', r'[^\n]*\[u(?:8|64); \w+\]', typed)
matches('6 structs with an array and its length', r'struct \w+ (?=\{(?s:(?:(?!\n\}).)*\[u8; \d+\],(?:(?!\n\}).)*length))', sources)

# 7. Switches on which step to run
places['7 parameters that are closures, dyn values or function pointers'] = ['%s: %s' % (n, m.group(0)) for n, t in sources for m in re.finditer(r'(?:impl Fn|F: Fn|dyn |: fn\()', t)]
places['7 matches on an enum of calls'] = ['%s: %s' % (n, m.group(0)) for n, t in sources for m in re.finditer(r'\b(?:TableCall|ResolverCall|SigningCall|Call|Command)::\w+[^\n]* =>', t)]

# 8. Proofs
proofs = list(files(r'crates/\w+/proofs/.*\.antt'))
answers = [(n, t) for n, t in proofs if n.endswith(('/Answers.antt', '/Invariants.antt'))]
places['8 files of answers and invariants'] = [n for n, t in answers]
places['8 answers'] = [m for n, t in answers for m in re.findall(r'^pub \S+ : goal', t, re.M)]
places['8 lines of proofs'] = [l for n, t in proofs for l in t.split('\n') if l.strip() and not l.startswith('--')]

for kind, found in places.items():
    print('%5d  %s' % (len(found), kind))
    if listing and not kind.startswith('8'):
        for one in found:
            print('         ' + one)
