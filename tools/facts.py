# Prints each conjunct of a `requires` in src/ that stands in three functions or more, as COUNT FACT | FUNCTIONS.
import collections, glob, re

where = collections.defaultdict(list)
for path in sorted(glob.glob('crates/*/src/*.rt')):
    text = open(path).read()
    for m in re.finditer(r'fn (\w+)[^{;]*?requires \{(.*?)\}\n', text, re.S):
        for part in re.split(r' × ', m.group(2)):
            fact = re.sub(r'\.(now|old)\b', '', part.strip().strip('()'))
            where[fact].append(path.split('/')[1] + '::' + m.group(1))
for fact, names in sorted(where.items(), key=lambda x: -len(x[1])):
    if len(names) >= 3:
        print(len(names), fact, '|', ' '.join(names))
