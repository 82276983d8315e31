"""Counts what a reader has to believe for a claim: the definitions that it is made of, and their lines.

python3 bench/closure.py tg_protocol.specs.Headline.Holds ..

From each name it follows the words of its definition to the definitions that they name, in the same file or by a `use`
line of it. Comments and blank lines aren't counted. Types that are declared in code (`specs.declared`) are counted
apart, by number, and words of the toolchain's own libraries not at all.
"""
import os
import re
import sys

START = re.compile(r'^ *(?:abbrev pub|unfoldable pub|pub record|pub data|abbrev|unfoldable|record|data) ([^\s:({]+)')
USE = re.compile(r'^use Rattle\.(\w+)\.specs\.([\w.]+?)(?:\.\{(.*)\})?(?: as (\w+))?$')
WORD = re.compile(r"[^\s(){}\[\],;.→λ]+(?:\.[^\s(){}\[\],;→λ]+)?")


class Module:
    """A file of specs: its definitions, and what its words name."""

    def __init__(self, crate, name):
        self.blocks, self.names, self.wholes = {}, {}, {}
        last = None
        for line in open(os.path.join('crates', crate, 'specs', name.replace('.', os.sep) + '.antt')):
            line = line.split('--')[0].rstrip()
            use = USE.match(line)
            if use:
                at = '%s.%s' % (use.group(1), use.group(2))
                for item in (use.group(3) or '').split(', '):
                    real, _, short = item.partition(' as ')
                    self.names[short or real] = (at, real)
                if use.group(4):
                    self.wholes[use.group(4)] = at
            elif START.match(line):
                last = START.match(line).group(1)
                self.blocks[last] = [line]
            elif line and last and not line.startswith('module'):
                self.blocks[last].append(line)


def closure(names):
    modules, seen, declared, todo = {}, {}, set(), [tuple(n.rsplit('.', 1)) for n in names]
    while todo:
        at, name = todo.pop()
        crate, _, module = at.partition('.')
        if (at, name) in seen or not os.path.isdir(os.path.join('crates', crate)):
            continue
        if module.startswith('declared'):
            declared.add(at.split('.TheVariants')[0] if 'TheVariants' in at else '%s.%s' % (at, name))
            continue
        if at not in modules:
            modules[at] = Module(crate, module)
        m = modules[at]
        if name not in m.blocks:  # a constructor: its data
            name = next((b for b in m.blocks if any(re.match(r' *%s :' % re.escape(name), l) for l in m.blocks[b][1:])), name)
        if (at, name) in seen or name not in m.blocks:
            continue
        seen[at, name] = len(m.blocks[name])
        for word in set(WORD.findall(' '.join(m.blocks[name]))):
            for part in {word, word.split('.')[0]}:
                if part in m.blocks:
                    todo.append((at, part))
                elif part in m.names:
                    todo.append(m.names[part])
            head, _, rest = word.partition('.')
            if head in m.wholes:
                todo.append((m.wholes[head], rest))
    return seen, declared


def main():
    names = [n.replace('.specs.', '.', 1) for n in sys.argv[1:]]
    seen, declared = closure(names)
    by = {}
    for (at, name), lines in seen.items():
        count = by.setdefault(at, [0, 0])
        count[0] += 1
        count[1] += lines
    for at in sorted(by):
        print('%5d lines %4d definitions  %s' % (by[at][1], by[at][0], at))
    definitions, lines = (sum(b[i] for b in by.values()) for i in (0, 1))
    print('%5d lines %4d definitions, and %d types that are declared in code' % (lines, definitions, len(declared)))


if __name__ == '__main__':
    main()
