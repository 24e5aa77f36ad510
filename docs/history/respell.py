#!/usr/bin/env python3
"""Brings the repository's own words to one spelling: a dash inside a name of a definition, lemma, field or variable
becomes an underscore, and a statement or type goes to camel case. Names of the library and names that the checker
makes (goals, steps) keep theirs. Run once at the top, after the kit's own script.

  tools/respell.py [--list]      --list only prints old and new names, and those that fall together
"""
import os, re, subprocess, sys

ROOT = os.path.dirname(os.path.dirname(os.path.abspath(__file__)))
TOP = os.getcwd()
WORD = r"[A-Za-z0-9_'′ℕℤ≤≡<&|+*∷]"
DASHED = re.compile(r"(?<![A-Za-z0-9_'′«-])([A-Za-z_][A-Za-z0-9_'′]*(?:-[A-Za-z0-9_'′<≤+*≡]+)+)(?![A-Za-z0-9_'′-])")
DECLARED = re.compile(r"^\s*(?:(?:pub|abbrev|unfoldable|data|record|syntax)\s+)*([A-Za-z_][^\s(){}:;,.]*)((?:\s+[^\s(){}:;,.]+)*)\s*:\s")
USE = re.compile(r"^\s*(?:pub )?(?:ghost )?use ([^\s{;]+?)(?:\.\{([^}]*)\})?(?: as (\S+))?;?\s*$")
OWN_ONLY = re.compile(r"goal\.|needs\.|tie\.|rules\.")


def files(ending):
    out = subprocess.run(['git', 'ls-files', '-co', '--exclude-standard'], cwd=TOP, capture_output=True, text=True).stdout.split('\n')
    return sorted(os.path.join(TOP, f) for f in out if f.endswith(ending) and os.path.exists(os.path.join(TOP, f)))


def read(path):
    with open(path, encoding='utf-8') as f:
        return f.read()


def own_module(path, crates):
    """Whether an import's path leads to definitions or lemmas of the repository, and not to what the checker makes."""
    parts = path.split('.')
    if parts[0] != 'Rattle' or len(parts) < 3 or parts[1] not in crates:
        return False
    if 'declared' in parts:
        return False
    return parts[2] == 'specs' or parts[-1] not in ('Goals', 'Given', 'Statement', 'Tie', 'Lts')


def imports(text, crates):
    """Names imported from elsewhere than the repository's own modules."""
    foreign = set()
    for line in text.split('\n'):
        m = USE.match(line)
        if m and m.group(2) is not None and not own_module(m.group(1), crates):
            for item in m.group(2).split(','):
                foreign.add(item.strip().split(' as ')[0].strip())
    return foreign


def new_name(name, kind):
    parts = name.split('-')
    if kind == 'type' and name[0].isupper():
        return ''.join(p[0].upper() + p[1:] if p else p for p in re.split(r"[-_]", name))
    return '_'.join(parts)


def declarations(text):
    """Own names with a dash that a file declares, each with 'type' or 'term'."""
    found = {}
    for line in text.split('\n'):
        if line.lstrip().startswith('--'):
            continue
        m = re.match(r"^\s*(?:pub\s+)?(?:record|data)\s+([^\s(){}:;,.]+)()\s", line) or DECLARED.match(line)
        if not m:
            continue
        rest = line[m.end():]
        if OWN_ONLY.match(rest.lstrip()):
            continue
        defines = re.match(r"^\s*(?:pub\s+)?(?:abbrev|unfoldable|data|record)\b", line) is not None
        for name in [m.group(1)] + m.group(2).split():
            if '-' in name and DASHED.fullmatch(name):
                found[name] = 'type' if defines else found.get(name, 'term')
    return found


def goal_names(text):
    out = set()
    for line in text.split('\n'):
        m = re.match(r"^\s*(?:abbrev |pub )*([A-Za-z_][^\s(){}:;,.]*)\s*:\s*(?:goal|needs|tie)\.", line)
        if m:
            out.add(m.group(1))
    return out


def main():
    crates = {l.split(':')[0].split()[0] for l in read(os.path.join(TOP, 'crates.txt')).split('\n') if ':' in l and not l.startswith('#')}
    antt = [f for f in files('.antt') if '/crates/' in f]
    table = {}
    for f in antt:
        for name, kind in declarations(read(f)).items():
            if table.get(name) != 'type':
                table[name] = kind
    names = {n: new_name(n, k) for n, k in table.items()}
    plain = set()
    for f in antt:
        for line in read(f).split('\n'):
            m = DECLARED.match(line)
            if m and '-' not in m.group(1):
                plain.add(m.group(1))
    together = {}
    for old, new in names.items():
        together.setdefault(new, []).append(old)
    for new, olds in sorted(together.items()):
        if len(olds) > 1 or new in plain:
            print('fall together:', ' '.join(olds), '->', new, '(stands already)' if new in plain else '')
    if '--list' in sys.argv:
        for old in sorted(names):
            print(old, names[old])
        return
    changed = 0
    for f in antt:
        text = read(f)
        keep = imports(text, crates) | goal_names(text)

        def alias(name):
            return new_name(name, 'type' if name[0].isupper() else 'term')

        aliases = set(re.findall(r" as ([^,};\s]+)", text))

        def turn(code, whole):
            def one(m):
                name = m.group(1)
                before = code[m.start() - 1] if m.start() else ''
                if before == '.' and name not in names:
                    return name
                if before == '.' and re.search(r"(?:\bc|\bw|\bgoal|\bneeds|\bl|\btie)(?:\.[\w'-]+)*\.$", code[:m.start()]):
                    return name
                if name in keep:
                    return name
                if name in aliases:
                    return alias(name)
                if name in names:
                    return names[name]
                return new_name(name, 'term') if whole else name
            return DASHED.sub(one, code)

        lines = []
        for line in text.split('\n'):
            use = USE.match(line)
            if use and not own_module(use.group(1), crates):
                # what is imported keeps its name, and the name that it gets here is our own
                lines.append(re.sub(r"(?<= as )([^,}]+)", lambda m: alias(m.group(1)), line))
                continue
            at = line.find('--')
            code, comment = (line, '') if at < 0 else (line[:at], line[at:])
            lines.append(turn(code, True) + turn(comment, False))
        out = '\n'.join(lines)
        if out != text:
            changed += 1
            with open(f, 'w', encoding='utf-8') as h:
                h.write(out)
    for f in files('.rt') + files('.edit') + files('.md'):
        text = read(f)
        if f.endswith('.md') and '/docs/' not in f and not f.endswith('README.md'):
            continue
        keep = imports(text, crates)

        def one(m):
            name = m.group(1)
            return names[name] if name in names and name not in keep else name
        if f.endswith('.md'):
            out = re.sub(r"`[^`\n]*`", lambda t: DASHED.sub(one, t.group(0)), text)
        else:
            out = DASHED.sub(one, text)
        if out != text:
            changed += 1
            with open(f, 'w', encoding='utf-8') as h:
                h.write(out)
    print('respell:', len(names), 'names,', changed, 'files')


if __name__ == '__main__':
    main()
