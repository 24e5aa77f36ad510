"""The store's rules once more, in Python, as docs/MODEL.md has them: what a trace in text prints, to compare the programs with."""
import itertools


class Store:
    def __init__(self):
        self.users, self.capacity, self.rows, self.version, self.cache = {}, {}, {}, {}, {}

    def rule(self, words):
        """A line of the policy."""
        if words[0] == 'user':
            at = words.index('writes')
            self.users[int(words[1])] = ([int(w) for w in words[3:at]], int(words[at + 1]))
        elif words[0] == 'capacity':
            c = int(words[1])
            self.capacity[c], self.rows[c], self.version[c] = int(words[2]), {}, 0

    def flows(self, a, b):
        return all(a in view for view, _ in self.users.values() if b in view)

    def change(self, c, rows):
        """New rows for a compartment, unless they are too many."""
        if len(rows) > self.capacity[c]:
            return 'no room'
        self.rows[c] = rows
        self.version[c] += 1
        return 'done'

    def request(self, user, kind, numbers):
        if user not in self.users:
            return 'not allowed'
        view, c = self.users[user]
        if kind == 'write':
            return self.change(c, {**self.rows[c], numbers[0]: numbers[1]})
        if kind == 'delete':
            rest = {k: v for k, v in self.rows[c].items() if k != numbers[0]}
            return self.change(c, rest) if len(rest) < len(self.rows[c]) else 'no row'
        if kind == 'copy':
            source = numbers[0]
            if source not in view or not self.flows(source, c):
                return 'not allowed'
            return self.change(c, {**self.rows[c], **dict(self.rows_in(source, numbers[1:]))})
        return self.answer(user, view, kind, numbers)

    def rows_in(self, c, limits):
        return sorted((k, v) for k, v in self.rows[c].items() if limits[0] <= k <= limits[1])

    def answer(self, user, view, kind, numbers):
        key = (kind, tuple(numbers), tuple(self.version[c] for c in view))
        kept = self.cache.setdefault(user, [])
        text, examined = self.work_out(view, kind, numbers)
        if key in kept:
            examined = 0
        else:
            self.cache[user] = [key] + kept[:7]
        return f'{text} looked at {examined}'

    def work_out(self, view, kind, numbers):
        shown = lambda rows: '[' + ' '.join(f'{k}:{v}' for k, v in rows) + ']'
        if kind == 'shared':
            a, b, *limits = numbers
            if a not in view or b not in view:
                return 'not seen', 0
            part = self.rows_in(a, limits)
            return shown([(k, v) for k, v in part if k in self.rows[b]]), len(part) + len(self.rows[b])
        parts = [self.rows_in(c, numbers) for c in view]
        count = sum(len(p) for p in parts)
        if kind == 'rows':
            return ' '.join(shown(p) for p in parts), count
        return f'{count} row{"" if count == 1 else "s"} {sum(v for p in parts for _, v in p)}', count


def play(text):
    """The lines that a trace in text prints."""
    store, lines = Store(), []
    for line in text.removeprefix('\ufeff').splitlines():
        words = list(itertools.takewhile(lambda word: not word.startswith('#'), line.split()))
        if not words:
            continue
        if words[0].isdigit():
            user = int(words[0])
            lines.append(f'{user}: {store.request(user, words[1], [int(w) for w in words[2:]])}\n')
        else:
            store.rule(words)
    return lines
