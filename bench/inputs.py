#!/usr/bin/env python3
"""Makes the texts whose instructions `bench/counts` counts: bench/inputs.py FOLDER PROGRAM.

| text | what |
|---|---|
| chain | 254 features in a row between two phones, 20 settles |
| chain_long | the same with as many settles as 4,096 commands allow |
| chains | 64 calls of two phones and 0 to 3 features, 20 settles |
| chains_long | the same with as many settles as 4,096 commands allow |
| limits | 256 boxes, 1,024 channels, 4,096 commands; no program, no ring, no hold |
| wide | version 2: 256 boxes of 64 slots each, 1,024 channels of 8 tunnels, 32 settles |
| comments | 1,048,576 bytes, mostly comments and blank lines |
| check | the chain with its journal by `one 1 --journal`, near 16 MB, which PROGRAM prints |

The same arguments make the same bytes."""
import os
import random
import subprocess
import sys

TEXT_LIMIT = 1 << 20
CHECK_LIMIT = 1 << 24
COMMANDS = 4096


def chain_text(features, settles):
    """The near phone opens at the odd settles, and closes at the even ones."""
    t = ['media 1', 'codec g711', 'dev alice g711']
    t += ['feat f%d' % k for k in range(1, features + 1)]
    t += ['dev bob g711', 'chan audio alice a f1 w']
    t += ['chan audio f%d e f%d w' % (k, k + 1) for k in range(1, features)]
    t += ['chan audio f%d e bob a' % features, 'begin']
    t += ['link f%d w e' % k for k in range(1, features + 1)]
    t += ['set alice a open', 'set bob a hold', 'settle']
    for i in range(1, settles):
        t += ['set alice a %s' % ('close' if i % 2 else 'open'), 'settle']
    return '\n'.join(t) + '\n'


def chains_text(chains, settles, rng):
    """Phones lK and rK with 0 to 3 features between; every left phone opens and closes."""
    sizes = [k % 4 for k in range(chains)]
    rng.shuffle(sizes)
    t = ['media 1'] + ['codec c%d' % c for c in range(8)]
    for k, m in enumerate(sizes):
        t.append('dev l%d %s' % (k, ' '.join('c%d' % c for c in rng.sample(range(8), 4))))
        t += ['feat f%d%s' % (k, x) for x in 'abc'[:m]]
        t.append('dev r%d %s' % (k, ' '.join('c%d' % c for c in rng.sample(range(8), 4))))
    for k, m in enumerate(sizes):
        row = ['l%d s' % k]
        for x in 'abc'[:m]:
            row += ['f%d%s w' % (k, x), 'f%d%s e' % (k, x)]
        row.append('r%d s' % k)
        t += ['chan audio %s %s' % (row[i], row[i + 1]) for i in range(0, len(row), 2)]
    t.append('begin')
    for k, m in enumerate(sizes):
        t += ['link f%d%s w e' % (k, x) for x in 'abc'[:m]]
        t += ['set r%d s hold' % k]
    for i in range(settles):
        t += ['set l%d s %s' % (k, 'close' if i % 2 else 'open') for k in range(chains)]
        t.append('settle')
    return '\n'.join(t) + '\n', sum(sizes)


def limits_text(rng):
    """128 phones and 128 features. The features stand in a row, two channels between
    neighbours; the other channels go from phones to features. A link never joins two
    slots on the same side of a feature, so no ring can come. A slot that loses its
    partner is set to close at once, so no path has hold at both ends."""
    n = 128
    t = ['media 1'] + ['codec c%d' % c for c in range(64)]
    t += ['dev d%d %s' % (k, ' '.join('c%d' % c for c in rng.sample(range(12), 8)))
          for k in range(n)]
    t += ['feat f%d' % k for k in range(n)]
    left = [[] for _ in range(n)]
    right = [[] for _ in range(n)]
    phone = [[] for _ in range(n)]
    ends = []
    channels = 0
    for k in range(n - 1):
        for x in 'ab':
            t.append('chan audio f%d e%s f%d w%s' % (k, x, k + 1, x))
            right[k].append('e' + x)
            left[k + 1].append('w' + x)
            channels += 1
    used = [0] * n
    while channels < 1024:
        f = channels % n
        d = rng.choice([k for k in range(n) if used[k] < 60])
        used[d] += 1
        s = 'p%d' % len(phone[f])
        phone[f].append(s)
        ends.append((d, 's%d' % used[d]))
        t.append('chan audio d%d s%d f%d %s' % (d, used[d], f, s))
        channels += 1
    t.append('begin')
    partner = {}
    todo = COMMANDS
    out = []
    while len(out) < todo:
        batch = []
        while len(batch) < 40 and len(out) + len(batch) < todo - 4:
            x = rng.random()
            if x < 0.45:
                batch.append('set d%d %s %s' % (*rng.choice(ends), rng.choice(
                    ['open', 'open', 'close'])))
            elif x < 0.65:
                batch.append('%s d%d %s %s' % (rng.choice(['hear', 'talk']),
                                              *rng.choice(ends), rng.choice(['on', 'off'])))
            else:
                f = rng.randrange(n)
                sides = [s for s in (left[f], right[f], phone[f]) if s]
                a, b = (rng.choice(s) for s in rng.sample(sides, 2))
                if rng.random() < 0.3 and len(phone[f]) > 1:
                    a, b = rng.sample(phone[f], 2)
                if partner.get((f, a)) == b:
                    continue
                batch.append('link f%d %s %s' % (f, a, b))
                for s in (a, b):
                    p = partner.pop((f, s), None)
                    if p is not None:
                        partner.pop((f, p), None)
                        batch.append('set f%d %s close' % (f, p))
                partner[(f, a)] = b
                partner[(f, b)] = a
        out += batch + ['settle']
        if todo - len(out) <= 4:
            out += ['settle'] * (todo - len(out))
    return '\n'.join(t + out) + '\n'


def wide_text(rng):
    """128 phones and 128 features, each with 64 slots; every tunnel has one end on a
    phone, so no ring can come and no path has hold at both ends."""
    n = 128
    t = ['media 2'] + ['codec c%d' % c for c in range(64)]
    t += ['dev d%d %s' % (k, ' '.join('c%d' % c for c in rng.sample(range(12), 8)))
          for k in range(n)]
    t += ['send d%d %s' % (k, ' '.join('c%d' % c for c in rng.sample(range(12), 6)))
          for k in range(0, n, 2)]
    t += ['feat f%d' % k for k in range(n)]
    for k in range(1024):
        d, f = k % n, (k % n + 5 * (k // n)) % n
        i = 8 * (k // n)
        t.append('chan audio d%d s%d f%d s%d' % (d, i, f, i))
        t += ['also audio s%d s%d' % (i + j, i + j) for j in range(1, 8)]
    t.append('begin')
    for i in range(COMMANDS):
        x = rng.random()
        if i % 128 == 127:
            t.append('settle')
        elif x < 0.6:
            t.append('set d%d s%d %s' % (rng.randrange(n), rng.randrange(64),
                                         rng.choice(['open', 'open', 'close'])))
        elif x < 0.7:
            t.append('%s d%d s%d %s' % (rng.choice(['hear', 'talk']), rng.randrange(n),
                                        rng.randrange(64), rng.choice(['on', 'off'])))
        else:
            t.append('link f%d s%d s%d' % (rng.randrange(n), *rng.sample(range(64), 2)))
    return '\n'.join(t) + '\n'


def comments_text(rng):
    head = 'media 1\ncodec g711\ndev alice g711\ndev bob g711\nchan audio alice a bob a\nbegin\n'
    tail = 'set alice a open\nset bob a hold\nsettle\n'
    room = TEXT_LIMIT - len(head) - len(tail)
    out = []
    while room > 0:
        kind = rng.random()
        if kind < 0.25:
            line = ' ' * rng.choice([0, 0, 0, rng.randrange(9)])
        else:
            n = rng.choice([rng.randrange(12), rng.randrange(80), rng.randrange(250)])
            line = ' ' * rng.randrange(3) + '#' + ''.join(
                chr(rng.randrange(0x20, 0x7f)) for _ in range(n))
        line = line[:room - 1]
        out.append(line + '\n')
        room -= len(line) + 1
    cut = len(out) // 2
    return head + ''.join(out[:cut]) + tail + ''.join(out[cut:])


def journal_of(program, text, words):
    p = subprocess.run([program, *words, '--journal'], input=text.encode(),
                       stdout=subprocess.PIPE, check=True)
    at = p.stdout.find(b'\njournal\n') + 1
    return p.stdout[at:]


def check_text(program, features):
    """As many settles as fit; the journal grows by the same from pair to pair."""
    most = (COMMANDS - features - 1) // 2
    one = len(journal_of(program, chain_text(features, 50), ['one', '1']))
    settles = min(most, int(CHECK_LIMIT / one * 50 * 1.02))
    while True:
        text = chain_text(features, settles)
        whole = text.encode() + journal_of(program, text, ['one', '1'])
        if len(whole) <= CHECK_LIMIT:
            return whole
        settles -= max(1, (len(whole) - CHECK_LIMIT) * settles // len(whole))


def main():
    folder, program = sys.argv[1:3]
    os.makedirs(folder, exist_ok=True)

    def put(name, text):
        data = text if isinstance(text, bytes) else text.encode()
        with open(os.path.join(folder, name + '.in'), 'wb') as file:
            file.write(data)

    rng = random.Random(1)
    features, calls, settles = 254, 64, 20
    put('chain', chain_text(features, settles))
    put('chain_long', chain_text(features, (COMMANDS - features - 1) // 2))
    text, linked = chains_text(calls, settles, rng)
    put('chains', text)
    put('chains_long', chains_text(calls, (COMMANDS - linked - calls) // (calls + 1), rng)[0])
    put('limits', limits_text(rng))
    put('wide', wide_text(rng))
    put('comments', comments_text(rng))
    put('check', check_text(program, features))


if __name__ == '__main__':
    main()
