"""Random sheets. `sheet(rnd)`: the lines of one that is well formed, with every kind of question. `damaged(rnd, lines)`: the bytes of such a
sheet after one to three changes, most of which break its form or a limit. `large(rnd)`: the lines of one whose answers are long."""
import model

E = [0, 1, 2, 3, 4, 5, 8, 12, 16, 20, 32, 64, 2**15, 2**28, 2**29, 2**30 - 1, 2**30, 2**31 - 8,
     2**31 - 1, 2**31, 2**31 + 1, 2**32 - 16, 2**32 - 4, 2**32 - 2, 2**32 - 1]


def num(rnd, small=0.7):
    if rnd.random() < small:
        return rnd.choice([1, 2, 3, 4, 4, 8, 16, 12, 5, 0])
    return rnd.choice(E)


def align(rnd):
    return 1 if rnd.random() < .5 else rnd.choice([1, 2, 4, 8, 16, 16, 32, 2**20, 2**30, 2**31])


def sheet(rnd):
    wild = rnd.random() < .5
    p = .55 if wild else .97
    g = [rnd.choice([1, 1, 0]), align(rnd) if wild else rnd.choice([1, 1, 16]),
         num(rnd, .8) if wild else 1, align(rnd) if wild else 1, num(rnd, .8) if wild else 1,
         align(rnd) if wild else 1]
    lines = ['G,' + ','.join(map(str, g))]
    kinds = []
    pointers = []

    def t():
        # prefer recent types, so that depth grows
        if rnd.random() < .5:
            return rnd.randrange(max(0, len(kinds) - 3), len(kinds))
        return rnd.randrange(len(kinds))

    for _ in range(rnd.randrange(3, 14)):
        k = rnd.choice('FFI' if not kinds else 'BIFFVVMAAARRSSSSSPPPPOU')
        if k == 'U' and rnd.random() < .8:
            k = 'F'
        if k in 'BOU':
            lines.append(k)
        elif k in 'IF':
            w = rnd.choice([8, 16, 32, 32, 32, 64])
            if rnd.random() < .04:
                w = rnd.choice(E)
            lines.append('%s,%d' % (k, w))
        elif k in 'VM':
            lines.append('%s,%d,%d' % (k, t(), rnd.choice([2, 3, 4]) if rnd.random() < p else num(rnd, .5)))
        elif k == 'A':
            n = 's' if rnd.random() < .02 else str(num(rnd, p))
            s = '-' if rnd.random() < .6 else str(num(rnd, p))
            lines.append('A,%d,%s,%s' % (t(), n, s))
        elif k == 'R':
            s = '-' if rnd.random() < .6 else str(num(rnd, p))
            lines.append('R,%d,%s' % (t(), s))
        elif k == 'P':
            pointers.append(len(kinds))
            lines.append('P,%d,%d' % (rnd.choice([0, 1, 2, 7, 12]), t()))
        else:
            n = rnd.choice([0, 1, 1, 2, 2, 3, 4, 5])
            lines.append('S,%d,%d%s' % (rnd.choice([0, 0, 1]), n,
                                        ''.join(',%d' % t() for _ in range(n))))
            ds = set()
            r = rnd.random()
            if r < .45:
                at = 0
                for m in range(n):
                    if rnd.random() < p:
                        o = at if rnd.random() < .7 else num(rnd, p)
                        ds.add((m, 35, o))
                        at = min(2**32 - 1, at + rnd.choice([4, 8, 16]))
                    else:
                        ds.add((m, 35, num(rnd, .3)))
            if rnd.random() < .08:
                ds.add((rnd.randrange(0, n + 2), 35, num(rnd)))
            if rnd.random() < .04:
                ds.add((rnd.randrange(0, n + 2), 4, -1))
            if ds and rnd.random() < .08:
                ds.remove(rnd.choice(sorted(ds)))
            for m, d, v in sorted(ds):
                lines.append('D,%d,%d,%s' % (m, d, '-' if d == 4 else v))
        kinds.append(k)
        if k in 'MARSF' and rnd.random() < .15:
            # a buffer that ends in a runtime array, mostly at its end
            e = len(kinds) - 1
            lines.append('R,%d,%s' % (e, rnd.choice(['-', '-', 4, 16, num(rnd, p)])))
            lines.append('S,1,2,0,%d' % (e + 1))
            if rnd.random() < .5:
                o = rnd.choice([0, 4, 8, 16, 2**31 - 4, 2**31, num(rnd, .5)])
                lines.append('D,0,35,%d' % rnd.choice([0, 0, 4, num(rnd, .5)]))
                lines.append('D,1,35,%d' % o)
            lines.append('P,12,%d' % (e + 2))
            kinds += ['R', 'S', 'P']
            pointers += [len(kinds) - 1] * 3
        if rnd.random() < .4:
            pointers.append(len(kinds))
            lines.append('P,12,%d' % (len(kinds) - 1))
            kinds.append('P')
    n = len(kinds)

    def ptr():
        return rnd.choice(pointers) if pointers and rnd.random() < .95 else rnd.randrange(n)

    def idx():
        r = rnd.random()
        if r < .2:
            return 'v%d' % rnd.choice([0, 1, 2, 4294967295])
        if r < .75:
            return str(rnd.choice([0, 0, 1, 1, 2, 3]))
        return str(num(rnd, .3))

    for i in range(n):
        lines.append('T,%d' % i)
    for i in range(n):
        a = num(rnd, .6)
        b = a + rnd.choice([0, 0, 1, 4, 8, 12, num(rnd, .5)]) if rnd.random() < .9 else num(rnd)
        lines.append('Q,%d,%d,%d' % (i, a, min(b, 2**32 - 1)))
    for _ in range(2 * n):
        lines.append('C,%d,%d%s' % (rnd.choice([65, 65, 66, 67, 70]), ptr(),
                                    ''.join(',' + idx() for _ in range(rnd.randrange(0, 7)))))
    # chains that follow the types, mostly
    at = model.Sheet('\n'.join(lines))
    for _ in range(3 * n if pointers else 0):
        op, p = rnd.choice([65, 65, 66, 67, 70]), rnd.choice(pointers)
        try:
            form, _, m = at.layout(at.pointee(p))
            if op >= 67:
                form, _, m = at.elements_of((form, 0, m), None, None, 'R')
        except model.Refuse:
            continue
        xs = []
        while rnd.random() < .93 and len(xs) < 255:
            if form in ('ab', 'ao'):
                xs.append(idx())
                form = form[1]
                continue
            if m is None or m.kind == 's':
                break
            form = 'c'
            if m.kind == 'f':
                if not m.fields:
                    break
                i = rnd.randrange(len(m.fields))
                xs.append(str(i))
                m = m.fields[i]
            else:
                fit = (2**31 - 1) // m.stride
                i = rnd.choice([0, 1, 2, fit, fit, fit - 1, fit + 1, -fit, -fit - 1, -1,
                                m.length, m.length - 1, rnd.randrange(2**32)])
                xs.append('v%d' % rnd.randrange(4) if rnd.random() < .25 else str(i % 2**32))
                m = m.elem
        lines.append('C,%d,%d%s' % (op, p, ''.join(',' + x for x in xs)))
    for _ in range(n):
        lines.append('L,%d,%d' % (ptr(), rnd.choice([0, 0, 1, 1, 2, 3, 2**31, 2**32 - 1])))
        lines.append('X,%d' % ptr())
        lines.append('E,%d,%d' % (rnd.randrange(n), rnd.randrange(n)))
    return lines


def large(rnd):
    """A sheet whose answers have some hundred thousand bytes: more than one buffer."""
    n = rnd.randrange(200, 1000)
    lines = ['G,1,1,1,1,1,1', 'S,0,0', 'S,1,%d' % n + ',0' * n]
    at = rnd.choice([0, 1000, 10**6, 2**32 - 1 - n])
    lines += ['D,%d,35,%d' % (i, at + i) for i in range(n)]
    return lines + rnd.choices(['T,1', 'T,0', 'E,0,1', 'Q,0,0,0'], [8, 1, 1, 1], k=rnd.randrange(50, 200))


# ---- damage

EDGES = [b'0', b'1', b'3', b'35', b'255', b'256', b'1024', b'2147483647', b'2147483648', b'4294967295', b'4294967296', b'99999999999',
         b'00', b'01', b'-1', b'+1', b'', b' 4', b'-', b's', b'v1', b'v', b'v01', b'x', b'4294967295 ']
LETTERS = b'GBIFVMARSPOUDTEQCLX%,-sv 0129\n\r\0\xff'


def field(rnd, line):
    fields = line.split(b',')
    fields[rnd.randrange(len(fields))] = rnd.choice(EDGES)
    return b','.join(fields)


def more_or_fewer(rnd, line):
    fields = line.split(b',')
    if rnd.random() < .5:
        fields.insert(rnd.randrange(1, len(fields) + 1), rnd.choice(EDGES))
    else:
        del fields[rnd.randrange(len(fields))]
    return b','.join(fields)


def above_a_limit(rnd, lines):
    """A count at its limit, or above it."""
    over = rnd.randrange(2)
    kind = rnd.randrange(4)
    types = sum(x[:1] in b'BIFVMARSPOU' for x in lines)
    if kind == 0:
        lines += [b'F,32'] * (256 + over - types) + [b'T,255']
    elif kind == 1:
        n = 1024 + over - sum(int(x.split(b',')[2]) for x in lines if x[:1] == b'S')
        lines += [b'S,0,%d' % n + b',0' * n, b'T,%d' % types]
    elif kind == 2:
        lines += [b'P,12,0', b'C,67,%d' % types + b',1' * (255 + over)]
    else:
        left = 65536 + over - sum(len(x) + 1 for x in lines)
        full = b'C,65,0' + b',3' * 255
        lines += [full] * (left // 517 - 1)
        left -= 517 * (left // 517 - 1)
        if left % 2:
            lines.append(b'C,65,0')
            left -= 7
        if left % 4:
            lines.append(b'L,0,0')
            left -= 6
        lines += [b'T,0'] * (left // 4)


def damaged(rnd, lines):
    lines = [x.encode() for x in lines]
    for _ in range(rnd.choice([1, 1, 1, 2, 3])):
        i = rnd.randrange(len(lines))
        r = rnd.randrange(12)
        if r < 3:
            lines[i] = field(rnd, lines[i])
        elif r < 5:
            lines[i] = more_or_fewer(rnd, lines[i])
        elif r == 5:
            lines.insert(rnd.randrange(len(lines) + 1), lines[i])
        elif r == 6 and len(lines) > 1:
            del lines[i]
        elif r == 7:
            j = rnd.randrange(len(lines))
            lines[i], lines[j] = lines[j], lines[i]
        elif r == 8:
            lines[0] = b'G,' + b','.join(rnd.choice([b'0', b'1', b'2', b'3', b'16', b'2147483648', b'4294967295']) for _ in range(6))
        elif r == 9:
            above_a_limit(rnd, lines)
    sheet = b'\n'.join(lines) + b'\n'
    if rnd.random() < .3:
        i = rnd.randrange(len(sheet))
        byte = bytes([rnd.choice(LETTERS)])
        sheet = rnd.choice([sheet[:i] + sheet[i + 1:], sheet[:i] + byte + sheet[i:], sheet[:i] + byte + sheet[i + 1:], sheet[:i], sheet[:-1]])
    return sheet
