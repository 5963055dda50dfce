"""Writes the questions of crates/face/stdin and the answers of crates/face/stdout, from the formulas alone, in exact whole numbers."""
import random
from math import isqrt

r = random.Random(20)


def trunc(a, b):
    q = abs(a) // abs(b)
    return q if (a < 0) == (b < 0) else -q


def root(d):
    """The least s with 10 s s >= 981 d: 98.1 d is rounded up to a whole number first, which no square lies between."""
    n = -(-981 * d // 10)
    return 0 if n == 0 else isqrt(n - 1) + 1


def sides(dl, nl, dr, nr):
    p = (dl * nl, dr * nr)
    f = (20 * dl * nl * nl + 981 * dl * dl, 20 * dr * nr * nr + 981 * dr * dr)
    return p, f


def rusanov(dl, nl, dr, nr):
    (pl, pr), (fl, fr) = sides(dl, nl, dr, nr)
    m = max(abs(nl) + root(dl), abs(nr) + root(dr))
    return trunc(pl + pr - m * (dr - dl), 2), trunc(fl + fr - 20 * m * (pr - pl), 2)


def hll(dl, nl, dr, nr):
    (pl, pr), (fl, fr) = sides(dl, nl, dr, nr)
    c1 = min(nl - root(dl), nr - root(dr))
    c2 = max(nl + root(dl), nr + root(dr))
    if c1 >= 0:
        return pl, fl
    if c2 <= 0:
        return pr, fr
    water = trunc(c2 * pl - c1 * pr + c1 * c2 * (dr - dl), c2 - c1)
    push = trunc(fl + fr + (c1 + c2) * trunc(fl - fr, c2 - c1), 2) + trunc(20 * c1 * c2, c2 - c1) * (pr - pl)
    return water, push


def sized(q, n):
    return -n if q < 0 else n


def bare(c, q, u, h, d):
    a, b = 80 * d * h, c * u
    return sized(q, abs(q) - -(-abs(q) * b // (a + b)))


def weed(g, c, q, u, h, d):
    left = bare(c, q, u, h, d)
    return sized(left, max(0, abs(left) - g // d))


lines = []


def remark(text):
    lines.append(("# " + text, None))


def say(question, answer):
    lines.append((question, answer))


def ask(word, *numbers):
    question = " ".join(map(str, (word,) + numbers))
    if word == "root":
        answer = f"root {root(*numbers)}"
    elif word == "flux":
        water, push = (rusanov, hll)[numbers[0] - 1](*numbers[1:])
        answer = f"water {water} push {push}"
    else:
        answer = f"flow {(bare if word == 'bare' else weed)(*numbers)}"
    say(question, answer)


remark("worked by hand: the answers are written out, not computed")
for d, s in ((0, 0), (1, 10), (500, 222), (1000, 314), (2000000, 14008), (4294967295, 649105)):
    say(f"root {d}", f"root {s}")
say("flux 1 1000 400 0 0", "water 557000 push 4946500000")
say("flux 2 1000 400 0 0", "water 400000 push 4181000000")
say("flux 2 1000 100 0 0", "water 207000 push 1060657300")
say("bare 1000 10000 100 1000 20", "flow 9411")
say("bare 1000 -10000 100 1000 20", "flow -9411")
say("weed 4000 1000 10000 100 1000 20", "flow 9211")

remark("roots: small ones, one to each side of a square, and any")
for d in list(range(2, 12)) + [98, 99, 100, 101, 981, 9810, 1999999, 2147483648, 4294967294]:
    ask("root", d)
for s in (11, 100, 314, 9999, 14008, 65535, 649104):
    for d in (10 * s * s // 981, 10 * s * s // 981 + 1):
        ask("root", d)
for _ in range(20):
    ask("root", r.randrange(2**r.randrange(4, 33)))


def depth():
    return r.choice((0, 1, 2, 9, 10, 2000000, r.randrange(20), r.randrange(2000), r.randrange(2000001)))


def side():
    d = depth()
    return (d, 0) if d == 0 else (d, r.choice((0, 1, -1, 10000, -10000, r.randint(-300, 300), r.randint(-10000, 10000))))


remark("fluxes: equal sides, sides exchanged with both velocities reversed, and any")
for rule in (1, 2):
    for _ in range(8):
        s = side()
        ask("flux", rule, *s, *s)
    for _ in range(12):
        (dl, nl), (dr, nr) = side(), side()
        ask("flux", rule, dl, nl, dr, nr)
        ask("flux", rule, dr, -nr, dl, -nl)
    for _ in range(30):
        ask("flux", rule, *side(), *side())


def stream():
    q = r.choice((0, 1, -1, 30000000000, -30000000000, r.randint(-10**6, 10**6), r.randint(-3 * 10**10, 3 * 10**10)))
    return q, r.choice((0, 10000, r.randrange(10001))), r.choice((1, 10, 2000000, r.randint(1, 2000000))), r.choice((1, 1000, r.randint(1, 1000)))


remark("frictions: a flow and the flow reversed, and any")
for _ in range(20):
    c, (q, u, h, d) = r.choice((0, 1000, r.randrange(1001))), stream()
    ask("bare", c, q, u, h, d)
    ask("bare", c, -q, u, h, d)
for _ in range(20):
    c, s = r.choice((0, 1000, r.randrange(1001))), stream()
    ask("weed", r.choice((0, 1000000000, r.randrange(10**6))), c, *s)

remark("lines that get no answer, between lines that do")
say("roots 5", "cannot read: 'roots' asks nothing; ask root, flux, bare or weed")
say("root", "cannot read: the depth is missing")
say("root five", "cannot read: the depth 'five' is no whole number of 64 bits")
say("root 5.0", "cannot read: the depth '5.0' is no whole number of 64 bits")
say("root 9223372036854775808", "cannot read: the depth '9223372036854775808' is no whole number of 64 bits")
say("root 5 6", "cannot read: '6' is one word too many")
say("root -1", "out of range: the depth -1 is not 0 to 4294967295")
say("root 4294967296", "out of range: the depth 4294967296 is not 0 to 4294967295")
say("  root   5  ", f"root {root(5)}")
say("flux 0 1 0 1 0", "refused 8: the flux number 0 is not 1 to 2")
say("flux 3 1 0 1 0", "refused 8: the flux number 3 is not 1 to 2")
say("flux 1 2000001 0 1 0", "out of range: the left depth 2000001 is not 0 to 2000000")
say("flux 1 -1 0 1 0", "out of range: the left depth -1 is not 0 to 2000000")
say("flux 1 1 10001 1 0", "out of range: the left velocity 10001 is not -10000 to 10000")
say("flux 2 1 0 2000001 0", "out of range: the right depth 2000001 is not 0 to 2000000")
say("flux 2 1 0 1 -10001", "out of range: the right velocity -10001 is not -10000 to 10000")
say("flux 1 0 5 1 0", "out of range: the left velocity 5 over a depth of 0 is not 0")
say("flux 1 1 0 0 -5", "out of range: the right velocity -5 over a depth of 0 is not 0")
say("flux 1 1 0 1", "cannot read: the right velocity is missing")
ask("flux", 1, 0, 0, 0, 0)
say("bare 1001 1 1 1 1", "refused 8: the coefficient 1001 is not 0 to 1000")
say("bare -1 1 1 1 1", "refused 8: the coefficient -1 is not 0 to 1000")
say("bare 1 30000000001 1 1 1", "out of range: the flow 30000000001 is not -30000000000 to 30000000000")
say("bare 1 -30000000001 1 1 1", "out of range: the flow -30000000001 is not -30000000000 to 30000000000")
say("bare 1 1 10001 1 1", "out of range: the speed 10001 is not 0 to 10000")
say("bare 1 1 1 0 1", "out of range: the new depth 0 is not 1 to 2000000")
say("bare 1 1 1 2000001 1", "out of range: the new depth 2000001 is not 1 to 2000000")
say("bare 1 1 1 1 0", "out of range: the rate 0 is not 1 to 1000")
say("bare 1 1 1 1 1001", "out of range: the rate 1001 is not 1 to 1000")
say("weed 1000000001 1 1 1 1 1", "refused 8: the strength 1000000001 is not 0 to 1000000000")
say("weed 1 1001 1 1 1 1", "refused 8: the coefficient 1001 is not 0 to 1000")
say("weed 1 1 1 1 1", "cannot read: the rate is missing")
ask("weed", 1, 1, 1, 1, 1, 1)

with open("crates/face/stdin", "w") as questions, open("crates/face/stdout", "w") as answers:
    for question, answer in lines:
        questions.write(question + "\n")
        if answer is not None:
            answers.write(answer + "\n")
print(sum(answer is not None for _, answer in lines), "cases")
