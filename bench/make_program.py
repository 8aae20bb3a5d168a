"""Writes an accepted program to standard output: FUNCTIONS functions of some 220 bytes that call each other, and types
of their own for each twenty of them. They make, move, lend and end values of noncopyable structs and enums in
branches, loops, patterns and closures. With --rust it is the same program in Rust.

With --most it is a text at what the language's limits allow:
  text      1,048,576 bytes, and as many functions as its 200,000 tokens have room for
  body      a body with 2,000 slots, 20,000 ops, 2,000 leaves and 4,096 makers, in nested loops
  locals    a body of 20,000 locals, which is too many
  bodies    4,000 bodies and 1,000 types
  findings  20,000 findings at the end of 1,048,576 bytes, each with up to a hundred causes to choose from
  module    the most code: values of 64 parts, each with a `deinit`, and many ways out, on each of which all end

Usage: make_program.py FUNCTIONS SEED [--rust]
       make_program.py --most text|body|locals|bodies|findings|module
"""

import random
import re
import sys
from string import Template

BYTES, TOKENS, BODIES, TYPES = 1_048_576, 200_000, 4_000, 1_000
SLOTS, OPS, LEAVES, MAKERS, ITEMS, SLOTS_OF_TYPE = 2_000, 20_000, 2_000, 4_096, 32, 64
FUNCTIONS_PER_FAMILY = 20

# Each piece of the program is written down twice, in our language and in Rust.
SHARED = (
    """\
func each(_ count: Int, _ body: (Int) -> Void) {
  for turn in 0..<count {
    body(turn)
  }
}
func work0(_ n: Int) -> Int {
  return n
}
""",
    """\
#![allow(unused)]
fn print(text: &str, n: i64) {
    println!("{text} {n}");
}
fn each(count: i64, body: &mut dyn FnMut(i64)) {
    for turn in 0..count {
        body(turn);
    }
}
fn work0(n: i64) -> i64 {
    n
}
""",
)

FAMILY = (
    """\
struct File$t: ~Copyable {
  let number: Int
  var used: Int
  mutating func add(_ count: Int) {
    used += count
  }
  deinit {
    print("close", number)
  }
}
struct Pair$t: ~Copyable {
  var one: File$t
  var other: File$t
}
enum Slot$t: ~Copyable {
  case empty
  case full(File$t)
  case both(File$t, File$t)
}
func close$t(_ file: consuming File$t) -> Int {
  return file.used + file.number
}
func exchange$t(_ one: inout File$t, _ other: inout File$t) {
  let kept = one
  one = other
  other = kept
}
func fill$t(_ n: Int) -> Slot$t {
  if n < $k { return .empty }
  if n < $l { return .full(File$t(number: n, used: 0)) }
  return .both(File$t(number: n, used: 1), File$t(number: 0, used: n))
}
func size$t(_ slot: borrowing Slot$t) -> Int {
  switch slot {
  case .empty:
    return 0
  case .full(let file):
    return file.used
  case .both(let one, let other):
    return one.used + other.used
  }
}
""",
    """\
struct File$t {
    number: i64,
    used: i64,
}
impl File$t {
    fn add(&mut self, count: i64) {
        self.used += count;
    }
}
impl Drop for File$t {
    fn drop(&mut self) {
        print("close", self.number);
    }
}
struct Pair$t {
    one: File$t,
    other: File$t,
}
enum Slot$t {
    Empty,
    Full(File$t),
    Both(File$t, File$t),
}
fn close$t(file: File$t) -> i64 {
    file.used + file.number
}
fn exchange$t(one: &mut File$t, other: &mut File$t) {
    std::mem::swap(one, other);
}
fn fill$t(n: i64) -> Slot$t {
    if n < $k { return Slot$t::Empty; }
    if n < $l { return Slot$t::Full(File$t { number: n, used: 0 }); }
    Slot$t::Both(File$t { number: n, used: 1 }, File$t { number: 0, used: n })
}
fn size$t(slot: &Slot$t) -> i64 {
    match slot {
        Slot$t::Empty => 0,
        Slot$t::Full(file) => file.used,
        Slot$t::Both(one, other) => one.used + other.used,
    }
}
""",
)

# Function i of the family t calls an earlier function j; k is below l, and m is a small number of turns.
WORKS = [
    # a value that one branch consumes
    (
        """\
func work$i(_ n: Int) -> Int {
  let file = File$t(number: n, used: $k)
  var total = $l
  if n % 2 == 0 {
    total += close$t(file)
  } else if n > $k {
    print("kept", file.number)
  }
  return total + work$j(n - 1)
}
""",
        """\
fn work$i(n: i64) -> i64 {
    let file = File$t { number: n, used: $k };
    let mut total = $l;
    if n % 2 == 0 {
        total += close$t(file);
    } else if n > $k {
        print("kept", file.number);
    }
    total + work$j(n - 1)
}
""",
    ),
    # a value that each turn consumes and makes again
    (
        """\
func work$i(_ n: Int) -> Int {
  var file = File$t(number: n, used: 0)
  var total = work$j(n)
  for turn in 0..<$m {
    file.add(turn)
    total += close$t(file)
    file = File$t(number: turn, used: $k)
  }
  return total + file.used
}
""",
        """\
fn work$i(n: i64) -> i64 {
    let mut file = File$t { number: n, used: 0 };
    let mut total = work$j(n);
    for turn in 0..$m {
        file.add(turn);
        total += close$t(file);
        file = File$t { number: turn, used: $k };
    }
    total + file.used
}
""",
    ),
    # a part that is taken out and put back
    (
        """\
func work$i(_ n: Int) -> Int {
  var pair = Pair$t(one: File$t(number: n, used: $k), other: File$t(number: $l, used: 0))
  let total = close$t(pair.one)
  pair.one = File$t(number: total, used: work$j(n - 1))
  exchange$t(&pair.one, &pair.other)
  return total - pair.other.used
}
""",
        """\
fn work$i(n: i64) -> i64 {
    let mut pair = Pair$t { one: File$t { number: n, used: $k }, other: File$t { number: $l, used: 0 } };
    let total = close$t(pair.one);
    pair.one = File$t { number: total, used: work$j(n - 1) };
    exchange$t(&mut pair.one, &mut pair.other);
    total - pair.other.used
}
""",
    ),
    # patterns that take a value apart
    (
        """\
func work$i(_ n: Int) -> Int {
  let slot = fill$t(n)
  switch consume slot {
  case .full(let file) where file.number > $k:
    return close$t(file)
  case .both(let one, _):
    return one.number + work$j(n - 1)
  default:
    return $l
  }
}
""",
        """\
fn work$i(n: i64) -> i64 {
    let slot = fill$t(n);
    match slot {
        Slot$t::Full(file) if file.number > $k => close$t(file),
        Slot$t::Both(one, other) => {
            drop(other);
            one.number + work$j(n - 1)
        }
        _ => $l,
    }
}
""",
    ),
    # ways out of a loop
    (
        """\
func work$i(_ n: Int) -> Int {
  var left = n
  var file = File$t(number: $k, used: 0)
  while true {
    left -= 1
    if left < 0 { break }
    if left % $m == 1 { continue }
    file.add(left)
  }
  return file.used + work$j(left)
}
""",
        """\
fn work$i(n: i64) -> i64 {
    let mut left = n;
    let mut file = File$t { number: $k, used: 0 };
    loop {
        left -= 1;
        if left < 0 { break; }
        if left % $m == 1 { continue; }
        file.add(left);
    }
    file.used + work$j(left)
}
""",
    ),
    # a value that is assigned over one that is there
    (
        """\
func work$i(_ n: Int) -> Int {
  var slot = fill$t(n)
  var total = size$t(slot)
  if total > $k {
    slot = .full(File$t(number: total, used: $l))
    total += work$j(n - 2)
  }
  return total + size$t(slot)
}
""",
        """\
fn work$i(n: i64) -> i64 {
    let mut slot = fill$t(n);
    let mut total = size$t(&slot);
    if total > $k {
        slot = Slot$t::Full(File$t { number: total, used: $l });
        total += work$j(n - 2);
    }
    total + size$t(&slot)
}
""",
    ),
    # several returns
    (
        """\
func work$i(_ n: Int) -> Int {
  let one = File$t(number: n, used: $k)
  let other = File$t(number: $l, used: n)
  if one.used < other.used && n > 0 {
    let total = close$t(other)
    return total + work$j(n - 1)
  }
  return n < $k ? close$t(one) : other.number
}
""",
        """\
fn work$i(n: i64) -> i64 {
    let one = File$t { number: n, used: $k };
    let other = File$t { number: $l, used: n };
    if one.used < other.used && n > 0 {
        let total = close$t(other);
        return total + work$j(n - 1);
    }
    if n < $k { close$t(one) } else { other.number }
}
""",
    ),
    # a closure that changes what it captures
    (
        """\
func work$i(_ n: Int) -> Int {
  var file = File$t(number: n, used: 0)
  var total = 0
  each($m) { turn in
    file.add(turn)
    total += file.number
  }
  return total + close$t(file) + work$j(n - 1)
}
""",
        """\
fn work$i(n: i64) -> i64 {
    let mut file = File$t { number: n, used: 0 };
    let mut total = 0;
    each($m, &mut |turn| {
        file.add(turn);
        total += file.number;
    });
    total + close$t(file) + work$j(n - 1)
}
""",
    ),
]

# Main calls up to CALLS of the functions, evenly.
CALLS = 500
MAIN = (
    ("func main() {\n  var total = 0\n", "  total += work$i($k)\n", '  print("total", total)\n}\nmain()\n'),
    ("pub fn main() {\n    let mut total = 0;\n", "    total += work$i($k);\n", '    print("total", total);\n}\n'),
)


def pieces(functions, seed, rust):
    """Yields the program, piece by piece: what is shared, families and functions, main."""
    dice = random.Random(seed)
    yield SHARED[rust]
    for i in range(1, functions + 1):
        family = (i - 1) // FUNCTIONS_PER_FAMILY
        k, more = dice.randrange(1, 50), dice.randrange(1, 50)
        named = {"i": i, "j": dice.randrange(i), "t": family, "k": k, "l": k + more, "m": dice.randrange(2, 9)}
        if i % FUNCTIONS_PER_FAMILY == 1:
            yield Template(FAMILY[rust]).substitute(named)
        yield Template(dice.choice(WORKS)[rust]).substitute(named)
    first, call, last = MAIN[rust]
    step = -(-functions // CALLS)
    calls = [Template(call).substitute(i=i, k=dice.randrange(100)) for i in range(step, functions + 1, step)]
    yield first + "".join(calls) + last


def program(functions, seed, rust=False):
    return "".join(pieces(functions, seed, rust))


def tokens(text):
    """Returns how many tokens a text has that is made here, where a comment is a whole line."""
    text = re.sub(r"(?m)^//.*$", "", text)
    return len(re.findall(r'"[^"]*"|\w+|->|==|\.\.<|&&|[-+]=|\S', text))


def bodies(text):
    return len(re.findall(r"\bfunc |\bdeinit\b|\{ turn in", text))


def comments(size):
    """Returns lines of comments that have this many bytes together, which are three at least."""
    line = "// " + "-" * 96 + "\n"
    rest = size % len(line) if size % len(line) > 2 else size % len(line) + len(line)
    return "//" + "-" * (rest - 3) + "\n" + line * ((size - rest) // len(line))


FILE = Template(
    """\
struct File$t: ~Copyable {
  let n: Int
  deinit { print("end", n) }
}
"""
)

SMALL_WORK = Template(
    """\
func work$i(_ n: Int) -> Int {
  let file = File$t(n: n)
  if n > $k { return work$j(n - 1) }
  return file.n + work$l($k)
}
"""
)


def most_text():
    low, high = 1, 10_000
    while low + 1 < high:
        middle = (low + high) // 2
        text = program(middle, 1)
        is_within = tokens(text) <= TOKENS and bodies(text) <= BODIES and len(text) <= BYTES
        low, high = (middle, high) if is_within else (low, middle)
    parts = [*pieces(low, 1, False)]
    left = BYTES - sum(map(len, parts))
    each = left // len(parts)
    return "".join(comments(each) + it for it in parts[:-1]) + comments(left - each * (len(parts) - 1)) + parts[-1]


def most_body():
    # A leaf of an `inout` parameter has one maker, its Make, and one of a local two, since it ends.
    rows = LEAVES // SLOTS_OF_TYPE
    own = LEAVES - rows * SLOTS_OF_TYPE
    loops = 30
    # What the parameters and the locals leave over; an Assign is a maker, and a call has a slot.
    assigns = MAKERS - LEAVES - own
    calls = SLOTS - rows - own
    reads = OPS - rows - 2 * own - assigns - loops
    # All assigns and reads are of one leaf, and take turns.
    inner = [f"    r0.f0 = {'one()' if i < calls else i}" for i in range(assigns)]
    inner += ["    print(" + ", ".join(["r0.f0"] * ITEMS) + ")"] * (reads // ITEMS)
    inner += ["    print(" + ", ".join(["r0.f0"] * (reads % ITEMS)) + ")"]
    random.Random(1).shuffle(inner)
    lines = [f"  let own{i} = {i}" for i in range(own)] + [f"  while r0.f0 < {i} {{" for i in range(loops)]
    body = "\n".join(lines + inner + ["  }"] * loops)
    fields = "".join(f"  var f{i}: Int\n" for i in range(SLOTS_OF_TYPE))
    parameters = ", ".join(f"_ r{i}: inout Row" for i in range(rows))
    text = f"struct Row {{\n{fields}}}\nfunc one() -> Int {{ 1 }}\nfunc most({parameters}) {{\n{body}\n}}\n"
    return text + "func main() { print(one()) }\nmain()\n"


def most_locals():
    return "func main() {\n" + "".join(f"  let x{i} = {i}\n" for i in range(20_000)) + "}\nmain()\n"


def most_bodies():
    dice = random.Random(1)
    types = "".join(FILE.substitute(t=t) for t in range(TYPES))
    works = "func work0(_ n: Int) -> Int { n }\n"
    # beside these there are work0 and main
    for i in range(1, BODIES - TYPES - 1):
        named = {"i": i, "j": dice.randrange(i), "l": dice.randrange(i), "t": dice.randrange(TYPES)}
        works += SMALL_WORK.substitute(named, k=dice.randrange(100))
    return types + works + "func main() { print(work9(1)) }\nmain()\n"


def most_findings():
    takes, findings = 100, 10_000
    # all but the first of what consumes it, and each print of it, use it after it was consumed
    reads = findings - (takes - 1)
    lines = ["  let f = File0(n: 1)"]
    lines += [f"  if readInt() == {i} {{ take(f) }}" for i in range(takes)]
    lines += ["  print(" + ", ".join(["f.n"] * ITEMS) + ")"] * (reads // ITEMS)
    lines += ["  print(" + ", ".join(["f.n"] * (reads % ITEMS)) + ")"]
    body = "\n".join(lines)
    text = FILE.substitute(t=0) + "func take(_ f: consuming File0) { }\n"
    text += f"func other() {{\n{body}\n}}\nfunc main() {{\n{body}\n}}\nmain()\n"
    return comments(BYTES - len(text)) + text


def most_module():
    parts = SLOTS_OF_TYPE
    fields = "".join(f"  var f{i}: Part\n" for i in range(parts))
    values = ", ".join(f"f{i}: Part()" for i in range(parts))
    text = f"struct Part: ~Copyable {{\n  deinit {{ }}\n}}\nstruct Whole: ~Copyable {{\n{fields}}}\n"
    text += f"func make() -> Whole {{ Whole({values}) }}\n"
    # the parts and the parameter have a maker where they are made, and one on each way out
    ways = MAKERS // (parts + 1) - 1
    body = "  let whole = make()\n" + "  if c { return }\n" * (ways - 1)
    main = "func main() {\n  work0(true)\n}\nmain()\n"
    left = TOKENS - tokens(text + main)
    count = left // tokens(f"func work0(_ c: Bool) {{\n{body}}}\n")
    return text + "".join(f"func work{i}(_ c: Bool) {{\n{body}}}\n" for i in range(count)) + main


if __name__ == "__main__":
    match sys.argv[1:]:
        case ["--most", ("text" | "body" | "locals" | "bodies" | "findings" | "module") as kind]:
            sys.stdout.write(globals()[f"most_{kind}"]())
        case [functions, seed, *rest] if rest in ([], ["--rust"]):
            sys.stdout.write(program(int(functions), int(seed), bool(rest)))
        case _:
            sys.exit(__doc__)
