// Buffers as in examples/buffer.swift: taken out of a value that frees them, used where they were moved away or never
// made, and moved away while a `switch` looks at them.
struct Buffer: ~Copyable {
  let address: Int
  var used: Int

  mutating func append(_ count: Int) {
    used += count
  }

  deinit { print("free", address, "with", used) }
}

struct Pair: ~Copyable {
  var front: Buffer
  var back: Buffer
}

struct Pool: ~Copyable {
  var spare: Buffer

  deinit { print("pool ends with", spare.address) }
}

enum Slot: ~Copyable {
  case empty
  case full(Buffer)
}

func keep(_ buffer: consuming Buffer) -> Slot {
  return .full(buffer)
}

func measure(_ pair: borrowing Pair) -> Int {
  return pair.front.used + pair.back.used
}

func main() {
  let pool = Pool(spare: Buffer(address: 100, used: 0))
  var first = keep(pool.spare)

  var pair = Pair(front: Buffer(address: 200, used: 0), back: Buffer(address: 300, used: 0))
  let second = keep(pair.front)
  print(measure(pair))
  pair.front.append(1)
  pair.back.append(1)

  var third: Buffer
  third.append(1)

  switch first {
  case .full(let buffer) where buffer.used > 0:
    first = second
  case .full(let buffer):
    print(buffer.address)
  case .empty:
    print("empty")
  }
}
main()
