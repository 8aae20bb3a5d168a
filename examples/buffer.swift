// Buffers whose storage is freed exactly once, also where they move out of a pair and into a slot that may be empty.
struct Buffer: ~Copyable {
  let address: Int
  var used: Int

  init(address: Int) {
    self.address = address
    self.used = 0
    print("allocate", address)
  }

  mutating func append(_ count: Int) {
    used += count
  }

  deinit { print("free", address, "with", used) }
}

// Without a `deinit` of its own, so its parts may be taken out and put back.
struct Pair: ~Copyable {
  var front: Buffer
  var back: Buffer
}

enum Slot: ~Copyable {
  case empty
  case full(Buffer)
}

func exchange(_ one: inout Buffer, _ other: inout Buffer) {
  let kept = one
  one = other
  other = kept
}

// What the slot held; the slot is empty after it.
func takeOut(_ slot: inout Slot) -> Slot {
  let taken = slot
  slot = .empty
  return taken
}

func show(_ slot: borrowing Slot) {
  switch slot {
  case .empty: print("empty")
  case .full(let buffer): print("full", buffer.address, buffer.used)
  }
}

func main() {
  var pair = Pair(front: Buffer(address: 100), back: Buffer(address: 200))
  pair.front.append(3)
  exchange(&pair.front, &pair.back)
  print("front", pair.front.address)

  var slot = Slot.full(pair.front)
  pair.front = Buffer(address: 300)
  show(slot)
  let taken = takeOut(&slot)
  show(slot)

  switch consume taken {
  case .full(let buffer) where buffer.used > 0:
    print("in use", buffer.address)
  case .full(let buffer):
    print("not in use", buffer.address)
  case .empty:
    print("nothing")
  }
  print("done")
}
main()
