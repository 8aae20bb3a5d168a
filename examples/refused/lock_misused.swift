// A lock as in examples/lock.swift: counted while it is already held to be changed, freed by a closure that may run
// again, freed after it was handed on, and kept in a constant although it is changed.
struct Lock: ~Copyable {
  let number: Int
  var turns: Int

  mutating func count() {
    turns += 1
  }

  deinit { print("unlock", number) }
}

func holding(_ lock: inout Lock, _ body: () -> Void) {
  lock.count()
  body()
}

func unlock(_ lock: consuming Lock) {
  print("unlocking", lock.number)
}

func main() {
  var first = Lock(number: 1, turns: 0)
  let second = Lock(number: 2, turns: 0)
  holding(&first) { first.count() }
  holding(&first) { unlock(second) }
  second.count()
  unlock(first)
  print(first.turns)
}
main()
