// Locks, each held by one value: who has the value has the lock, and where the value ends the lock is free again.
struct Lock: ~Copyable {
  let number: Int

  init(number: Int) {
    self.number = number
    print("lock", number)
  }

  deinit { print("unlock", number) }
}

// Runs `body` under a lock.
func holding(_ number: Int, _ body: (borrowing Lock) -> Void) {
  let lock = Lock(number: number)
  body(lock)
}

// Takes the next lock before the one that is handed in is freed.
func next(after lock: consuming Lock) -> Lock {
  return Lock(number: lock.number + 1)
}

// Frees the lock early where it is not needed.
func work(_ lock: consuming Lock, isNeeded: Bool) {
  if !isNeeded { _ = lock }
  print("work")
}

func main() {
  var total = 0
  holding(1) { lock in total += lock.number }
  holding(2) { lock in
    print("held", lock.number)
    total += lock.number
  }
  print("total", total)

  var lock = Lock(number: 3)
  while lock.number < 5 {
    lock = next(after: lock)
  }
  print("last", lock.number)

  work(Lock(number: 8), isNeeded: false)
  work(Lock(number: 9), isNeeded: true)
}
main()
