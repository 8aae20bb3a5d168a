// A buffer is read and written by one call, which would see its own changes half done.
struct Buffer: ~Copyable {
  let address: Int
  var used: Int

  deinit { print("free", address) }
}

func transfer(from source: borrowing Buffer, into target: inout Buffer) {
  target.used = source.used
}

func filling(_ buffer: inout Buffer, _ count: () -> Int) {
  buffer.used = count()
}

func main() {
  var first = Buffer(address: 100, used: 1)
  var second = Buffer(address: 200, used: 2)
  transfer(from: first, into: &second)
  transfer(from: first, into: &first)
  filling(&second) { first.used + 1 }
  filling(&second) { second.used + 1 }
}
main()
