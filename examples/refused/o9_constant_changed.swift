// A buffer is appended to where it is a constant, where it is only lent, and in a stored property that is fixed.
struct Buffer: ~Copyable {
  let address: Int
  var used: Int

  mutating func append(_ count: Int) {
    used += count
  }

  deinit { print("free", address) }
}

struct Page: ~Copyable {
  let buffer: Buffer
  var number: Int
}

func clear(_ buffer: borrowing Buffer) {
  buffer.used = 0
}

func main() {
  let buffer = Buffer(address: 100, used: 0)
  buffer.append(3)
  clear(buffer)
  var page = Page(buffer: Buffer(address: 200, used: 0), number: 1)
  page.number = 2
  page.buffer.append(3)
}
main()
