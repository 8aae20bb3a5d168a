// The size of a buffer is fixed, and then raised.
struct Buffer: ~Copyable {
  let size: Int
  let address: Int

  init(size: Int) {
    self.size = size
    self.address = readInt()
    if size < 16 {
      self.size = 16
    }
  }

  deinit { print("free", address) }
}

func main() {
  let buffer = Buffer(size: 8)
  print(buffer.size)
}
main()
