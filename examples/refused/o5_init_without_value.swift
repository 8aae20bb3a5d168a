// An empty buffer is made without an address.
struct Buffer: ~Copyable {
  let size: Int
  let address: Int

  init(size: Int) {
    self.size = size
    if size == 0 { return }
    self.address = readInt()
  }

  deinit { print("free", address) }
}

func main() {
  let buffer = Buffer(size: 16)
  print(buffer.size)
}
main()
