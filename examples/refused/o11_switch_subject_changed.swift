// A slot is emptied while its buffer is being looked at.
struct Buffer: ~Copyable {
  let address: Int

  deinit { print("free", address) }
}

enum Slot: ~Copyable {
  case empty
  case full(Buffer)
}

func main() {
  var slot = Slot.full(Buffer(address: 100))
  switch slot {
  case .full(let buffer):
    slot = .empty
    print("emptied", buffer.address)
  case .empty:
    print("empty")
  }
}
main()
