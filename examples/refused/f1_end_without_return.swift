// Where all slots are in use, nothing is returned.
struct Table: ~Copyable {
  let size: Int
  var used: Int

  mutating func allocate() -> Int {
    if used < size {
      used += 1
      return used
    }
  }

  deinit { print("in use", used) }
}

func main() {
  var table = Table(size: 4, used: 0)
  print("slot", table.allocate())
}
main()
