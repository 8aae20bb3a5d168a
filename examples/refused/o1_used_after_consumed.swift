// A file is written to after it was closed, and one that only some way closes is written to again.
struct File: ~Copyable {
  let descriptor: Int

  func write(_ number: Int) {
    print("write", number, "to", descriptor)
  }

  deinit { print("close", descriptor) }
}

func close(_ file: consuming File) {
  print("closing", file.descriptor)
}

func main() {
  let log = File(descriptor: 1)
  log.write(10)
  close(log)
  log.write(20)

  let data = File(descriptor: 2)
  for number in 0..<3 {
    data.write(number)
    if number == 2 { close(data) }
  }
}
main()
