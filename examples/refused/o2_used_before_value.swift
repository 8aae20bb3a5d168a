// On one way no file was opened.
struct File: ~Copyable {
  let descriptor: Int

  func write(_ number: Int) {
    print("write", number, "to", descriptor)
  }

  deinit { print("close", descriptor) }
}

func main() {
  var log: File
  if readInt() == 1 {
    log = File(descriptor: 1)
  }
  log.write(10)
}
main()
