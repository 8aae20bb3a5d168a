// What is passed `inout` has to be there again when the call returns. The same holds of `self` in a mutating method.
struct File: ~Copyable {
  let descriptor: Int

  deinit { print("close", descriptor) }
}

func close(_ file: consuming File) {
  print("closing", file.descriptor)
}

func reopen(_ log: inout File, with descriptor: Int) {
  close(log)
  if descriptor < 0 { return }
  log = File(descriptor: descriptor)
}

struct Session: ~Copyable {
  var log: File
  var turns: Int

  mutating func end() {
    turns = 0
    close(log)
  }
}

func main() {
  var session = Session(log: File(descriptor: 1), turns: 2)
  reopen(&session.log, with: 3)
  session.end()
}
main()
