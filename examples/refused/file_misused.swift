// A file as in examples/file.swift: closed by one who only borrows it, not put back where it was passed `inout`,
// and closed twice.
struct File: ~Copyable {
  let descriptor: Int
  var written: Int

  mutating func write(_ number: Int) {
    print("write", number, "to", descriptor)
    written += 1
  }

  consuming func close() {
    print("close", descriptor)
    discard self
  }

  deinit { print("abandon", descriptor, "after", written) }
}

func report(_ file: borrowing File) {
  print("written", file.written)
  file.close()
}

func rotate(_ file: inout File, to next: Int) {
  file.close()
  if next > 0 {
    file = File(descriptor: next, written: 0)
  }
}

func main() {
  var log = File(descriptor: 1, written: 0)
  rotate(&log, to: 2)
  report(log)
  for number in 0..<3 {
    log.write(number)
    if number == 1 {
      log.close()
    }
  }
  log = File(descriptor: 3, written: 0)
}
main()
