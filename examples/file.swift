// Files, each closed exactly once: by hand, or by `deinit` where its last owner ends.
struct File: ~Copyable {
  let descriptor: Int
  var written: Int

  init(descriptor: Int) {
    self.descriptor = descriptor
    self.written = 0
    print("open", descriptor)
  }

  mutating func write(_ number: Int) {
    print("write", number, "to", descriptor)
    written += 1
  }

  // Closes the file and gives back how many numbers it took. After `discard self` the `deinit` does not run.
  consuming func close() -> Int {
    print("close", descriptor)
    let total = written
    discard self
    return total
  }

  deinit { print("abandon", descriptor, "after", written) }
}

func fill(_ file: inout File, upTo last: Int) {
  for number in 1...last {
    file.write(number)
  }
}

// The file that is not returned ends here.
func longer(_ first: consuming File, _ second: consuming File) -> File {
  if first.written < second.written { return second }
  return first
}

func main() {
  var log = File(descriptor: 1)
  fill(&log, upTo: 2)
  let data = File(descriptor: 2)
  let kept = longer(log, data)
  print("kept", kept.descriptor)
  // Whether `kept` is still there at the end is known only when the program runs.
  if readInt() == 0 {
    print("closed after", kept.close())
  }
  print("done")
}
main()
