// A log writes its last line where it ends, so its file cannot be taken away before.
struct File: ~Copyable {
  let descriptor: Int

  func write(_ number: Int) {
    print("write", number, "to", descriptor)
  }

  deinit { print("close", descriptor) }
}

struct Log: ~Copyable {
  let file: File

  deinit { file.write(0) }
}

func main() {
  let log = Log(file: File(descriptor: 1))
  let file = log.file
  file.write(1)
}
main()
