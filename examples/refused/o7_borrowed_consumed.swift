// What is only lent is not given away: by a borrowing parameter, a borrowing method, a closure, or a `deinit`.
struct File: ~Copyable {
  let descriptor: Int

  deinit { close(self) }
}

func close(_ file: consuming File) {
  print("closing", file.descriptor)
}

func report(_ file: borrowing File) {
  print("report", file.descriptor)
  close(file)
}

func twice(_ body: () -> Void) {
  body()
  body()
}

struct Session: ~Copyable {
  let log: File

  func end() {
    close(log)
  }
}

func main() {
  let file = File(descriptor: 1)
  report(file)
  twice { close(file) }
  let session = Session(log: File(descriptor: 2))
  session.end()
}
main()
