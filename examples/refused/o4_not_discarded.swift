// A method that gives a lock up without its `deinit` has to end it on every way.
struct Lock: ~Copyable {
  let number: Int

  consuming func unlock(quietly: Bool) {
    if readInt() < 0 { return }
    if quietly {
      discard self
    }
  }

  deinit { print("unlock", number) }
}

func main() {
  let lock = Lock(number: 1)
  lock.unlock(quietly: true)
}
main()
