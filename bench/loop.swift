// A loop whose every turn hands a struct to a call and takes one back: what bench/run.sh times.
struct Sum: ~Copyable {
  var total: Int
  var count: Int
}

func add(_ sum: consuming Sum, _ n: Int) -> Sum {
  return Sum(total: sum.total + n, count: sum.count + 1)
}

func main() {
  let turns = readInt()
  var sum = Sum(total: 0, count: 0)
  for n in 0..<turns {
    sum = add(sum, n)
  }
  print(sum.total, sum.count)
}
main()
