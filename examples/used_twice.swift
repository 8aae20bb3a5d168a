struct A: ~Copyable {
  let n: Int
  deinit { print("end", n) }
}
func main() {
  let x = A(n: 1)
  let y = x
  print(x.n)
}
main()
