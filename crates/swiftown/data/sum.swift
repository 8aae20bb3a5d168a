func main() {
  print(40 + 2)
  let width = 6
  let height = 7
  let both = width + height + height
  print(both + both)
}
main()
