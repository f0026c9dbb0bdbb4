func numbers(a: Int, b: Int) -> Int {
  let sum = a + b * 2 - 0x1F / a % -3
  return -sum
}
func truths(a: Int, b: Int, c: Bool) {
  print(a == b, a != b, a < b, a <= b, a > b, a >= b)
  print(!c, c == true, c != false)
}
@main struct App {
  static func main() {
    print(numbers(a: 3, b: -9223372036854775808))
    truths(a: 1, b: 2, c: 1 < 2)
  }
}
