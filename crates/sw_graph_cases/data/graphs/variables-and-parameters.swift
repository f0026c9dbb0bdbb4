func shift(_ number: Int, by step: Int) -> Int {
  let first = number
  var last: Int = step
  last = first
  last += step
  last -= 1
  last *= last
  last /= 2
  last %= 7
  _ = first + last
  return last
}
@main struct App {
  static func main() {
    let once = shift(1, by: 2)
    var twice = shift(once, by: once)
    if once < twice {
      let once = twice
      twice = once
    }
    print(once, twice)
  }
}
