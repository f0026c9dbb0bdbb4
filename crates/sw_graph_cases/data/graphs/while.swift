func odd(below limit: Int) -> Int {
  var sum = 0
  var n = 0
  while n < limit {
    n += 1
    if n % 2 == 0 {
      continue
    }
    if sum > 100 {
      break
    }
    sum += n
  }
  return sum
}
func forever() -> Int {
  var n = 1
  while true {
    if n > 9 {
      return n
    }
    while n < 5 || n == 7 {
      n += 1
      break
    }
    n *= 2
  }
}
@main struct App {
  static func main() {
    print(odd(below: 7), forever())
    while false {
    }
  }
}
