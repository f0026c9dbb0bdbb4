struct Pair {
  let left: Int?
  let right: Bool?
}
func half(_ n: Int) -> Int? {
  if n % 2 == 1 {
    return nil
  }
  return Optional(n / 2)
}
func show(_ pair: Pair) {
  if let left = pair.left {
    print(left)
  } else if true {
    print(0)
  } else if let right = pair.right {
    print(right)
  } else {
    print(1)
  }
}
@main struct App {
  static func main() {
    let none: Bool? = nil
    show(Pair(left: half(8), right: none))
    let k: Int = half(3) ?? 9
    var b: Bool = none ?? true
    b = !b
    if let h = half(k) {
      print(h, b)
    }
  }
}
