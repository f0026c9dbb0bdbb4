@main struct App {
  static func main() {
    let outer = { (n: Int) -> Int in
      let inner = { n + zero }
      return inner() + last()
    }
    print(outer(1), Thing(2).n)
  }
}
final class Thing {
  let n: Int
  func get() -> Int { n }
  init(_ n: Int) { self.n = n }
}
let zero = 0
func last() -> Int {
  let act = { 9 }
  return act()
}
