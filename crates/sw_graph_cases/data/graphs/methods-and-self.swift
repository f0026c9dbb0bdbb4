final class Counter {
  var count = 0
  func add(_ step: Int) -> Int {
    count += step
    return self.count
  }
  func twice() -> Int {
    let once = add(1)
    return once + self.add(once)
  }
  func later() -> () -> Int {
    return { self.add(count) }
  }
  func me() -> Counter {
    self
  }
}
enum Side {
  case left, right
  func isLeft() -> Bool {
    switch self {
    case .left: return true
    case .right: return false
    }
  }
}
@main struct App {
  static func main() {
    let counter = Counter()
    print(counter.me().twice(), Side.left.isLeft())
    let later = counter.later()
    print(later())
  }
}
