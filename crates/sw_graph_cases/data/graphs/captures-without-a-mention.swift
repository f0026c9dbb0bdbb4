actor Bank {
  var balance = 1
  func open() {
    let quiet = { print(1) }
    quiet()
    Task { print(2) }
    Task.detached { print(3) }
    let outer = {
      let inner = { balance += 1 }
      inner()
    }
    outer()
  }
}
struct Point {
  let x: Int
  func later() -> () -> Int {
    return { x + self.x }
  }
}
@main struct App {
  static func main() {
    var count = 0
    let grow = {
      count += 1
      let show = { [count] in print(count) }
      show()
      let again = { count += 2 }
      again()
    }
    grow()
    let later = Point(x: 1).later()
    print(later())
  }
}
