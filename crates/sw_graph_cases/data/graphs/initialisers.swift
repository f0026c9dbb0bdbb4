final class Plain {
}
final class Defaults {
  var first = 1
  let second: Bool = true
}
final class Written {
  let name: Int
  var size = 2
  var inner: Defaults
  init(name: Int, _ inner: Defaults) {
    self.inner = inner
    self.name = name
  }
}
actor Bank {
  var balance: Int
  let limit = 10
  init(_ balance: Int) {
    self.balance = balance
  }
}
actor Empty {
  var turned = false
}
@main struct App {
  static func main() {
    _ = Plain()
    let written = Written(name: 3, Defaults())
    let bank = Bank(written.size)
    let empty = Empty()
    _ = bank
    print(bank.limit)
    _ = empty
  }
}
