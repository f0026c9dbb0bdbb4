actor Bank {
  var rule: @Sendable (Int) -> Int
  let limit: @Sendable () -> Int
  init(_ rule: @escaping @Sendable (Int) -> Int, limit: @escaping @Sendable () -> Int) {
    self.limit = limit
    self.rule = rule
  }
  func own() -> Int {
    return rule(limit()) + self.rule(4)
  }
}
@main struct App {
  static func main() async {
    let bank = Bank({ (n: Int) -> Int in n * 2 }, limit: { 3 })
    print(await bank.rule(6), bank.limit(), await bank.own())
  }
}
