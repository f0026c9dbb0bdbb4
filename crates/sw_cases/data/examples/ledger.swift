final class Ledger {
  var total = 0
}
actor Bank {
  var balance = 100
  let ledger = Ledger()
  func open() -> Ledger {
    return Ledger()
  }
}
@main struct App {
  static func main() async {
    let bank = Bank()
    var count = 0
    count += 1
    let note: @Sendable () -> Int = { return count }
    let mine = await bank.open()
    print(bank.ledger.total + mine.total + note())
  }
}
