struct Size {
  var width: Int
}
@MainActor var total = 2
@MainActor var size = Size(width: 1)
@MainActor let fixed = 3
let open = true
actor Bank {
  var balance = 4
  let limit = 5
  func own() -> Int {
    return balance + self.balance + limit
  }
  func other(_ bank: Bank) async -> Int {
    return await bank.balance + bank.limit
  }
}
@MainActor final class View {
  var width = 6
}
@MainActor func inside(_ view: View) -> Int {
  return view.width + total + fixed
}
func outside(_ view: View) async -> Int {
  return await view.width + total + fixed + size.width
}
@main struct App {
  static func main() async {
    let bank = Bank()
    print(open, await bank.balance, bank.limit)
    print(await bank.other(bank) + bank.own())
  }
}
